cnf(a,axiom,p).
cnf(b,axiom,q).
cnf(c,axiom,~r).
cnf(d,axiom,~q).
