cnf(a,axiom,q | p).
cnf(b,axiom,~p | q).
cnf(c,axiom,~q).
