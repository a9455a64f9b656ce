cnf(a,axiom,p | ~p).
cnf(b,axiom,q).
cnf(c,axiom,r | q).
