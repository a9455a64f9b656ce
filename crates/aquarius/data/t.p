cnf(first,axiom,q | p).
cnf(second,axiom,r).
cnf(third,axiom,~p | q).
cnf(fourth,axiom,~q).
