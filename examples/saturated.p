cnf(first,axiom,p).
cnf(second,axiom,~q).
