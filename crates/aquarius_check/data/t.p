cnf(a,axiom,p(X)).
cnf(b,axiom,~p(f(X))).
