% Each resolvent is twice as large as the one before.
cnf(a,axiom,p(a,a)).
cnf(b,axiom,~p(X,Z) | p(f(X,X),a)).
