cnf(left_identity,axiom,( f(e,X) = X )).
cnf(right_identity,axiom,( f(X,e) = X )).
cnf(square,axiom,( f(X,X) = e )).
cnf(assoc,axiom,( f(f(X,Y),Z) = f(X,f(Y,Z)) )).
cnf(goal,negated_conjecture,( f(a,b) != f(b,a) )).
