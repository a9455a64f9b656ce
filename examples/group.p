% A group in which each element is its own inverse is commutative.
cnf(left_identity,axiom,( multiply(identity,X) = X )).
cnf(left_inverse,axiom,( multiply(inverse(X),X) = identity )).
cnf(associativity,axiom,( multiply(multiply(X,Y),Z) = multiply(X,multiply(Y,Z)) )).
cnf(exponent_two,hypothesis,( multiply(X,X) = identity )).
cnf(commutativity,negated_conjecture,( multiply(a,b) != multiply(b,a) )).
