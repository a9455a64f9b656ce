% In a monoid a left neutral element and a right one are the same.
cnf(left,axiom, mul(e,X) = X ).
cnf(right,axiom, mul(X,f) = X ).
cnf(differ,negated_conjecture, e != f ).
