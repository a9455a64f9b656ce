% The axioms of a monoid stand in a file of their own, of which two are taken.
include('examples/monoid.p',[left,right]).
cnf(differ,negated_conjecture, e != f ).
