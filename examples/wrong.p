cnf(a,axiom,p).
cnf(b,goal,~p).
