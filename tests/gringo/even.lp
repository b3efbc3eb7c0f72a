% Loops through negation, no show statement, symbols of facts.
p(1..8). odd(X) :- p(X), not even(X). even(X) :- p(X), not odd(X).
:- even(X), even(X+1).
both(X,Y) :- odd(X), odd(Y), X < Y.
#minimize { 1@3,X,Y : both(X,Y); 7@-20,X : even(X) }.
