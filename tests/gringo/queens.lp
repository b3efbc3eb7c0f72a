% Five queens.
row(1..5).
{ queen(X,Y) : row(Y) } :- row(X).
placed(X) :- queen(X,Y).
:- row(X), not placed(X).
:- queen(X,Y), queen(X,Z), Y < Z.
:- queen(X,Z), queen(Y,Z), X < Y.
:- queen(X,Y), queen(U,V), X < U, |X-U| = |Y-V|.
#show queen/2.
