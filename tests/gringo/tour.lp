% A shortest tour.
node(1..4). cost(1,2,2). cost(2,1,2). cost(1,3,3). cost(3,1,3). cost(2,3,4). cost(3,2,4). cost(3,4,1). cost(4,3,1). cost(2,4,5). cost(4,2,5). cost(1,4,7). cost(4,1,7).
{ go(X,Y) : cost(X,Y,C) } :- node(X).
out(X) :- go(X,Y).
in(Y) :- go(X,Y).
:- node(X), not out(X).
:- node(X), not in(X).
:- go(X,Y), go(X,Z), Y < Z.
:- go(X,Z), go(Y,Z), X < Y.
reached(Y) :- go(1,Y).
reached(Y) :- reached(X), go(X,Y).
:- node(X), not reached(X).
#minimize { C,X,Y : go(X,Y), cost(X,Y,C) }.
#show go/2.
