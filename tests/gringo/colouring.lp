% Three colours for a small graph; few red nodes.
node(1..6). edge(1,2). edge(1,3). edge(1,4). edge(2,4). edge(2,5). edge(2,6). edge(3,4). edge(3,5). edge(4,5). edge(5,6).
colour(red). colour(green). colour(blue).
{ paint(X,C) : colour(C) } :- node(X).
painted(X) :- paint(X,C).
:- node(X), not painted(X).
:- paint(X,C), paint(X,D), C < D.
:- edge(X,Y), paint(X,C), paint(Y,C).
:~ paint(X,red). [1@2,X]
:~ paint(X,green). [2@1,X]
#show paint/2.
