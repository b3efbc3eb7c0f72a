% examples/mating.lp with its limits said by constraints on one atom more than there may be, as they were before sums were read: no two, no three .. no seven at once. All else is as it is there: the
% same plans and costs. For bench/compare alone. No limit is above 6, and every dam takes one place of her tank.

may(S,D) :- sire(S), dam(D), not barred(S,D).
barred(S,D) :- kin(S,D,K), close(C), K >= C.
fits(D,T) :- dam(D), tank(T,_), not unfit(D,T).

% A dam has one sire, or rests: never two of these, and never all N + 1 of them out. And she stands in one tank.
{ mate(S,D) } :- may(S,D).
{ rest(D) } :- dam(D).
{ in(D,T) } :- fits(D,T).
:- rest(D), mate(S,D).
:- mate(S,D), mate(R,D), S < R.
:- dam(D), N = #count { S : may(S,D) }, N+1 { not mate(S,D) : may(S,D); not rest(D) }.
:- in(D,T), in(D,U), T < U.
:- dam(D), not in(D,T) : fits(D,T).
:- mate(S,D), in(D,T), unfit(S,T).

% Limits: the dams of a sire, the places of a tank.
:- serves(S,1), mate(S,A), mate(S,B), A < B.
:- serves(S,2), mate(S,A), mate(S,B), mate(S,C), A < B, B < C.
:- serves(S,3), mate(S,A), mate(S,B), mate(S,C), mate(S,D), A < B, B < C, C < D.
:- serves(S,4), mate(S,A), mate(S,B), mate(S,C), mate(S,D), mate(S,E), A < B, B < C, C < D, D < E.
:- serves(S,5), mate(S,A), mate(S,B), mate(S,C), mate(S,D), mate(S,E), mate(S,F), A < B, B < C, C < D, D < E, E < F.
:- serves(S,6), mate(S,A), mate(S,B), mate(S,C), mate(S,D), mate(S,E), mate(S,F), mate(S,G), A < B, B < C, C < D, D < E, E < F, F < G.
:- tank(T,1), in(A,T), in(B,T), A < B.
:- tank(T,2), in(A,T), in(B,T), in(C,T), A < B, B < C.
:- tank(T,3), in(A,T), in(B,T), in(C,T), in(D,T), A < B, B < C, C < D.
:- tank(T,4), in(A,T), in(B,T), in(C,T), in(D,T), in(E,T), A < B, B < C, C < D, D < E.
:- tank(T,5), in(A,T), in(B,T), in(C,T), in(D,T), in(E,T), in(F,T), A < B, B < C, C < D, D < E, E < F.
:- tank(T,6), in(A,T), in(B,T), in(C,T), in(D,T), in(E,T), in(F,T), in(G,T), A < B, B < C, C < D, D < E, E < F, F < G.

% What follows from the pairs: a sire that is put to no dam; a sire that is carried to another tank for a dam.
idle(S) :- use(S,_), not mate(S,D) : may(S,D).
moved(S,D,T) :- mate(S,D), in(D,T), home(S,H), H != T.

:~ rest(D). [1@4,D]
:~ mate(S,D), kin(S,D,K), K > 0. [K@3,S,D]
:~ prefer(S,D,W), may(S,D), not mate(S,D). [W@2,pair,S,D]
:~ idle(S), use(S,W). [W@2,use,S]
:~ in(D,T), home(D,H), way(H,T,C). [C@1,dam,D,T]
:~ moved(S,D,T), home(S,H), way(H,T,C). [C@1,sire,S,D,T]

#show mate/2.
#show in/2.
#show rest/1.
