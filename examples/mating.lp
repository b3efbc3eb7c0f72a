% Mating plans for a hatchery: which sire is put to which dam, and in which tank the pair stands.
%
% A hatchery is given by these facts (small.lp and middle.lp are two):
%   sire(S).  dam(D).      the breeders
%   kin(S,D,K).            their kinship in thousandths, which is their offspring's inbreeding; 0 where none is given
%   close(K).              pairs with a kinship of K or more are never put together
%   serves(S,N).           S is put to at most N dams
%   tank(T,N).             T has N places for dams, bred or not
%   size(D,W).             D takes W places of her tank; 1 where none is given
%   unfit(B,T).            breeder B must not go into tank T
%   prefer(S,D,W).         a wish for the pair, of weight W;  use(S,W): a wish that S is put to some dam
%   home(B,T).             where B stands today;  way(T,U,C): carrying a fish from T to U costs C
%
% Wishes by level, the highest first. A level is settled before the next is looked at.
%   @4 every dam is bred   @3 little inbreeding   @2 preferred pairs, and sires in use   @1 little carrying

may(S,D) :- sire(S), dam(D), not barred(S,D).
barred(S,D) :- kin(S,D,K), close(C), K >= C.
fits(D,T) :- dam(D), tank(T,_), not unfit(D,T).

% A dam has one sire, or rests: never two of these, and never all N + 1 of them out. And she stands in one tank.
{ mate(S,D) } :- may(S,D).
{ rest(D) } :- dam(D).
{ in(D,T) } :- fits(D,T).
:- dam(D), 2 { mate(S,D) : may(S,D); rest(D) }.
:- dam(D), N = #count { S : may(S,D) }, N+1 { not mate(S,D) : may(S,D); not rest(D) }.
:- dam(D), 2 { in(D,T) : fits(D,T) }.
:- dam(D), not in(D,T) : fits(D,T).
:- mate(S,D), in(D,T), unfit(S,T).

% Limits: the dams of a sire, the places of a tank.
:- serves(S,N), #count { D : mate(S,D) } > N.
:- tank(T,N), #sum { W,D : in(D,T), size(D,W); 1,D : in(D,T), not size(D,_) } > N.

% What follows from the pairs: a sire that is put to no dam; a sire that is carried to another tank for a dam.
idle(S) :- use(S,_), not mate(S,D) : may(S,D).
moved(S,D,T) :- mate(S,D), in(D,T), home(S,H), H != T.

:~ rest(D). [1@4,D]
:~ mate(S,D), kin(S,D,K), K > 0. [K@3,S,D]
:~ prefer(S,D,W), may(S,D), not mate(S,D). [W@2,pair,S,D]
:~ idle(S), use(S,W). [W@2,use,S]
:~ in(D,T), home(D,H), way(H,T,C). [C@1,dam,D,T]
:~ moved(S,D,T), home(S,H), way(H,T,C). [C@1,sire,S,D,T]

#defined size/2.

#show mate/2.
#show in/2.
#show rest/1.
