% A mating plan: pair sires and dams, avoid kin, prefer merit. Negative priorities, strings as names.
sire("Bo"). sire("Ox"). dam("Ada"). dam("Eve"). dam("Una").
kin("Bo","Ada"). merit("Bo","Eve",3). merit("Ox","Ada",2). merit("Ox","Una",5). merit("Bo","Una",1).
{ mate(S,D) } :- sire(S), dam(D).
mated(D) :- mate(S,D).
:~ dam(D), not mated(D). [10@5,D]
:~ mate(S,D), kin(S,D). [100@-3,S,D]
:~ merit(S,D,M), not mate(S,D). [M@0,S,D]
:- mate(S,D), mate(T,D), S < T.
#show "mate with " : mate("Bo","Eve").
#show mate/2.
#show mated/1.
