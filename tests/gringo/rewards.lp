% Crosses worth a reward: gringo prints #maximize as minimise with weights below zero.
sire("Bo"). sire("Ox"). dam("Ada"). dam("Eve"). dam("Una").
reward("Bo","Eve",30). reward("Ox","Ada",20). reward("Ox","Una",1000000). reward("Bo","Una",0).
{ mate(S,D) } :- sire(S), dam(D).
mated(D) :- mate(S,D).
:- mate(S,D), mate(T,D), S < T.
#maximize { R@2,S,D : mate(S,D), reward(S,D,R) }.
% a fee for each cross, and a reward for a dam that rests
:~ mate(S,D). [5@1,S,D]
:~ dam(D), not mated(D). [-7@1,D]
% the same literal with both signs: two entries
:~ mate("Bo","Ada"). [-4@-1,a]
:~ mate("Bo","Ada"). [9@-1,b]
#show mate/2.
