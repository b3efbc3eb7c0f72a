% Tank capacities: counts, sums and bounded choices, with negated conditions and weights below zero, which gringo turns round.
fish(ada,5). fish(eve,3). fish(una,4). fish(ida,2). tank(east,8). tank(west,7).
1 { in(F,T) : tank(T,_) } 1 :- fish(F,_).
:- tank(T,N), #sum { W,F : in(F,T), fish(F,W) } > N.
:- tank(T,_), #count { F : in(F,T) } > 3.
crowded(T) :- tank(T,N), #sum { W,F : in(F,T), fish(F,W) } >= N.
even :- #sum { W,F : in(F,east), fish(F,W); -W,F,w : in(F,west), fish(F,W) } = 0.
few(T) :- tank(T,_), not 2 { in(F,T) : fish(F,_) }.
{ heated(T) : tank(T,_) } 1 :- 1 { crowded(T) }.
:- #count { F : not in(F,east), fish(F,_) } > 3.
:~ crowded(T). [2@1,T]
:~ heated(T). [-1@1,T]
:~ not even. [1@2]
:~ few(T). [3@1,T]
#show in/2. #show crowded/1. #show heated/1. #show even/0. #show few/1.
