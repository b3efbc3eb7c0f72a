% Sought crosses: buyers have asked for their eggs, and each cross that is made earns what it is worth. Give it beside mating.lp, with facts (rewards.lp has some):
%   sought(S,D,W).         the cross of S and D is worth W
%
% Rewards have a level of their own, above the four of mating.lp: @5. What is maximised counts as a cost below zero: gringo prints the weight -W.

#maximize { W@5,S,D : sought(S,D,W), mate(S,D) }.
