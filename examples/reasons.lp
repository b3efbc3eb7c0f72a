% "A derived atom needs one of its reasons", said as constraints. They follow from the rules of mating.lp and change no plan and no cost. But the search sees them at once;
% without them it finds out only at the end of a whole path that nothing derives the atom.
:- idle(S), mate(S,D).
:- moved(S,D,T), not mate(S,D).
:- moved(S,D,T), not in(D,T).
