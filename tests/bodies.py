"""A rule's body, for every model of the machine in this folder: a list of literals that all have to hold, or a Sum (order 2, "Tank capacities in the rules"). bench/machine.h has the same in C.

A path is a set of literals. What is said of paths is the exact test and the literal that is noted, as docs/DECISIONS.md has them (order 2).
"""
from collections import Counter


class Sum:
    """"`1 bound k`, then k pairs of literal and weight" """
    def __init__(self, bound, pairs):
        self.bound, self.pairs = bound, pairs
        self.total = Counter()                     # by literal: the same one twice counts twice
        for l, w in pairs:
            self.total[l] += w
        self.atoms = {abs(l) for l in self.total}
        self.mixed = len(self.atoms) < len(self.total)           # an atom stands with both signs, whatever the weights

    def least(self, path):
        """The least that a set counts that agrees with the path: an undecided atom is in or out, whichever counts less."""
        return sum(min(self.total[l] for l in (a, -a) if -l not in path) for a in self.atoms)

    def breaker(self, path):
        """The first undecided literal, pair by pair, that is worth what the bound lacks; None where there is none. Where no atom stands with both signs a pair is worth its own weight."""
        lack = self.bound - self.least(path)
        for l, w in self.pairs:
            if l not in path and -l not in path and (max(0, self.total[l] - self.total[-l]) if self.mixed else w) >= lack:
                return l


def literals(body):
    """The literals in it; each takes one place in the literal table."""
    return [l for l, _ in body.pairs] if isinstance(body, Sum) else body


def body_holds(m, growing, body):
    """"a rule whose negated atoms are all outside M, and whose positive atoms are all in the set"; order 2: "counts, pair by pair, the weights of positive atoms in the growing set and of
    negated atoms outside M, and holds at bound or more"."""
    true = lambda l: l in growing if l > 0 else -l not in m
    if isinstance(body, Sum):
        return sum(w for l, w in body.pairs if true(l)) >= body.bound
    return all(true(l) for l in body)


def said(body):
    """As it stands in a text."""
    if isinstance(body, Sum):
        return [1, body.bound, len(body.pairs), *[x for p in body.pairs for x in p]]
    return [0, len(body), *body]


def heard(numbers):
    """The other way: a body from the numbers of a line, from b on."""
    if numbers[0] == 0:
        assert numbers[1] == len(numbers) - 2
        return numbers[2:]
    assert numbers[0] == 1 and 2 * numbers[2] == len(numbers) - 3
    return Sum(numbers[1], list(zip(numbers[3::2], numbers[4::2])))


def some_sum(r, literal):
    """A made-up weighted body: weights of 0 and up, literals twice or with both signs; bounds of 0, that are just reached or just not, and far off."""
    scale = r.choice(((1,), (1, 1, 2), (0, 1, 2, 3), (1, 2, 5, 9), (0, 1, 1000, 999999, 1000000)))
    weight = lambda: r.choice(scale)
    pairs = [(literal(), weight()) for _ in range(r.choice((0, 1, 2, 2, 3, 3, 4, 5, 7)))]
    for _ in range(r.choice((0, 0, 1, 2)) if pairs else 0):
        pairs.insert(r.randint(0, len(pairs)), (r.choice((1, -1)) * r.choice(pairs)[0], weight()))
    most = sum(w for _, w in pairs)
    return Sum(r.choice((0, 1, 2, max(0, most - 1), most, most + 1, 1000000000, *[r.randint(0, most) for _ in range(7)])), pairs)
