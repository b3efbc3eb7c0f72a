#!/usr/bin/env python3
"""Document 01's machine with order 1's signed weights and order 2's weighted bodies, advance by advance, with the parts that it leaves free as docs/DECISIONS.md says ("The free parts of the machine").

Written from those papers and in their words, not from the code: sets are Python sets, a path is a list of literals with their marks, a wish is judged by
counting its core's unmet members each time. "Broken in every set that agrees with the path" is tried out over every choice for the undecided atoms of the rule; for a weighted body
it goes by the least that such a set counts (tests/bodies.py), which tests/weighing.py tries out in the same way.
tests/optima.py uses it for the lines of single advances and for the number of advances; the costs at the end are clasp's. tests/service.py uses it as the
machine of the service.
"""
from itertools import product

from bodies import Sum, body_holds, heard, literals
from branching import free_literal, penalty

WISHES = MEMBERS = 4096


def read(text):
    """n, the rules as (kind, heads, body), the priorities highest first, the entries as (priority, literal, weight). Symbols here have no spaces in their names."""
    rules, entries, priorities, n = [], [], set(), 0
    lines = text.split('\n')
    assert lines[0] == 'asp 1 0 0' and lines[-2:] == ['0', '']
    for line in lines[1:-2]:
        f = line.split(' ')
        if f[0] == '10':
            continue
        if f[0] == '4':
            n = max([n] + [abs(int(l)) for l in f[4:]])
            continue
        v = list(map(int, f))
        if v[0] == 1:
            h, m = v[1], v[2]
            heads, body = v[3:3 + m], heard(v[3 + m:])
            rules.append((h, heads, body))
            n = max([n] + heads + [abs(l) for l in literals(body)])
        else:
            assert v[0] == 2
            priorities.add(v[1])
            for i in range(v[2]):
                entries.append((v[1], v[3 + 2 * i], v[4 + 2 * i]))
                n = max(n, abs(v[3 + 2 * i]))
    return n, rules, sorted(priorities, reverse=True), entries


def holds(m, l):
    return l in m if l > 0 else -l not in m


def stable(m, rules):
    """"no constraint's body holds in M and M is the least set closed under this .." """
    if any(h == 0 and not heads and body_holds(m, m, body) for h, heads, body in rules):
        return False
    least = set()
    while True:
        grown = set(least)
        for h, heads, body in rules:
            if body_holds(m, least, body):
                grown |= {a for a in heads if h == 0 or a in m}
        if grown == least:
            return least == m
        least = grown


def broken(m, rule):
    """"a plain rule or constraint where its body holds and no head atom is in, a choice rule never" """
    h, heads, body = rule
    return h == 0 and body_holds(m, m, body) and not any(a in m for a in heads)


class Machine:
    def __init__(self, text):
        """Of a text, or of what `read` says of one."""
        self.n, self.rules, self.priorities, self.entries = read(text) if isinstance(text, str) else text
        self.status, self.count = 'running', 0
        self.path, self.blamed = [], []
        # "A level's lower bound starts at the sum of its negative weights, also on levels not yet in work."
        self.lower = [sum(w for q, _, w in self.entries if q == p and w < 0) for p in self.priorities]
        self.best, self.upper = None, None
        self.work = None                     # the level in work, from 0; none during the first question
        self.wishes, self.cores, self.stratum = [], [], 0
        self.cored = self.nested = 0         # cores recorded, and those with a derived wish in them

    # ---- costs and wishes

    def costs(self, m):
        return [sum(w for q, l, w in self.entries if q == p and holds(m, l)) for p in self.priorities]

    def unmet(self, m, i):
        """Wish i. An entry's is for the complement of the literal in it; the i-th of a core "holds when at most i members are unmet"."""
        kind, what, _ = self.wishes[i]
        if kind == 'entry':
            return holds(m, what)
        core, at_most = what
        return sum(self.unmet(m, j) for j in self.cores[core]) > at_most

    def assumed(self):
        """"A question assumes the wishes with remaining weight at least the stratum." The first question has none."""
        return [] if self.work is None else [i for i, w in enumerate(self.wishes) if w[2] >= self.stratum]

    # ---- the path

    def always_broken(self, path, rule):
        """Broken in every set that agrees with the path: only the rule's own atoms matter."""
        h, heads, body = rule
        if isinstance(body, Sum):
            return h == 0 and all(-a in path for a in heads) and body.least(path) >= body.bound
        if h == 1 or any(-l in path for l in body) or any(a in path for a in heads):
            return False                     # a choice rule; or in no set that agrees does the body hold, or in each a head atom is in
        atoms = sorted({abs(l) for l in heads + body})
        free = [a for a in atoms if a not in path and -a not in path]
        inside = {a for a in atoms if a in path}
        return all(broken(inside | {a for a, b in zip(free, bits) if b}, rule) for bits in product((False, True), repeat=len(free)))

    def breaker(self, path, rule):
        """The literal that would break the rule, as far as it is noted; None where there is none."""
        h, heads, body = rule
        if h == 1 or any(a in path for a in heads):
            return None
        if isinstance(body, Sum):            # the head's complement where the body counts enough in every set that agrees; or a literal of the body where the head is out
            if body.least(path) >= body.bound:
                return next((-a for a in heads if -a not in path), None)
            return body.breaker(path) if all(-a in path for a in heads) else None
        free = {abs(l) for l in heads + body if l not in path and -l not in path}
        # where two atoms of the rule are undecided, whatever is added, the other can spare it
        return next((l for a in free for l in (a, -a) if self.always_broken(path | {l}, rule)), None) if len(free) == 1 else None

    def branch(self, path, assumed):
        """The complement of the first literal that would break a rule, rule by rule; else the literal that the first assumed wish of an entry with an undecided
        atom wishes for; else the lowest undecided atom, by tests/branching.py."""
        decided = {abs(l) for l in path}
        for rule in self.rules:
            noted = self.breaker(path, rule)
            if noted is not None:
                return -noted
        for i in assumed:
            if self.wishes[i][0] == 'entry' and abs(self.wishes[i][1]) not in decided:
                return -self.wishes[i][1]
        return free_literal(min(a for a in range(1, self.n + 1) if a not in decided), self.rules, self.entries)

    def blame(self, unmet):
        """"one of them is blamed, one already blamed before a new one" (the first of several)"""
        if not any(i in self.blamed for i in unmet):
            self.blamed.append(unmet[0])

    def fail(self):
        """Cut after the last first literal and replace that by its complement, marked second; without one, the question ends."""
        while self.path and self.path[-1][1] != 'first':
            self.path.pop()
        if not self.path:
            return self.end(None)
        l, _ = self.path.pop()
        self.path.append((-l, 'second'))

    def advance(self):
        if self.status != 'running':
            return
        self.count += 1
        path = {l for l, _ in self.path}
        assumed = self.assumed()
        if any(self.always_broken(path, r) for r in self.rules):
            return self.fail()
        if len(path) == self.n:
            m = {l for l in path if l > 0}
            settled = 0 if self.work is None else self.work
            if not stable(m, self.rules) or self.costs(m)[:settled] != self.lower[:settled]:
                return self.fail()
            unmet = [i for i in assumed if self.unmet(m, i)]
            if not unmet:
                return self.end(m)
            self.blame(unmet)
            return self.fail()
        # a wish for an entry is broken in every set that agrees when the literal in it is on the path
        unmet = [i for i in assumed if self.wishes[i][0] == 'entry' and self.wishes[i][1] in path]
        if unmet:
            self.blame(unmet)
            return self.fail()
        self.path.append((self.branch(path, assumed), 'first'))

    # ---- the end of a question

    def end(self, m):
        core, self.path, self.blamed = self.blamed, [], []
        if m is not None and (self.best is None or self.costs(m) < self.upper):
            self.best, self.upper = m, self.costs(m)
        if self.work is None:
            if m is None:
                self.status = 'incoherent'
            else:
                self.open(0)
            return
        if m is not None:
            self.stratum = max([w[2] for w in self.wishes if w[2] < self.stratum], default=0)
        else:
            assert core
            if len(self.wishes) + len(core) - 1 > WISHES or sum(map(len, self.cores)) + len(core) > MEMBERS:
                self.status = 'full'
                return
            self.cored += 1
            self.nested += any(self.wishes[i][0] == 'core' for i in core)
            for i in core:
                self.wishes[i][2] -= self.stratum
            self.cores.append(core)
            self.wishes += [['core', (len(self.cores) - 1, i), self.stratum] for i in range(1, len(core))]
            self.lower[self.work] += self.stratum
        if self.upper[self.work] == self.lower[self.work]:
            self.open(self.work + 1)

    def open(self, level):
        """Level after level: one that the best model settles at once is settled in the same advance."""
        while level < len(self.priorities) and self.upper[level] == self.lower[level]:
            level += 1
        if level == len(self.priorities):
            self.status, self.work = 'optimum', None
            return
        self.work, self.cores = level, []
        self.wishes = [['entry', *penalty(l, w)] for q, l, w in self.entries if q == self.priorities[level] and w != 0]
        self.stratum = max(w[2] for w in self.wishes)

    def line(self):
        upper = ['-'] * len(self.lower) if self.upper is None else self.upper
        level, stratum = (0, 0) if self.work is None else (self.work + 1, self.stratum)
        return ' '.join(map(str, [self.count, self.status, 'lower', *self.lower, 'upper', *upper, 'level', level, 'stratum', stratum]))
