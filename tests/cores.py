#!/usr/bin/env python3
"""Writes the script (stdin) and the expected figures (stdout) of crates/cores_script, from document 01, "Wishes and cores", and order 1.

    python3 tests/cores.py          writes crates/cores_script/stdin and stdout
    python3 tests/cores.py --check  compares them with what stands there

Nothing here comes from the program: a level is its wishes and cores, each wish judged as document 01 says.
"""
import itertools, os, random, sys

LIMIT = 4096
lines, out = [], []
entries = []


class Level:
    """The level in work: wishes (the literal that an entry's is against, or a core and an index), remaining weights, cores, how far the lower bound has risen."""

    def __init__(self, priority):
        here = [(l, w) for (p, l, w) in entries if p == priority and w != 0]
        self.wishes = [("entry", l if w > 0 else -l) for l, w in here]
        self.rest = [abs(w) for l, w in here]
        self.cores, self.lower = [], 0

    def unmet(self, p, atoms, known):
        """A wish for the complement of the literal in it; the i-th of a core holds when at most i members are unmet."""
        w = self.wishes[p]
        if w[0] == "entry":
            return (abs(w[1]) in atoms) == (w[1] > 0)
        _, core, i = w
        if core not in known:
            known[core] = sum(self.unmet(m, atoms, known) for m in self.cores[core - 1])
        return known[core] > i

    def violated_weight(self, atoms):
        known = {}
        return sum(r for p, r in enumerate(self.rest) if self.unmet(p, atoms, known))

    def record(self, s, core):
        """Full, or: the bound rises by the stratum, each member loses it, c + 1 members give c new wishes of that weight."""
        c = len(core) - 1
        if len(self.wishes) + c > LIMIT or sum(map(len, self.cores)) + len(core) > LIMIT:
            return True
        self.lower += s
        for m in core:
            self.rest[m] -= s
            assert self.rest[m] >= 0
        self.cores.append(list(core))
        for i in range(1, c + 1):
            self.wishes.append(("core", len(self.cores), i))
            self.rest.append(s)
        return False

    def under(self, s):
        return max([r for r in self.rest if r < s], default=0)

    def assumed(self, s):
        return [p for p, r in enumerate(self.rest) if r >= s]


def entry(p, l, w):
    entries.append((p, l, w))
    lines.append(f"1 {p} {int(l < 0)} {abs(l)} {int(w < 0)} {abs(w)}")


def opened(p):
    l = Level(p)
    lines.append(f"2 {p}")
    out.append(f"0 0 {len(l.wishes)}")
    return l


def core(l, s, ms):
    full = l.record(s, ms)
    lines.append(f"3 {s} {len(ms)} " + " ".join(map(str, ms)))
    out.append(f"{int(full)} {l.lower} {len(l.wishes)}")
    return full


def judge(l, atoms):
    lines.append(f"4 {len(atoms)} " + " ".join(map(str, sorted(atoms))))
    out.append(str(l.violated_weight(atoms)))
    return l.violated_weight(atoms)


def strata(l, s):
    a = l.assumed(s)
    lines.append(f"5 {s}")
    out.append(f"{l.under(s)} {len(a)} {sum(l.wishes[p][0] == 'entry' for p in a)}")


def cost(p, atoms):
    return sum(w for (q, l, w) in entries if q == p and (abs(l) in atoms) == (l > 0))


def start(p):
    """Where the lower bound of a level starts: "at the sum of its negative weights"."""
    return sum(w for (q, _, w) in entries if q == p and w < 0)


# ---- 1. the starred sample, beside entries of another priority and of weight 0
for p, l, w in [(7, 1, 7), (3, 4, 9), (7, 2, 5), (7, 5, 0), (7, 3, 5), (3, -1, 2)]:
    entry(p, l, w)
l = opened(7)
strata(l, 1000001)
assert not core(l, 5, [0, 1, 2]) and l.lower == 5 and l.rest == [2, 0, 0, 5, 5]
assert l.lower + judge(l, {1, 2, 3}) == 17
for a in [set(), {1}, {2, 3}, {1, 3}, {4, 5}]:
    judge(l, a)
l = opened(3)
strata(l, 9)
for a in [set(), {1}, {4}, {1, 4}]:
    judge(l, a)

# the same by rewards: a weight of -7 on the complement of 1, and so on
for l, w in [(-1, -7), (-2, -5), (5, 0), (-3, -5)]:
    entry(8, l, w)
l = opened(8)
strata(l, 1000001)
assert not core(l, 5, [0, 1, 2]) and l.rest == [2, 0, 0, 5, 5]
assert start(8) + l.lower + judge(l, {1, 2, 3}) == cost(8, {1, 2, 3}) == 0
for a in [set(), {1}, {2, 3}, {1, 3}, {4, 5}]:
    judge(l, a)

# ---- 2. stratified runs over classes of models, by brute force: each query's core is a smallest refuted part of what it assumes
random.seed(5)
ATOMS = range(1, 7)
SETS = [set(c) for k in range(7) for c in itertools.combinations(ATOMS, k)]
for trial in range(6):
    base = 10 + trial
    sign = [1] if trial < 3 else [1, -1]
    for _ in range(7 if trial < 3 else 6):
        entry(base, random.choice([1, 1, -1]) * random.choice(ATOMS), random.choice([0, 2, 3, 5, 5, 8]) * random.choice(sign))
    clauses = [[random.choice([1, 1, -1]) * random.choice(ATOMS) for _ in range(3)] for _ in range(6)]
    models = [a for a in SETS if all(any((abs(x) in a) == (x > 0) for x in c) for c in clauses)]
    l = opened(base)
    s = l.under(1000001)
    while s > 0:
        strata(l, s)
        met = lambda ps: [a for a in models if not any(l.unmet(p, a, {}) for p in ps)]
        part = l.assumed(s)
        if met(part):
            s = l.under(s)
            continue
        for p in list(part):
            if not met([q for q in part if q != p]):
                part.remove(p)
        core(l, s, part)
        for a in models:
            assert cost(base, a) == start(base) + l.lower + l.violated_weight(a)
        for a in random.sample(SETS, 6):
            judge(l, a)
    for a in SETS:
        judge(l, a)
    assert min(cost(base, a) for a in models) == start(base) + l.lower

# ---- 3. nested cores: the two new soft literals of each core are in the next, so that judging the last without keeping counts takes 2^150 calls
for i in range(152):
    entry(20, 100 + i, 1)
l = opened(20)
ms = [0, 1, 2]
for j in range(150):
    core(l, 1, ms)
    k = len(l.wishes)
    ms = [k - 2, k - 1, 3 + j]
strata(l, 1)
judge(l, {100 + i for i in range(152)})
judge(l, {100 + i for i in range(152) if i % 3})
judge(l, {100})



def calls(l, p, kept):
    """How often a soft literal is judged to judge p, if no count is kept; with `kept`, if each core is counted once."""
    w = l.wishes[p]
    if w[0] == "entry" or w[1] in kept[0]:
        return 1
    if kept[1]:
        kept[0].add(w[1])
        return 1 + sum(calls(l, m, kept) for m in l.cores[w[1] - 1])
    return 1 + sum(naive[m] if m in naive else naive.setdefault(m, calls(l, m, kept)) for m in l.cores[w[1] - 1])


naive = {}
for p in range(len(l.wishes)):
    naive[p] = calls(l, p, (set(), False))
nested = (len(str(naive[len(l.wishes) - 1])), calls(l, len(l.wishes) - 1, (set(), True)))

# ---- 4. the limit of soft literals: 4,096 pass, one more does not; a core of one member gives none
for i in range(300):
    entry(30, 500 + i, 100)
l = opened(30)
for j in range(12):
    core(l, 1, list(range(300)))
rest = LIMIT - len(l.wishes)
assert core(l, 1, list(range(rest + 2)))
assert not core(l, 1, list(range(rest + 1))) and len(l.wishes) == LIMIT
assert core(l, 1, [0, 1])
assert not core(l, 1, [5])
judge(l, {500 + i for i in range(300)})

# ---- 5. the limit of members: 4,096 pass, one more does not, with soft literals to spare
for i in range(9):
    entry(40, 1000 + i, 600)
l = opened(40)
for j in range(511):
    core(l, 1, list(range(8)))
assert core(l, 1, list(range(9)))
assert not core(l, 1, list(range(8))) and sum(map(len, l.cores)) == LIMIT
assert core(l, 1, [0])
judge(l, {1000, 1001})
judge(l, {1000 + i for i in range(9)})


assert len(entries) <= 512


def main():
    here = os.path.join(os.path.dirname(os.path.abspath(__file__)), "..", "crates", "cores_script")
    files = {"stdin": "\n".join(lines) + "\n", "stdout": "\n".join(out) + "\n"}
    assert len(files["stdin"]) <= 65536, len(files["stdin"])
    for name, text in files.items():
        path = os.path.join(here, name)
        if "--check" in sys.argv:
            assert open(path).read() == text, name
        else:
            open(path, "w").write(text)
    print(len(files["stdin"]), "bytes,", len(out), "figures")
    print("the last of 150 nested cores: a number of", nested[0], "digits of calls without kept counts,", nested[1], "with them")


main()
