#!/usr/bin/env python3
"""Writes the data of the test program crates/optima: programs in aspif, the lines of their single advances and the line at their end.

    apt-get install clasp && tests/models/make.py && tests/optima.py

The programs are those of crates/models, some with cores, strata and levels written by hand, forty random ones, fifty with weights of both signs and sixty with weighted bodies. The costs at the end, or that there is no
stable model, are clasp's (Debian's package clasp). The lines of single advances and the number of advances come from tests/optima_model.py, whose end must be
clasp's too. No line comes from the project's own programs.
"""
import os
import random
import sys

HERE = os.path.dirname(os.path.abspath(__file__))
sys.path.insert(0, HERE)
import clasps
from bodies import said, some_sum
from optima_model import Machine, holds, read

CRATES = os.path.join(HERE, '..', 'crates')
OUT = os.path.join(CRATES, 'optima')
SMALL = 6            # up to so many atoms every advance is printed
MOST = 3000          # advances of a random program

CHOICE3 = '1 1 3 1 2 3 0 0\n'
CHOICE4 = '1 1 4 1 2 3 4 0 0\n'
CHOICE6 = '1 1 6 1 2 3 4 5 6 0 0\n'


def pairs(k, atoms):
    """Never k + 1 of the atoms false: at least so many are in."""
    from itertools import combinations
    return ''.join(f'1 0 0 0 {len(c)} ' + ' '.join(f'-{a}' for a in c) + '\n' for c in combinations(atoms, k))


BY_HAND = {
    # document 01's core: remaining 7, 5, 5 at stratum 5
    'sevenfive': CHOICE3 + '1 0 0 0 3 -1 -2 -3\n2 0 3 1 7 2 5 3 5\n',
    'allseven': '1 0 1 1 0 0\n1 0 1 2 0 0\n1 0 1 3 0 0\n2 0 3 1 7 2 5 3 5\n',
    # at least two, three of so many: cores of derived soft literals
    'twoofthree': CHOICE3 + pairs(2, [1, 2, 3]) + '2 0 3 1 7 2 5 3 5\n',
    'twooffour': CHOICE4 + pairs(3, [1, 2, 3, 4]) + '2 0 4 1 1 2 1 3 1 4 1\n',
    'threeoffour': CHOICE4 + pairs(2, [1, 2, 3, 4]) + '2 0 4 1 3 2 2 3 2 4 1\n',
    'threeofsix': CHOICE6 + pairs(4, [1, 2, 3, 4, 5, 6]) + '2 0 6 1 1 2 1 3 1 4 1 5 1 6 1\n',
    'fourofsix': CHOICE6 + pairs(3, [1, 2, 3, 4, 5, 6]) + '2 -1 6 1 9 2 7 3 5 4 5 5 3 6 1\n',
    # (0, 900) is cheaper than (1, 0)
    'order': '1 1 1 1 0 0\n2 2 1 1 1\n2 1 1 -1 900\n',
    # the same literal twice, both signs, weight 0, a level without entries, a level that no model pays for
    'twice2': '1 1 2 1 2 0 0\n1 0 0 0 2 -1 -2\n2 5 4 1 2 1 3 2 4 -2 0\n',
    'signs': CHOICE3 + '2 0 6 1 3 -1 2 2 1 -2 4 3 1 -3 1\n',
    'empty': '1 1 1 1 0 0\n1 0 0 0 1 -1\n2 9 0\n2 4 1 -1 8\n2 -2 1 1 3\n2 -7 0\n',
    # three levels, each with its own core
    'levels': CHOICE4 + '1 0 0 0 2 -1 -2\n1 0 0 0 2 -3 -4\n1 0 0 0 2 1 3\n2 3 2 1 2 2 2\n2 0 2 3 5 4 1\n2 -3 2 -1 1 -3 1\n',
    # a lower level that the settled one decides
    'decided': CHOICE3 + pairs(2, [1, 2, 3]) + '2 1 3 1 1 2 1 3 2\n2 0 1 -3 50\n2 -1 2 1 1 2 3\n',
    # unfounded loops beside costs
    'loopcost': '1 1 1 1 0 0\n1 0 1 2 0 1 3\n1 0 1 3 0 1 2\n1 0 1 2 0 1 1\n2 0 2 -2 4 1 3\n',
    'wants': '1 1 2 1 2 0 0\n1 0 1 3 0 1 4\n1 0 1 4 0 1 3\n2 1 1 -3 5\n2 0 2 1 1 -2 1\n',
    'eights': '1 1 1 1 0 0\n' + ''.join(f'2 {p} 1 {"" if p % 2 else "-"}1 {p + 5}\n' for p in range(-4, 4)),
    'incoherent': '1 1 2 1 2 0 0\n1 0 0 0 1 1\n1 0 0 0 1 -1\n2 0 2 1 5 2 6\n',
}


def both_ways(atoms, times, weight=1):
    """So many wishes for each atom to be out, in turn as a cost of the atom and as a reward for its complement."""
    entries = [(a, weight) if (i + a) % 2 else (-a, -weight) for i in range(times) for a in atoms]
    return f'2 0 {len(entries)} ' + ' '.join(f'{l} {w}' for l, w in entries) + '\n'


# order 1, weights below zero
REWARDS = {
    # the cores of 'sevenfive' and 'twoofthree', by rewards
    'rewardcore': CHOICE3 + '1 0 0 0 3 -1 -2 -3\n2 0 3 -1 -7 -2 -5 -3 -5\n',
    'rewardcores': CHOICE3 + pairs(2, [1, 2, 3]) + '2 0 3 -1 -7 2 5 -3 -5\n',
    # at least three of four for the rewards of being out, and a reward for each that is in, a level below
    'paidtwice': CHOICE4 + pairs(2, [1, 2, 3, 4]) + '2 1 4 -1 -3 -2 -2 3 2 4 1\n2 0 4 1 -1 2 -1 3 -1 4 -1\n',
    # a level is settled as it opens at its start, below zero; not at 0, which the first model costs
    'atstart': '1 1 2 1 2 0 0\n2 3 1 -2 -6\n2 2 2 -2 0 1 -4\n2 1 2 1 -8 2 -8\n',
    'notatzero': '1 1 1 1 0 1 -2\n2 1 1 1 -4\n2 0 1 -1 -9\n',
    # the first model costs 0 0, and one of -1 9 is found later
    'later': CHOICE3 + '1 0 0 0 2 -1 2\n1 0 0 0 2 1 3\n2 5 2 2 -1 3 1\n2 4 3 3 -9 2 4 1 5\n',
    # the largest figure of a level: had by the first model; had never, so that 512 cores take it back
    'bounty': '1 1 1 1 0 0\n2 0 512' + ' 1 -1000000' * 512 + '\n',
    'nobounty': ''.join(f'1 0 0 0 1 {a}\n' for a in range(2, 8)) + '2 0 512' + ' 1 -1000000' * 512 + '\n',
    # levels that weigh 90, by sizes of both signs, with cores of cores: never full
    'ninety': '1 1 9 1 2 3 4 5 6 7 8 9 0 0\n' + pairs(3, range(1, 10)) + both_ways(range(1, 10), 10),
    'ninetyby15': CHOICE6 + pairs(4, [1, 2, 3, 4, 5, 6]) + both_ways([1, 2, 3, 4, 5, 6], 1, 15),
    'ninetysix': CHOICE6 + pairs(3, [1, 2, 3, 4, 5, 6]) + '2 0 6 1 30 -2 -25 3 15 -4 -10 5 6 -6 -4\n',
    'eightrewards': '1 1 2 1 2 0 0\n1 0 0 0 2 1 2\n' + ''.join(f'2 {p} 2 {"" if p % 2 else "-"}1 {-p - 5} 2 {p}\n' for p in range(-4, 4)),
}


def weights(bound, pairs):
    """A weighted body."""
    return f'1 {bound} {len(pairs)}' + ''.join(f' {l} {w}' for l, w in pairs) + '\n'


def never(bound, pairs):
    return '1 0 0 ' + weights(bound, pairs)


def largest_sums():
    """The largest sums: 1,024 pairs of weight 1,000,000 against a bound of 1,000,000,000, one sign for each atom and both. At most 999 atoms are in, and at most 499 odd ones, each of which counts
    1,000,000 in and 999,999 out; the plain rule's body counts 512,000,000 whatever is in."""
    million, odd = 1000000, range(1, 1025, 2)
    return ('1 1 1024 ' + ' '.join(map(str, range(1, 1025))) + ' 0 0\n' + never(1000 * million, [(a, million) for a in range(1, 1025)])
            + '1 0 1 999 ' + weights(1000 * million, [(l, million) for a in range(1, 513) for l in (a, -a)])
            + never(512 * (million - 1) + 500, [(a, million) for a in odd] + [(-a, million - 1) for a in odd]) + '1 0 0 0 2 1022 1023\n2 0 3 1000 -5 1022 -3 1023 -3\n')


# order 2, weighted bodies
SUMS = {
    # at least three of six, and two to four of them, as in 'threeofsix': cores of derived soft literals
    'atleast': CHOICE6 + never(4, [(-a, 1) for a in range(1, 7)]) + '2 0 6 1 1 2 1 3 1 4 1 5 1 6 1\n',
    'fourbysums': CHOICE6 + never(3, [(-a, 1) for a in range(1, 7)]) + '2 -1 6 1 9 2 7 3 5 4 5 5 3 6 1\n',
    'twotofour': CHOICE6 + never(5, [(a, 1) for a in range(1, 7)]) + never(5, [(-a, 1) for a in range(1, 7)]) + '2 1 6 1 2 2 2 3 1 -4 1 -5 3 -6 3\n2 0 6 -1 1 -2 1 -3 1 4 1 5 1 6 1\n',
    # weights that stand in each other's way, with rewards; a second sum on the same atoms
    'knapsack': CHOICE6 + never(11, [(1, 7), (2, 5), (3, 4), (4, 3), (5, 2), (6, 1)]) + '2 0 6 1 -13 2 -9 3 -7 4 -5 5 -3 6 -1\n',
    'twosacks': CHOICE6 + never(11, [(1, 7), (2, 5), (3, 4), (4, 3), (5, 2), (6, 1)]) + never(6, [(1, 1), (2, 2), (3, 3), (4, 1), (5, 2), (6, 3)])
                + '2 1 3 -1 6 -2 5 -3 4\n2 0 6 1 -13 2 -9 3 -7 4 -5 5 -3 6 -1\n',
    # two tanks of 3 and 2 places for four fish, of which two are large
    'tanks': ''.join(f'1 1 2 {a} {a + 4} 0 0\n1 0 0 0 2 {a} {a + 4}\n1 0 0 0 2 -{a} -{a + 4}\n' for a in range(1, 5)) + never(4, [(1, 2), (2, 1), (3, 1), (4, 2)])
             + never(4, [(5, 2), (6, 1), (7, 1), (8, 2)]) + '2 1 4 1 3 2 1 7 2 8 2\n2 0 2 5 1 6 1\n',
    # what is noted: a literal with its own weight; none, where a literal stands twice; by what it is worth where an atom has both signs; a head; a literal where the head is out; the first of two
    'noted': CHOICE3 + never(3, [(1, 1), (-2, 3), (3, 3)]) + '2 0 3 1 1 -2 1 -3 1\n',
    'notnoted': CHOICE3 + never(2, [(1, 1), (1, 1)]) + never(4, [(2, 3), (3, 1), (2, 1)]) + '2 0 2 -1 1 -2 2\n',
    'worth': CHOICE3 + never(5, [(1, 4), (-1, 2), (2, 3), (-2, 1)]) + never(3, [(-3, 3), (3, 1), (-3, 1)]) + '2 0 3 -1 1 -2 1 3 1\n',
    'headnoted': CHOICE3 + '1 0 1 4 ' + weights(2, [(1, 2), (-1, 3)]) + '1 0 1 5 ' + weights(0, []) + '1 0 1 6 ' + weights(3, [(4, 2), (5, 1)]) + '2 0 1 6 4\n',
    'headout': CHOICE4 + '1 0 1 5 ' + weights(5, [(1, 2), (2, 3), (3, 4)]) + '1 0 0 0 1 5\n2 0 3 -1 1 -2 2 -3 2\n',
    'firstnoted': CHOICE4 + '1 0 0 0 2 3 4\n' + never(2, [(1, 1), (2, 1), (4, 1)]) + '1 0 0 0 2 1 2\n' + never(1, [(-3, 1), (-4, 0)]) + '2 0 2 -1 1 -2 1\n',
    # the head in its own body, with either sign: nothing is noted by both
    'ownhead': CHOICE3 + '1 0 1 4 ' + weights(2, [(-4, 1), (1, 1)]) + '1 0 1 5 ' + weights(2, [(5, 1), (2, 2)]) + '2 0 3 -1 3 -2 1 5 2\n',
    # choices with weighted bodies are never broken; without a pair their atoms are tried out first, those of a choice without a body in
    'outfirst': '1 1 2 1 2 1 0 0\n1 1 1 3 0 0\n1 0 0 0 2 -1 -3\n2 0 1 -2 1\n',
    'chosensum': '1 1 1 1 0 0\n1 1 2 2 3 ' + weights(2, [(1, 2), (-4, 1)]) + '1 1 2 4 5 ' + weights(3, [(2, 2), (3, 2)]) + '1 0 0 0 1 -5\n2 0 3 2 5 3 4 4 1\n',
    # weight 0 and bound 0 beside costs; a bound that nothing reaches
    'idle': CHOICE3 + never(1, [(1, 0), (2, 0), (-3, 0)]) + never(1000000000, [(1, 1000000), (-1, 1000000)]) + '1 0 1 4 ' + weights(0, [(1, 1)]) + '2 0 4 -1 1 -2 2 3 3 4 5\n',
    'largesums': largest_sums(),
}


def random_program(seed, signed=False, weighted=False):
    """8 to 20 atoms (5 to 14 with `signed`, for weights of both signs), one to three levels with priorities of either sign; choices, plain rules, constraints, loops, duplicates,
    weight 0; with `weighted` half of the bodies are sums."""
    r = random.Random(1000 + seed)
    n = r.randint(5, 14) if signed else r.randint(8, 20)
    literal = lambda: r.choice((1, -1)) * r.randint(1, n)
    is_sum = lambda: weighted and r.random() < 0.5
    lines = []
    if r.random() < 0.7:                                    # a wide choice, so that costs decide
        heads = r.sample(range(1, n + 1), r.randint(3, min(n, 9)))
        lines.append([1, 1, len(heads), *heads, 0, 0])
    for _ in range(r.randint(n, 2 * n)):
        body = [literal() for _ in range(r.choice((0, 1, 1, 2, 2, 3, 4)))]
        if body and r.random() < 0.1:
            body.append(body[0])                            # a duplicate
        if is_sum():
            body = some_sum(r, literal)
        shape = r.random()
        if shape < 0.3:
            heads = [r.randint(1, n) for _ in range(r.randint(0, 4))]
            lines.append([1, 1, len(heads), *heads, *said(body)])
        elif shape < 0.75:
            lines.append([1, 0, 1, r.randint(1, n), *said(body)])
        elif shape < 0.85:                                  # a loop of two or three
            loop = r.sample(range(1, n + 1), r.choice((2, 3)))
            lines += [[1, 0, 1, a, 0, 1, b] for a, b in zip(loop, loop[1:] + loop[:1])]
        else:
            body = some_sum(r, literal) if is_sum() else [literal() for _ in range(r.choice((2, 2, 3, 4)))]
            lines.append([1, 0, 0, *said(body)])
    for p in r.sample(range(-4, 5), r.randint(1, 3)):
        for _ in range(r.choice((1, 1, 2))):
            sign = lambda: r.choice((1, -1)) if signed else 1
            entries = [(literal(), sign() * r.choice((0, 1, 1, 1, 2, 3, 5, 9, 1000000))) for _ in range(r.randint(2, 7))]
            if r.random() < 0.4:
                entries.append((sign() * entries[0][0], sign() * r.choice((1, 4))))
            lines.append([2, p, len(entries), *[x for e in entries for x in e]])
    if r.random() < 0.2:
        lines.append([2, r.randint(-4, 4), 0])
    return ''.join(' '.join(map(str, l)) + '\n' for l in lines)


def largest():
    """Every table of an optimization full: 2,048 rules with 16,384 literals, 1,024 atoms, 512 entries, 8 levels. On the lowest level one entry must be paid for and
    the rest can be spared together, since each longer constraint has an atom that nothing asks for; on the others the first model costs nothing. The choice has a body,
    which always holds (1,000 has no rule), so that its atoms are tried out first under either free branch."""
    r = random.Random(7)
    lines = [[1, 1, 1023, *range(1, 1000), *range(1001, 1025), 0, 1, -1000]]
    paid = (7,)
    lines += [[1, 0, 0, 0, 1, 64 * l + 1] for l in paid]
    left = 16384 - 1024 - len(paid)
    while len(lines) < 2048:
        size = left // (2048 - len(lines))
        left -= size
        lines.append([1, 0, 0, 0, size, *[r.randint(1, 9) for _ in range(size - 1)], r.randint(513, 999)])
    for l in range(8):
        lines.append([2, 3 - l, 64, *[x for a in range(64 * l + 1, 64 * l + 65) for x in (-a if l in paid else a, 1)]])
    return ''.join(' '.join(map(str, l)) + '\n' for l in lines)


def clasp_end(text):
    """The costs of an optimal stable model level by level, or None: clasp's model, summed here, and compared with the figures that clasp itself prints."""
    n, _, priorities, entries = read(text)
    best = clasps.best(text, n)
    if best is None:
        return None
    costs = [sum(w for q, l, w in entries if q == p and holds(best[0], l)) for p in priorities]
    assert best[1] == costs or best[1] == [c for c, p in zip(costs, priorities) if any(q == p for q, _, _ in entries)], (best[1], costs)
    return costs


def starts(machine):
    """Where the lower bounds start: the sums of the negative weights."""
    return [sum(min(w, 0) for q, _, w in machine.entries if q == p) for p in machine.priorities]


def some(shape, count, seed, how, texts, expected):
    """So many random programs that end soon, with few that have no costs to find; the seeds tried."""
    found = dull = 0
    while found < count:
        name, text = f'{shape}{found:02}', f'asp 1 0 0\n{random_program(seed, **how)}0\n'
        seed += 1
        machine = Machine(text)
        while machine.status == 'running' and machine.count <= MOST:
            machine.advance()
        if machine.count > MOST:
            continue
        if machine.status == 'incoherent' or machine.upper == starts(machine):
            if dull == 6:
                continue                                    # most should have costs to find
            dull += 1
        found += 1
        texts[name], expected[name] = text, lines(name, text)
    return seed


def lines(name, text):
    """What crates/optima must print of a program."""
    machine = Machine(text)
    steps = []
    while machine.status == 'running':
        machine.advance()
        steps.append(machine.line())
    costs = clasp_end(text)
    if costs is None:
        end = f'{machine.count} incoherent lower' + ''.join(f' {s}' for s in starts(machine)) + ' upper' + ' -' * len(machine.priorities) + ' level 0 stratum 0'
    else:
        figures = ''.join(f' {c}' for c in costs)
        end = f'{machine.count} optimum lower{figures} upper{figures} level 0 stratum 0'
    assert end == machine.line(), (name, end, machine.line())
    small = machine.n <= SMALL
    shown = [f'{name}: advance by advance', *(' ' + s for s in steps)] if small else [f'{name}:']
    return machine, [*shown, 'end ' + end]


def main():
    models = os.path.join(CRATES, 'models')
    texts = {}
    for name in open(os.path.join(models, 'args')).read().split():
        texts[name] = open(os.path.join(models, 'data', name)).read()
    texts |= {name: f'asp 1 0 0\n{body}0\n' for name, body in {**BY_HAND, 'largest': largest(), **REWARDS, **SUMS}.items()}
    expected = {name: lines(name, text) for name, text in texts.items()}
    seeds = some('mixed', 40, 0, {}, texts, expected)
    seeds += some('rewards', 50, 500, {'signed': True}, texts, expected) - 500
    seeds += some('weighed', 60, 5000, {'signed': True, 'weighted': True}, texts, expected) - 5000
    os.makedirs(os.path.join(OUT, 'data'), exist_ok=True)
    for old in os.listdir(os.path.join(OUT, 'data')):
        os.remove(os.path.join(OUT, 'data', old))
    for name, text in texts.items():
        with open(os.path.join(OUT, 'data', name), 'w') as f:
            f.write(text)
    with open(os.path.join(OUT, 'args'), 'w') as f:
        f.write(''.join(name + '\n' for name in texts))
    with open(os.path.join(OUT, 'stdout'), 'w') as f:
        f.write(''.join(l + '\n' for _, ls in expected.values() for l in ls))
    machines = [m for m, _ in expected.values()]
    ends = {s: sum(m.status == s for m in machines) for s in ('optimum', 'incoherent', 'full')}
    print(f'{len(texts)} programs ({ends}), {sum(len(ls) for _, ls in expected.values())} lines,',
          f'{sum(m.count for m in machines)} advances, at most {max(m.count for m in machines)};',
          f'{sum(m.cored for m in machines)} cores, {sum(m.nested for m in machines)} with derived members; {seeds} seeds')


main()
