#!/usr/bin/env python3
"""Writes the data of the test program crates/models: small programs in aspif, and for each its stable models with
their costs. The models and costs are clasp's (Debian's package clasp); the costs are also summed here from the minimise lines.

    apt-get install clasp && tests/models/make.py

Every program has at most 12 atoms, since the test program tries every set of atoms.
"""
import os
import random
import sys

HERE = os.path.dirname(os.path.abspath(__file__))
sys.path.insert(0, os.path.dirname(HERE))
import clasps
from bodies import heard, literals, said, some_sum

OUT = os.path.join(HERE, '..', '..', 'crates', 'models')
HEADER = 'asp 1 0 0\n'

# the samples of document 01, in its order
SAMPLES = {
    'none': '',
    'self': '1 0 1 1 0 1 1\n',
    'odd': '1 0 1 1 0 1 -1\n',
    'even': '1 0 1 1 0 1 -2\n1 0 1 2 0 1 -1\n',
    'choice': '1 1 1 1 0 0\n',
    'loop': '1 1 1 1 0 0\n1 0 1 1 0 1 2\n1 0 1 2 0 1 1\n',
    'needed': '1 1 1 1 0 0\n1 0 1 2 0 1 1\n1 0 0 0 1 -2\n',
    'twice': '1 1 1 1 0 0\n2 0 2 1 2 1 3\n',
    'plan': '1 1 2 1 2 0 0\n1 0 1 3 0 2 1 2\n1 0 0 0 2 -1 -2\n2 1 2 1 2 2 3\n4 1 a 1 1\n4 1 b 1 2\n',
}

# written by hand: unfounded loops, chains, a pigeonhole, levels with signs, duplicate literals, atoms named nowhere else
BY_HAND = {
    'chain': '1 1 1 1 0 0\n' + ''.join(f'1 0 1 {a + 1} 0 1 {a}\n' for a in range(1, 12)),
    'cycle': ''.join(f'1 0 1 {a % 12 + 1} 0 1 {a}\n' for a in range(1, 13)) + '1 1 1 7 0 0\n',
    'loops': '1 1 3 1 2 3 0 0\n1 0 1 4 0 1 5\n1 0 1 5 0 1 4\n1 0 1 4 0 1 1\n1 0 1 6 0 1 7\n1 0 1 7 0 1 6\n1 0 0 0 2 -6 2\n',
    'evens': ''.join(f'1 0 1 {a} 0 1 -{a + 1}\n1 0 1 {a + 1} 0 1 -{a}\n' for a in range(1, 12, 2)),
    'oddcycle': '1 0 1 1 0 1 -2\n1 0 1 2 0 1 -3\n1 0 1 3 0 1 -1\n1 1 1 4 0 0\n1 0 1 1 0 1 4\n',
    'pigeons': ''.join(f'1 1 2 {2 * p + 1} {2 * p + 2} 0 0\n1 0 0 0 2 -{2 * p + 1} -{2 * p + 2}\n' for p in range(3))
               + ''.join(f'1 0 0 0 2 {2 * p + h} {2 * q + h}\n' for h in (1, 2) for p in range(3) for q in range(p)),
    'negative': '1 1 3 1 2 3 0 0\n2 -5 2 -1 7 2 1\n2 3 3 1 1 -2 4 3 0\n2 0 0\n2 -5 1 3 2\n',
    'doubled': '1 1 3 1 1 2 0 3 3 3 -4\n1 0 1 3 0 2 -5 -5\n1 0 1 4 0 2 1 -1\n2 2 3 1 5 1 5 -1 5\n',
    'named': '1 1 1 1 0 0\n2 1 2 -9 4 9 4\n4 2 no 1 -9\n4 1 b 2 1 -12\n',
    'facts': ''.join(f'1 0 1 {a} 0 0\n' for a in range(1, 7)) + '1 0 1 7 0 6 1 2 3 4 5 6\n1 0 0 0 2 7 8\n1 1 2 8 9 0 1 7\n',
    'contradiction': '1 0 1 1 0 0\n1 0 0 0 1 1\n',
    'bare': '1 0 0 0 0\n',
    'emptychoice': '1 1 0 0 0\n1 1 2 3 4 0 1 -5\n',
}

EITHER = '1 1 2 1 2 0 0\n1 0 0 0 2 -1 -2\n1 0 0 0 2 1 2\n'       # {1} and {2}

# order 1, weights below zero
REWARDS = {
    'reward': '1 1 2 1 2 0 0\n2 1 2 1 -3 2 2\n',
    'barren': '1 0 1 1 0 1 -1\n2 0 1 1 -5\n',
    'fixed': '1 0 1 1 0 0\n2 2 1 1 -4\n2 1 2 1 -2 -1 -7\n',
    # both signs on one literal, twice the same entry, weight 0
    'opposed': '1 1 2 1 2 0 0\n2 0 9 1 3 1 -5 -1 -2 -1 4 2 0 -2 -1 -2 -1 2 -1 1 0\n',
    'cancelled': '1 1 1 1 0 0\n2 1 2 1 4 1 -4\n2 0 2 1 6 -1 6\n2 -1 2 1 -6 -1 -6\n',
    # -1 against 1, -5 against -3, -1 against 0, and what stands on a lower level
    'ahead': EITHER + '2 2 2 1 1 2 -1\n2 1 2 1 -9 2 9\n',
    'more': EITHER + '2 0 2 1 -3 2 -5\n',
    'below': EITHER + '2 7 1 2 -1\n2 -7 2 1 -1000000 2 1000000\n',
    # rewards that cannot be had: no rule for it, a fact's negation, a loop without a reason, never both
    'vain': '1 0 1 1 0 0\n2 0 2 -1 -4 2 -3\n',
    'vainloop': '1 0 1 1 0 1 2\n1 0 1 2 0 1 1\n1 1 1 3 0 0\n2 3 2 1 -2 2 -2\n2 1 1 3 -7\n',
    'rivals': '1 1 3 1 2 3 0 0\n1 0 0 0 2 1 2\n1 0 0 0 2 2 3\n1 0 0 0 2 1 3\n2 0 3 1 -7 2 -5 3 -5\n',
    'largereward': '1 1 2 1 2 0 0\n1 0 0 0 2 1 2\n2 1000 2 1 -1000000 2 -999999\n2 -1000 2 1 1000000 -2 -1000000\n',
}

# order 2, weighted bodies
SUMS = {
    # the order's samples: 5 is the best; {2} is none; nothing; no model; none, in one advance each
    'capacity': '1 1 3 1 2 3 0 0\n1 0 0 1 5 3 1 2 2 3 3 4\n2 0 3 -1 2 -2 3 -3 4\n',
    'sumnot': '1 0 1 1 1 2 2 -2 1 -2 1\n',
    'sumself': '1 0 1 1 1 1 1 1 1\n',
    'sumodd': '1 0 1 1 1 1 1 -1 1\n',
    'sumboth': '1 0 0 1 1 2 1 1 -1 1\n2 0 1 5 1\n',
    'sumnone': '1 0 0 1 0 0\n2 0 1 5 1\n',
    # bound 0 with no pair and with some; a bound that is just reached, just not, never; weight 0, alone and beside others
    'always': '1 0 1 1 1 0 0\n1 0 1 2 1 0 2 3 1 -4 0\n1 1 2 3 4 1 0 1 4 5\n',
    'reached': '1 1 3 1 2 3 0 0\n1 0 1 4 1 5 3 1 2 2 3 3 4\n1 0 1 5 1 6 3 1 2 2 3 3 4\n1 0 1 6 1 9 3 1 2 2 3 3 4\n1 0 1 7 1 10 3 1 2 2 3 3 4\n',
    'nothing': '1 1 2 1 2 0 0\n1 0 1 3 1 1 3 1 0 2 1 -1 0\n1 0 0 1 1 2 1 0 -1 0\n',
    # the same literal twice counts twice; an atom with both signs, evenly and not
    'doubledsum': '1 1 2 1 2 0 0\n1 0 1 3 1 2 2 1 1 1 1\n1 0 1 4 1 3 3 1 1 -2 1 1 1\n1 0 0 1 4 4 3 1 3 1 4 1 4 1\n',
    'bothsigns': '1 1 3 1 2 3 0 0\n1 0 1 4 1 2 4 1 2 -1 1 2 1 -2 1\n1 0 0 1 6 5 1 3 2 2 -1 1 3 2 -3 1\n',
    # at least and at most so many, by weights of 1
    'twotothree': '1 1 5 1 2 3 4 5 0 0\n1 0 0 1 4 5 1 1 2 1 3 1 4 1 5 1\n1 0 0 1 4 5 -1 1 -2 1 -3 1 -4 1 -5 1\n2 1 5 1 1 2 2 3 3 4 4 5 5\n',
    # loops through sums: the growing set counts, not M
    'sumloop': '1 1 1 1 0 0\n1 0 1 2 1 2 3 1 1 3 1 -4 1\n1 0 1 3 1 2 2 2 2 1 1\n',
    'unfounded': '1 0 1 1 1 1 2 2 1 3 1\n1 0 1 2 1 2 2 1 2 -3 1\n1 1 1 3 0 0\n',
    'sumeven': '1 0 1 1 1 1 1 -2 3\n1 0 1 2 1 3 2 -1 2 -1 2\n1 0 1 3 1 2 2 1 1 2 2\n',
    # choice heads with weighted bodies: one atom, several, the head's own atoms in the body
    'sumchoice': '1 1 1 1 0 0\n1 1 2 2 3 1 2 2 1 2 -4 1\n1 1 3 4 5 4 1 3 3 2 2 3 2 -1 3\n2 0 4 -2 1 -3 2 -4 3 5 1\n',
    'ownchoice': '1 1 2 1 4 1 1 3 2 2 -3 5 1 3\n',
    'emptysum': '1 1 0 1 3 1 1 2\n1 1 2 1 2 1 1 0\n1 1 2 3 4 1 0 0\n',
    # the largest figures
    'largesum': '1 1 2 1 2 0 0\n1 0 1 3 1 2000000 3 1 1000000 2 1000000 -2 999999\n1 0 1 4 1 1000000000 2 1 1000000 2 1000000\n1 0 0 1 1999999 2 -1 1000000 2 999999\n',
}


def random_program(seed, signed=False, weighted=False):
    """All shapes: facts, plain rules, choices, constraints, levels, duplicate literals, loops; with `signed` weights of both signs, on one literal too; with `weighted` half of the bodies are
    sums."""
    r = random.Random(seed)
    n = r.randint(5, 10)

    def literals(k, both=True):
        return [r.choice((1, -1) if both else (1,)) * r.randint(1, n) for _ in range(k)]

    lines = []
    for _ in range(r.randint(n, 2 * n)):
        body = literals(r.choice((0, 1, 1, 2, 2, 3)))
        if weighted and r.random() < 0.5:
            body = some_sum(r, lambda: literals(1)[0])
        shape = r.random()
        if shape < 0.35:
            heads = [r.randint(1, n) for _ in range(r.randint(1, 3))]
            lines.append(f'1 1 {len(heads)} ' + ' '.join(map(str, heads + said(body))))
        elif shape < 0.9:
            lines.append(' '.join(map(str, [1, 0, 1, r.randint(1, n)] + said(body))))
        else:
            body = body or literals(2)
            lines.append(' '.join(map(str, [1, 0, 0] + said(body))))
    for _ in range(r.randint(1, 4) if signed else r.randint(0, 3)):
        pairs = [(l, r.choice((-1000000, -5, -2, -2, -1, 0, 1, 2, 3, 1000000) if signed else (0, 1, 2, 5, 1000000))) for l in literals(r.randint(0, 4))]
        if signed and pairs:
            pairs.append((r.choice((1, -1)) * pairs[0][0], r.choice((-3, -1, 0, 2))))
        lines.append(' '.join(map(str, [2, r.randint(-3, 3), len(pairs)] + [x for p in pairs for x in p])))
    return ''.join(l + '\n' for l in lines)


def statements(text):
    """The entries, the priorities and the highest atom of a text, read line by line; symbols are written by hand above and have no spaces."""
    entries, priorities, named = [], set(), 0
    for line in text.splitlines()[1:-1]:
        f = line.split(' ')
        if f[0] == '1':
            v = list(map(int, f[1:]))
            m = v[1]
            named = max([named] + v[2:2 + m] + [abs(l) for l in literals(heard(v[2 + m:]))])
        elif f[0] == '2':
            v = list(map(int, f[1:]))
            priorities.add(v[0])
            for i in range(v[1]):
                entries.append((v[0], v[2 + 2 * i], v[3 + 2 * i]))
                named = max(named, abs(v[2 + 2 * i]))
        elif f[0] == '4':
            named = max([named] + [abs(int(l)) for l in f[4:]])
    return entries, sorted(priorities, reverse=True), named


def cost(model, entries, priorities):
    holds = lambda l: (l in model) if l > 0 else (-l not in model)
    return [sum(w for (q, l, w) in entries if q == p and holds(l)) for p in priorities]


def some(shape, count, seed, how, programs):
    """So many random programs with a choice of models."""
    found = 0
    while found < count:
        text = random_program(seed, **how)
        seed += 1
        whole = HEADER + text + '0\n'
        if len(clasps.models(whole, statements(whole)[2])) > 1:
            programs[f'{shape}{found:02}'] = text
            found += 1


def main():
    programs = {**SAMPLES, **BY_HAND, **{f'random{s:02}': random_program(s) for s in range(24)}, **REWARDS}
    some('signed', 24, 24, {'signed': True}, programs)
    programs |= SUMS
    some('sums', 40, 500, {'signed': True, 'weighted': True}, programs)
    os.makedirs(os.path.join(OUT, 'data'), exist_ok=True)
    expected = []
    for name, text in programs.items():
        text = HEADER + text + '0\n'
        with open(os.path.join(OUT, 'data', name), 'w') as f:
            f.write(text)
        entries, priorities, n = statements(text)
        assert n <= 12, (name, n)
        models = clasps.models(text, n)
        expected.append(f'{name}: {len(models)} of {2 ** n}\n')
        for m in sorted(models, key=lambda m: sum(1 << a for a in m)):
            assert models[m] == cost(m, entries, priorities), (name, m, models[m])
            figures = ''.join(f' {c}' for c in models[m])
            expected.append('{' + ','.join(map(str, sorted(m))) + '}' + figures + '\n')
    with open(os.path.join(OUT, 'args'), 'w') as f:
        f.write(''.join(name + '\n' for name in programs))
    with open(os.path.join(OUT, 'stdout'), 'w') as f:
        f.write(''.join(expected))
    print(f'{len(programs)} programs, {len(expected) - len(programs)} models')


main()
