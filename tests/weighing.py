#!/usr/bin/env python3
"""The models of this folder on weighted bodies (order 2), against brute force and clasp: none of the project's own programs is run.

    apt-get install clasp
    tests/weighing.py [SEED [PROGRAMS]]

Of each random program all stable models, found by trying every set, are clasp's, and the run of the machine ends with the best of them. On every path of that run: a rule is broken by
tests/optima_model.py exactly if it is so in each set that agrees with the path, tried one by one; and a literal that is noted breaks its rule in each set that agrees with both.
"""
import random
import sys
from itertools import combinations

import clasps
from bodies import Sum, said, some_sum
from optima_model import Machine, broken, holds, read, stable


def program(r):
    """Up to 7 atoms, most bodies weighted."""
    n = r.randint(1, 7)
    literal = lambda: r.choice((1, -1)) * r.randint(1, n)
    body = lambda: some_sum(r, literal) if r.random() < 0.7 else [literal() for _ in range(r.choice((0, 1, 2, 2, 3)))]
    lines = [[1, 1, n, *range(1, n + 1), 0, 0]] if r.random() < 0.3 else []
    for _ in range(r.randint(1, 2 * n)):
        x = r.random()
        heads = [r.randint(1, n) for _ in range(r.randint(0, 4) if x < 0.35 else x < 0.8)]
        lines.append([1, int(x < 0.35), len(heads), *heads, *said(body())])
    for p in r.sample(range(-3, 4), r.randint(0, 2)):
        entries = [(literal(), r.choice((-7, -1, 0, 1, 1, 2, 5))) for _ in range(r.randint(0, 5))]
        lines.append([2, p, len(entries), *[x for e in entries for x in e]])
    return 'asp 1 0 0\n' + ''.join(' '.join(map(str, l)) + '\n' for l in lines) + '0\n'


def judge(text):
    """What differs; the advances, how many weighted bodies were looked at on a path, how many of them were broken, and how many gave a literal."""
    n, rules, _, _ = read(text)
    sets = [set(c) for k in range(n + 1) for c in combinations(range(1, n + 1), k)]
    found, by_clasp = [m for m in sets if stable(m, rules)], clasps.models(text, n)
    if set(map(frozenset, found)) != set(by_clasp):
        return f'stable models {found}, clasp {list(by_clasp)}', 0, 0, 0, 0
    machine, weighed, breaks, notes = Machine(text), 0, 0, 0
    while machine.status == 'running':
        path = {l for l, _ in machine.path}
        agree = [m for m in sets if all(holds(m, l) for l in path)]
        for rule in rules:
            always = machine.always_broken(path, rule)
            if always != all(broken(m, rule) for m in agree):
                return f'{said(rule[2])} on {path}: {always}', 0, 0, 0, 0
            noted = None if always else machine.breaker(path, rule)
            if noted is not None and (noted in path or -noted in path or not all(broken(m, rule) for m in agree if holds(m, noted))):
                return f'{said(rule[2])} on {path} notes {noted}', 0, 0, 0, 0
            if isinstance(rule[2], Sum):
                weighed, breaks, notes = weighed + 1, breaks + always, notes + (noted is not None)
        machine.advance()
    costs = min(map(machine.costs, found), default=None)
    if machine.status != ('incoherent' if costs is None else 'optimum') or machine.upper != costs or costs not in (None, machine.lower) or machine.best not in (found or [None]):
        return f'{machine.line()}, best {costs}', 0, 0, 0, 0
    return '', machine.count, weighed, breaks, notes


def main(seed=1, count=3000):
    figures, wrong = [0] * 4, 0
    for i in range(int(count)):
        text = program(random.Random(f'weighing {seed} {i}'))
        differs, *more = judge(text)
        figures = [a + b for a, b in zip(figures, more)]
        if differs:
            wrong += 1
            print('FAILED:', differs, '\n' + text)
    print('{} advances; {} weighted bodies looked at on a path, {} of them broken, {} with a literal noted'.format(*figures))
    print(f'{int(count) - wrong} passed, {wrong} failed')
    return wrong > 0


if __name__ == '__main__':
    sys.exit(main(*sys.argv[1:]))
