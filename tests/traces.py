#!/usr/bin/env python3
"""The traces that crates/search_traces must print, written from document 01 ("Plans and costs", "Question and path"), order 2 (weighted bodies) and the branching and blame of
docs/DECISIONS.md.

Nothing here goes by conditions or by values: a rule or a wish is broken in every set that agrees with the path if it is broken in each subset of the atoms
that agrees, tried one by one; stable models are found by trying every subset.  Usage: python3 tests/traces.py > crates/search_traces/stdout
The programs of order 2 as tables: python3 tests/traces.py --weighted > crates/search_traces/src/weighted.rt
"""
import sys
from itertools import combinations


# (name, n, rules, wishes): a rule is (kind, heads, body), kind 1 for a choice; a body is a list of literals, or a bound and pairs of literal and weight; a wish is the literal that it wishes for
PROGRAMS = [
    ("no statement", 0, [], []),
    ("1 if 1", 1, [(0, [1], [1])], []),
    ("1 if not 1", 1, [(0, [1], [-1])], []),
    ("1 if not 2, 2 if not 1", 2, [(0, [1], [-2]), (0, [2], [-1])], []),
    ("choice 1, 2 if 1, never not 2", 2, [(1, [1], []), (0, [2], [1]), (0, [], [-2])], []),
    ("plan", 3, [(1, [1, 2], []), (0, [3], [1, 2]), (0, [], [-1, -2])], []),
    ("plan, wishes not 1, not 2", 3, [(1, [1, 2], []), (0, [3], [1, 2]), (0, [], [-1, -2])], [-1, -2]),
    ("plan, wishes not 3, not 1", 3, [(1, [1, 2], []), (0, [3], [1, 2]), (0, [], [-1, -2])], [-3, -1]),
    ("three in two, wish 6", 6,
     [(1, [1, 2, 3, 4, 5, 6], [])] + [(0, [], [-a, -(a + 1)]) for a in (1, 3, 5)]
     + [(0, [], [a + h, b + h]) for h in (0, 1) for a, b in ((1, 3), (1, 5), (3, 5))], [6]),
    # order 2: a sum that notes; one that is lighter at its best than its bound; both signs evenly, and with no pair; one literal twice, which notes nothing; what a literal is worth; heads; a choice
    ("capacity 5, wishes 1, 2, 3", 3, [(1, [1, 2, 3], []), (0, [], (5, [(1, 2), (2, 3), (3, 4)]))], [1, 2, 3]),
    ("one or two of three", 3, [(1, [1, 2, 3], []), (0, [], (3, [(1, 1), (2, 1), (3, 1)])), (0, [], (3, [(-1, 1), (-2, 1), (-3, 1)]))], [-1, -2, -3]),
    ("never 1 or not 1", 2, [(1, [2], []), (0, [], (1, [(1, 1), (-1, 1)]))], []),
    ("never nothing", 2, [(0, [2], [1]), (0, [], (0, []))], []),
    ("never 1 twice, or 2", 3, [(1, [1, 2, 3], []), (0, [], (2, [(1, 1), (1, 1), (-2, 1)]))], [1, 3]),
    ("worth what its complement leaves", 3, [(1, [1, 2, 3], []), (0, [], (5, [(1, 4), (-1, 2), (2, 3), (-2, 1), (3, 0)]))], [1, 2]),
    ("1 if not 2 twice", 2, [(0, [1], (2, [(-2, 1), (-2, 1)]))], []),
    ("1 if 1, by weight", 1, [(0, [1], (1, [(1, 1)]))], []),
    ("1 if not 1, by weight", 1, [(0, [1], (1, [(-1, 1)]))], []),
    ("a head by a sum, wishes not 4, 1", 4, [(1, [1, 2, 3], []), (0, [4], (4, [(1, 2), (2, 3), (-3, 2)]))], [-4, 1]),
    ("choice by a sum", 4, [(1, [1, 2], []), (1, [3, 4], (2, [(1, 2), (-2, 1)])), (0, [], [-3])], [2]),
]

def holds(m, l): return (l in m) if l > 0 else (-l not in m)
def subsets(n): return [set(c) for k in range(n + 1) for c in combinations(range(1, n + 1), k)]

def count(m, pairs): return sum(w for l, w in pairs if holds(m, l))
def body_holds(m, body): return count(m, body[1]) >= body[0] if isinstance(body, tuple) else all(holds(m, l) for l in body)
def adds(m, x, body):
    true = lambda l: (l in x) if l > 0 else (-l not in m)
    return sum(w for l, w in body[1] if true(l)) >= body[0] if isinstance(body, tuple) else all(map(true, body))

def stable(m, rules):
    for kind, heads, body in rules:
        if kind == 0 and not heads and body_holds(m, body): return False
    x = set()
    while True:
        y = set(x)
        for kind, heads, body in rules:
            if adds(m, x, body):
                y |= {h for h in heads if kind == 0 or h in m}
        if y == x: return x == m
        x = y

def rule_broken(m, r):
    kind, heads, body = r
    return kind == 0 and body_holds(m, body) and not any(h in m for h in heads)

def run(name, n, rules, wishes, out):
    sets = subsets(n)
    path, blamed = [], []                      # path: (literal, first?)
    agree = lambda p: [m for m in sets if all(holds(m, l) for l, _ in p)]
    broken = lambda p, r: all(rule_broken(m, r) for m in agree(p))
    unmet = lambda p, w: all(not holds(m, w) for m in agree(p))
    show = lambda: ''.join(' %d%s' % (l, '*' if f else '') for l, f in path)
    def back():
        while path and not path[-1][1]: path.pop()
        if not path: return False
        l, _ = path.pop(); path.append((-l, False)); return True
    def blame(bad):                            # "one already blamed before a new one"
        if not bad: return None
        i = next((i for i in bad if i in blamed), bad[0])
        if i not in blamed: blamed.append(i)
        return i
    def noted(r):                              # the literal that the rule notes
        kind, heads, body = r
        free = [l for a in range(1, n + 1) if not any(abs(l) == a for l, _ in path) for l in (a, -a)]
        breaks = lambda l: l in free and broken(path + [(l, True)], r)
        if not isinstance(body, tuple): return next(filter(breaks, free), None)
        # of a weighted one: its head's complement, where the body holds in every set that agrees; else, if the head is out, the first literal of the body that breaks it, by its own
        # weight alone where no atom stands with both signs
        out = [m for m in agree(path) if not any(h in m for h in heads)]
        if kind == 0 and all(body_holds(m, body) for m in agree(path)): return next((-h for h in heads if breaks(-h)), None)
        if kind == 1 or out != agree(path): return None
        mixed = any(-l == k for l, _ in body[1] for k, _ in body[1])
        lack = body[0] - min(count(m, body[1]) for m in out)
        return next((l for l, w in body[1] if breaks(l) and (mixed or w >= lack)), None)
    out.append('program %s' % name)
    steps = 0
    while True:
        steps += 1
        decided = {abs(l) for l, _ in path}
        r = next((i for i, r in enumerate(rules) if broken(path, r)), None)
        if r is not None:
            word, failed = 'rule %d' % r, True
        elif len(decided) == n:
            m = {l for l, _ in path if l > 0}
            if not stable(m, rules):
                word, failed = 'full unstable', True
            else:
                i = blame([i for i, w in enumerate(wishes) if not holds(m, w)])
                if i is None:
                    out.append('full wanted' + show()); break
                word, failed = 'full soft %d' % i, True
        else:
            i = blame([i for i, w in enumerate(wishes) if unmet(path, w)])
            if i is not None: word, failed = 'soft %d' % i, True
            else:
                l = next((-l for l in map(noted, rules) if l is not None), None)
                if l is None: l = next((w for w in wishes if abs(w) not in decided), None)
                if l is None: l = -min(a for a in range(1, n + 1) if a not in decided)   # no atom is to be tried in first here
                path.append((l, True)); word, failed = 'open', False
        if failed and not back():
            out.append('%s ended' % word); out.append('core' + ''.join(' %d' % i for i in sorted(blamed))); break
        out.append(word + show())
    out.append('steps %d' % steps)

def is_weighted(p): return any(isinstance(body, tuple) for _, _, body in p[2])

def tables(rules):
    """The pool and the rows of asp's tables: a weighted body has its bound and its weights behind its literals."""
    pool, rows = [], []
    for kind, heads, body in rules:
        lits = [l for l, _ in body[1]] if isinstance(body, tuple) else body
        mixed = any(-l in lits for l in lits)
        form = ('Mixed' if mixed else 'Weighted') if isinstance(body, tuple) else 'Normal'
        rows.append('row!(%s, %s, %d, %d, %d)' % ('Choice' if kind == 1 else 'Plain', form, len(pool), len(heads), len(lits)))
        pool += heads + lits
        if isinstance(body, tuple):
            pool += [body[0]] + [w for _, w in body[1]]
    return pool, rows

NAMES = ['capacity', 'one_or_two', 'both_signs', 'nothing', 'twice', 'worth', 'not_twice', 'itself_weighed', 'not_itself_weighed', 'head_by_sum', 'choice_by_sum']

def listed(items):
    """As rt fmt lays it out: a line of its own for each row, where they are too long for one."""
    line = ', '.join(map(str, items))
    return '&[%s]' % line if len(line) <= 60 else '&[%s\n            ]' % ''.join('\n                %s,' % x for x in items)

def function(name, program):
    title, n, rules, wishes = program
    pool, rows = tables(rules)
    found = [sum(1 << (n - a) for a in m) for m in subsets(n) if stable(m, rules)]
    return """pub fn %s() -> Program<'static> {
    Program {
        name: "%s",
        table: RuleTable {
            atoms: %d,
            pool: %s,
            rows: %s,
        },
        wished: %s,
        models: %s,
    }
}
""" % (name, title, n, listed(pool), listed(rows), listed(wishes), listed(found))

HEAD = """// Order 2: programs with weighted bodies, as `programs` has the others. Written by tests/traces.py.

use crate::program::{Program, row};
use asp::rules::{BodyKind, HeadKind, Row, RuleTable};
"""

if sys.argv[1:] == ['--weighted']:
    print(HEAD)
    print('\n'.join(function(*x) for x in zip(NAMES, filter(is_weighted, PROGRAMS))), end='')
    sys.exit()

out = []
for p in PROGRAMS: run(*p, out)
print('\n'.join(out))
