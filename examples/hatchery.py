#!/usr/bin/env python3
"""usage: hatchery.py SIRES DAMS TANKS [SEED [LARGE]]

Prints a made-up hatchery for mating.lp; the same seed (1 if none is given) gives the same one. LARGE of the dams (none if not given) take two places of their tank.
"""
import random
import sys

if sys.argv[1:2] in (['--help'], ['-h']):
    print(__doc__.strip())
    sys.exit(0)
if len(sys.argv) not in (4, 5, 6) or not all(a.isdecimal() and int(a) > 0 for a in sys.argv[1:4]) or not all(a.isdecimal() for a in sys.argv[4:]):
    print(__doc__.strip(), file=sys.stderr)
    sys.exit(64)
sires, dams, tanks = map(int, sys.argv[1:4])
r = random.Random(int(sys.argv[4]) if len(sys.argv) > 4 else 1)
S = ['s%d' % i for i in range(1, sires + 1)]
D = ['d%d' % i for i in range(1, dams + 1)]
T = ['t%d' % i for i in range(1, tanks + 1)]
large = min(dams, int(sys.argv[5])) if len(sys.argv) > 5 else 0
serve = -(-dams // sires)
room = -(-(dams + large) // tanks)
print('%% %d sires, %d dams, %d tanks.' % (sires, dams, tanks))
print(' '.join('sire(%s).' % s for s in S))
print(' '.join('dam(%s).' % d for d in D))
print(' '.join('kin(%s,%s,%d).' % (s, d, k) for s in S for d in D for k in [r.choice((0, 0, 31, 31, 62, 125))] if k))
print('close(125).')
print(' '.join('serves(%s,%d).' % (s, serve) for s in S))
print(' '.join('tank(%s,%d).' % (t, room) for t in T))
print(' '.join('unfit(%s,%s).' % (b, r.choice(T)) for b in r.sample(D, dams // 3)))
print(' '.join('prefer(%s,%s,%d).' % (s, d, r.randint(1, 3)) for s, d in r.sample([(s, d) for s in S for d in D], dams)))
print(' '.join('use(%s,1).' % s for s in S))
print(' '.join('home(%s,%s).' % (b, r.choice(T)) for b in S + D))
print(' '.join('way(%s,%s,%d).' % (a, b, 1 + abs(i - j)) for i, a in enumerate(T) for j, b in enumerate(T) if i != j))
if large:
    print(' '.join('size(%s,2).' % d for d in r.sample(D, large)))
