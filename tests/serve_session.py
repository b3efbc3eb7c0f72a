#!/usr/bin/env python3
"""Writes crates/serve/stdin and stdout: a session with every command, every refusal, lines that are no command, and several programs one after another, with weights of both signs and weighted bodies too.

The commands stand here. What `serve` has to print for them comes from tests/service.py, the model of document 01, and not from the program.
"""
import os
from itertools import combinations

from service import Service

CRATES = os.path.join(os.path.dirname(os.path.abspath(__file__)), '..', 'crates')
PLAN = open(os.path.join(CRATES, 'plan', 'data', 'plan.aspif')).read()


def load(text):
    text = text.encode('latin1') if isinstance(text, str) else text
    return b'load %d\n' % len(text) + text


def program(lines):
    return load('asp 1 0 0\n' + lines + '0\n')


# At least two of three, weights 7, 5, 5: cores, a derived wish among them, strata.
CORES = '1 1 3 1 2 3 0 0\n1 0 0 0 2 -1 -2\n1 0 0 0 2 -1 -3\n1 0 0 0 2 -2 -3\n2 0 3 1 7 2 5 3 5\n4 3 one 1 1\n4 11 two, three! 2 2 3\n4 1 - 0\n'
# Three levels, one of them without entries, negative priorities, a comment, an atom that stands in a symbol only.
LEVELS = ('10 levels\n1 1 4 1 2 3 4 0 0\n1 0 0 0 2 -1 -2\n10\n1 0 0 0 2 -3 -4\n1 0 0 0 2 1 3\n2 3 2 1 2 2 2\n2 0 0\n2 -3 2 -1 1 -3 1\n2 -1000 1 -4 1000000\n'
          '4 5 a b c 1 -12\n')


def many(filling):
    """100 dear ways and a cheap one that 39 entries price: each of 39 cores has 101 members and gives 100 wishes. With `filling` more wishes, all met, the level
    comes to 4,039 + filling of them; entries of weight 0 are none. The next level has a core of two. An atom that stands in a symbol only keeps paths open. The choice has a
    body, which always holds (103 has no rule), so that its atoms are tried out first under either free branch."""
    ways = ' '.join(map(str, range(1, 102)))
    return (f'1 1 103 {ways} 104 105 0 1 -103\n1 0 0 0 101 {" ".join(str(-a) for a in range(1, 102))}\n1 0 0 0 2 -104 -105\n'
            f'2 9 100 {" ".join(f"{a} 1000" for a in range(1, 101))}\n2 9 39{" 101 1" * 39}\n2 9 {filling + 3}{" 103 1" * filling}{" 101 0" * 3}\n2 1 2 104 6 105 6\n'
            '4 4 rest 1 102\n4 5 cheap 1 101\n')


def ninety():
    """At most two of six atoms are out, and each is wished out fifteen times, in turn by a weight of 1 and by one of -1 on the complement: the level weighs 90, and cores have cores inside."""
    entries = [(a, 1) if (i + a) % 2 else (-a, -1) for i in range(15) for a in range(1, 7)]
    return ('1 1 6 1 2 3 4 5 6 0 0\n' + ''.join(f'1 0 0 0 3 -{a} -{b} -{c}\n' for a, b, c in combinations(range(1, 7), 3))
            + f'2 0 {len(entries)} ' + ' '.join(f'{l} {w}' for l, w in entries) + '\n')


BOUNTY = '2 0 512' + ' 1 -1000000' * 512 + '\n'
EITHER = '1 1 2 1 2 0 0\n1 0 0 0 2 -1 -2\n1 0 0 0 2 1 2\n'
END = ['run 4294967295', 'look', 'model']
# Order 1, weights below zero: each program is looked at right after its load.
REWARDS = [
    program('1 1 2 1 2 0 0\n2 1 2 1 -3 2 2\n'), 'look', 'write', 'write 40', 'write 41', 'run 2', 'look', *END,
    program('1 0 1 1 0 1 -1\n2 0 1 1 -5\n'), 'look', *END,
    program('1 0 1 1 0 0\n2 2 1 1 -4\n2 1 2 1 -2 -1 -7\n'), 'look', 'advance', 'advance', 'look', *END,
    # refused, with the program before them as it was; both ends of the range
    load('asp 1 0 0\n2 0 1 1 -0\n0\n'), load('asp 1 0 0\n2 0 1 1 -1000001\n0\n'), load('asp 1 0 0\n2 0 1 1 - 1\n0\n'), load('asp 1 0 0\n2 0 1 1 -01\n0\n'),
    load('asp 1 0 0\n2 0 -1 1 1\n0\n'), 'look', program('2 0 2 1 -1000000 -2 -1\n'), 'write', 'look', *END,
    # the largest figures: had by the first model; had by none, taken back core by core
    program('1 1 1 1 0 0\n' + BOUNTY), 'look', *END, program('1 0 0 0 1 2\n' + BOUNTY), 'look', 'run 1000', 'look', *END,
    # 512 rewards on eight levels
    program('1 1 1 1 0 0\n' + ''.join(f'2 {p} 64' + f' {1 if p % 2 else -1} {-1000 - p}' * 64 + '\n' for p in range(8))), 'look', *END,
    # a level that weighs 90 without signs
    program(ninety()), 'look', 'run 200', 'look', 'run 1000', 'look', *END,
    # both signs on one literal, weight 0: two entries, two wishes; nothing cancels
    program('1 1 2 1 2 0 0\n2 0 9 1 3 1 -5 -1 -2 -1 4 2 0 -2 -1 -2 -1 2 -1 1 0\n'), 'look', 'run 3', 'look', *END,
    program('1 1 1 1 0 0\n2 1 2 1 4 1 -4\n2 0 2 1 6 -1 6\n2 -1 2 1 -6 -1 -6\n'), 'look', 'run 3', 'look', *END,
    # rewards that no model has; a cost of -1 against 1, -5 against -3, above what stands on a lower level
    program('1 0 1 1 0 0\n2 0 2 -1 -4 2 -3\n'), 'look', *END,
    program(EITHER + '2 2 2 1 1 2 -1\n2 1 2 1 -9 2 9\n'), 'look', *END, program(EITHER + '2 0 2 1 -3 2 -5\n'), *END,
    program(EITHER + '2 7 1 2 -1\n2 -7 2 1 -1000000 2 1000000\n4 4 both 2 1 2\n4 3 two 1 2\n'), 'look', *END, 'shown 0', 'shown 1',
]

CAPACITY = '1 1 3 1 2 3 0 0\n1 0 0 1 5 3 1 2 2 3 3 4\n2 0 3 -1 2 -2 3 -3 4\n'
MILLIONS = ''.join(f' {a} 1000000' for a in range(1, 1025))
# Order 2, weighted bodies.
SUMS = [
    program(CAPACITY), 'look', 'write', 'write 72', 'write 73', 'advance', 'advance', 'advance', 'look', 'run 2', 'look', *END,
    program('1 0 1 1 1 2 2 -2 1 -2 1\n'), *END, program('1 0 1 1 1 1 1 1 1\n'), *END, program('1 0 1 1 1 1 1 -1 1\n'), *END,
    # no set can keep them: incoherent in one advance
    program('1 0 0 1 1 2 1 1 -1 1\n2 0 1 5 1\n'), 'look', 'advance', 'look', 'model', 'advance', program('1 0 0 1 0 0\n2 0 1 5 1\n'), 'run 0', 'advance', 'look', 'model', 'run 5',
    # refused, with the program before them as it was: a minus, the ranges, what is missing, b = 2; both ends of the ranges
    program('10 stays\n' + CAPACITY + '4 3 one 1 1\n'), load('asp 1 0 0\n1 0 0 1 -0 0\n0\n'), load('asp 1 0 0\n1 0 0 1 -1 0\n0\n'), load('asp 1 0 0\n1 0 0 1 1000000001 0\n0\n'),
    load('asp 1 0 0\n1 0 0 1 5 1025\n0\n'), load('asp 1 0 0\n1 0 0 1 5 1 0 1\n0\n'), load('asp 1 0 0\n1 0 0 1 5 1 1 -0\n0\n'), load('asp 1 0 0\n1 0 0 1 5 1 1 -1\n0\n'),
    load('asp 1 0 0\n1 0 0 1 5 1 1 1000001\n0\n'), load('asp 1 0 0\n1 0 0 1\n0\n'), load('asp 1 0 0\n1 0 0 1 5\n0\n'), load('asp 1 0 0\n1 0 0 1 5 2 1 1\n0\n'), load('asp 1 0 0\n1 0 0 2 5 0\n0\n'),
    load('asp 1 0 0\n1 0 2 1 2 1 5 0\n0\n'), 'look', 'write', 'run 4', *END, 'shown 0',
    program('1 1 2 1 2 1 0 0\n1 0 1 3 1 1000000000 2 1 1000000 2 0\n1 0 0 1 1000000 2 -1 999999 2 1\n'), 'write', *END,
    # the same literal twice counts twice; an atom with both signs counts by the lesser side while it is undecided
    program('1 1 3 1 2 3 0 0\n1 0 0 1 2 3 1 1 1 1 -2 1\n2 0 2 -1 1 -3 1\n'), 'run 3', 'look', *END,
    program('1 1 3 1 2 3 0 0\n1 0 0 1 5 5 1 4 -1 2 2 3 -2 1 3 0\n2 1 2 -1 3 -2 2\n2 0 1 3 1\n'), 'run 3', 'look', 'run 3', 'look', *END,
    # a loop through a sum; a choice by a sum; choices by a sum without a pair, which are tried out first
    program('1 1 1 1 0 0\n1 0 1 2 1 2 3 1 1 3 1 -4 1\n1 0 1 3 1 2 2 2 2 1 1\n2 0 1 2 -1\n'), *END,
    program('1 1 1 1 0 0\n1 1 2 2 3 1 2 2 1 2 -4 1\n1 1 2 4 5 1 3 2 2 2 3 2\n1 0 0 0 1 -5\n2 0 3 2 5 3 4 4 1\n'), 'run 10', 'look', *END,
    program('1 1 2 1 2 1 0 0\n1 1 1 3 0 0\n'), 'run 4', 'model',
    # at least three and at most four of six: cores inside cores
    program('1 1 6 1 2 3 4 5 6 0 0\n1 0 0 1 4 6 -1 1 -2 1 -3 1 -4 1 -5 1 -6 1\n1 0 0 1 5 6 1 1 2 1 3 1 4 1 5 1 6 1\n2 1 6 1 9 2 7 3 5 4 5 5 3 6 1\n2 0 3 -1 1 -2 1 3 1\n'), 'run 60', 'look', *END,
    # the largest sum against the largest bound; 16,384 places, each pair in one, and one pair more
    program('1 1 1024' + ''.join(f' {a}' for a in range(1, 1025)) + f' 0 0\n1 0 0 1 1000000000 1024{MILLIONS}\n1 0 1 1000 1 1000000000 1024{MILLIONS}\n'), 'run 1000', 'look', *END,
    program(('1 0 0 1 9 1024' + ' 1 1' * 1024 + '\n') * 15 + '1 0 0 0 1024' + ' 1' * 1024 + '\n1 0 0 1 7 0\n'), 'write 63749', 'run 1', 'look', *END,
    program(('1 0 0 1 9 1024' + ' 1 1' * 1024 + '\n') * 15 + '1 0 0 0 1024' + ' 1' * 1024 + '\n1 0 0 1 7 1 2 0\n'), 'look',
]

SESSION = [
    # nothing loaded
    'look', 'advance', 'run 5', 'write', 'model', 'symbol 0', 'shown 0', '', 'clear',
    # document 01's sample, advance by advance at first
    load(PLAN), 'look', 'model', 'shown 0', 'shown 2', 'symbol 1', 'symbol 2', 'write', 'write 91', 'write 92', 'write 0', 'run 0', 'advance', 'advance', 'advance', 'advance', 'look', 'model',
    'run 1000000', 'look', 'model', 'model 2', 'model 3', 'shown 0', 'shown 1', 'advance', 'run 7', 'look',
    # refused texts; the program before them stands
    load('asp 1 0 1\n0\n'), load('asp 1 0 0'), load('asp 1 0 0\n1 0 1 01 0 0\n0\n'), load('asp 1 0 0\n10 a comment\n1 0 1 1 0 1 7 \n0\n'), load('asp 1 0 0\n1 0 1 1 0 0\n'),
    load('asp 1 0 0\n0\n0\n'), load('asp 1 0 0\n1 1 1 1 0 0\n3 1 1\n0\n'), load('asp 1 0 0\n1 0 2 1 2 0 0\n0\n'), load('asp 1 0 0\n1 0 1 1025 0 0\n0\n'), load('asp 1 0 0\n11\n0\n'),
    program(''.join(f'2 {p} 0\n' for p in range(9))), load(''), load(b'x' * 65538), 'model', 'look',
    # cores and strata
    program(CORES), 'run 9', 'look', 'shown 1', 'run 4294967295', 'look', 'model', 'symbol 0 2', 'symbol 0 3', 'symbol 1', 'symbol 2', 'shown 0', 'shown 1', 'shown 2', 'symbol 3',
    'symbol 4294967295 0',
    # levels
    program(LEVELS), 'run 1000', 'look', 'run 4294967295', 'look', 'model 11', 'model 12', 'shown 0', 'symbol 0 4', 'write 4294967295',
    # no stable model; a program without levels; the empty program; a text of 65,536 bytes
    program('1 1 2 1 2 0 0\n1 0 1 3 0 1 -3\n2 5 2 1 5 -2 6\n4 1 x 0\n'), 'run 1000', 'look', 'model', 'shown 0', 'symbol 0 1', 'advance',
    program('1 0 1 1 0 1 1\n'), 'run 1', 'look', 'run 1', 'run 1', 'look', 'model',
    program('10 ' + 'x' * (65536 - 12 - 4) + '\n'), 'write', 'advance', 'look', 'model', 'model 0',
    *REWARDS,
    *SUMS,
    # 4,096 wishes on a level, and one too many
    program(many(57)), 'run 8000', 'look', 'run 4294967295', 'look', 'model', 'shown 1',
    program(many(58)), 'run 4294967295', 'look', 'model', 'shown 1', 'shown 0', 'advance', 'run 3',
    # lines that are no command; nothing changes
    'hello', 'Look', ' look', 'look ', 'look 1', 'advance 1', 'clear 0', 'quit now', 'run', 'run ', 'run 1 2', 'run -1', 'run 4294967296', 'run 01', 'run 1x', 'run  1', 'load', 'load x',
    'load 99999999999999999999', 'write x', 'write 1 2', 'model 1.5', 'symbol', 'symbol x', 'symbol 0 x', 'symbol 0 1 2', 'symbol  1', 'shown', 'shown 0 0', '\t', '\0', '\r', 'look\r',
    b'\xff' * 128, 'x' * 129, 'run ' + '0' * 200, '', 'symbol 0', 'look',
    'clear', 'look', 'model', load(PLAN), 'run 1000000', 'shown 0', 'quit', 'look',
]


def main():
    stdin = b''.join(c if isinstance(c, bytes) and c.startswith(b'load ') else (c.encode('latin1') if isinstance(c, str) else c) + b'\n' for c in SESSION)
    answers = [a or b'' for _, a in Service().answers(stdin)]
    crate = os.path.join(CRATES, 'serve')
    for name, content in ('stdin', stdin), ('stdout', b''.join(answers)):
        with open(os.path.join(crate, name), 'wb') as f:
            f.write(content)
    print(len(answers), 'commands')


main()
