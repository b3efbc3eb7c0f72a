#!/usr/bin/env python3
"""The service of document 01 with order 1's signed weights and order 2's weighted bodies, and the program `serve` over it, as an independent model in Python.

Written from document 01 ("The calls", "Refused because ..") and from what is said of `serve` in print, not from the code. The text is read by
tests/aspif_reader.py, the machine is that of tests/optima_model.py. Each call answers with the bytes that `serve` prints for it.

    tests/service.py < commands          prints what `serve` has to print
"""
import re
import sys

from aspif_reader import Program, read
from bodies import literals
from optima_model import Machine, holds

BIGGEST = 4294967295
LINE = 128                                   # no command is longer: numbers have no leading zero
UNKNOWN = b'error not a command\n'
NUMBER = b'error a number from 0 to 4294967295 is due\n'
LONG = b'error the line is longer than 128 bytes\n'


class TooLong(Exception):
    """The model would have to make more advances than it was allowed."""


def refused(c):
    return b'refused %d\n' % c


def listed(word, figures):
    return b' '.join([word] + [str(f).encode() for f in figures]) + b'\n'


def parts(p):
    """n, rules, priorities highest first, entries: what a Machine is made of."""
    atoms = [a for _, h, b in p.rules for a in h + literals(b)] + [z for _, z, _ in p.entries] + [z for _, c in p.symbols for z in c]
    return max(map(abs, atoms), default=0), p.rules, sorted(p.levels, reverse=True), p.entries


class Service:
    def __init__(self, most=None):
        self.most = most                     # advances that one run may make here
        self.clear()

    # ---- the calls

    def clear(self):
        self.program = self.machine = None
        return b'cleared\n'

    def load(self, text):
        p = read(text)
        if not isinstance(p, Program):
            return b'refused %d at line %d\n' % p            # the service is as before
        self.program, self.machine = p, Machine(parts(p))
        return b'loaded\n'

    def advance(self):
        if self.program is None:
            return refused(6)
        self.machine.advance()               # "An advance after the end does nothing and isn't counted."
        return self.machine.status.encode() + b'\n'

    def run(self, budget):
        if self.program is None:
            return refused(6)
        made = 0
        while self.machine.status == 'running' and made < budget:
            if made == self.most:
                raise TooLong
            self.machine.advance()
            made += 1
        return b'%s %d\n' % (self.machine.status.encode(), made)

    def look(self):
        m = self.machine
        if m is None:                        # "look gives status empty, all else 0 or absent"
            return b'status empty\nadvances 0\npriorities\nlower\nupper\nlevel 0\nstratum 0\n'
        upper = ['-'] * len(m.lower) if m.upper is None else m.upper
        level, stratum = (0, 0) if m.work is None else (m.work + 1, m.stratum)
        return (b'status %s\nadvances %d\n' % (m.status.encode(), min(m.count, 2 ** 64 - 1)) + listed(b'priorities', m.priorities) + listed(b'lower', m.lower)
                + listed(b'upper', upper) + b'level %d\nstratum %d\n' % (level, stratum))

    def write(self, room=None):
        if self.program is None:
            return refused(6)
        text = self.program.text
        if room is not None and room < len(text):
            return b'refused 8 needs %d\n' % len(text)
        return b'text %d\n' % len(text) + text

    def model(self, room=None):
        if self.program is None:
            return refused(6)
        m = self.machine
        if m.best is None:
            return refused(7)
        if room is not None and room < m.n:
            return b'refused 8 needs %d\n' % m.n
        return b'model ' + b''.join(b'1' if a in m.best else b'0' for a in range(1, m.n + 1)) + b'\n'

    def symbol(self, at, room=None):
        if self.program is None:
            return refused(6)
        if at >= len(self.program.symbols):
            return refused(9)
        name, _ = self.program.symbols[at]
        if room is not None and room < len(name):
            return b'refused 8 needs %d\n' % len(name)
        return b'name %d %s\n' % (len(name), name)

    def shown(self, at):
        if self.program is None:
            return refused(6)
        if at >= len(self.program.symbols):
            return refused(9)
        if self.machine.best is None:
            return refused(7)
        return b'shown %d\n' % all(holds(self.machine.best, l) for l in self.program.symbols[at][1])

    # ---- the program `serve`

    def command(self, line, rest):
        """The answer to a line (without its byte 10), and how many of the bytes after it belong to it; None as the answer where the program ends."""
        if line == b'':
            return b'', 0
        if len(line) > LINE:
            return LONG, 0
        if line == b'quit':
            return None, 0
        word, *words = line.split(b' ')
        call = {b'advance': self.advance, b'look': self.look, b'clear': self.clear, b'run': self.run, b'write': self.write, b'model': self.model,
                b'symbol': self.symbol, b'shown': self.shown, b'load': None}
        most = {b'load': 1, b'run': 1, b'shown': 1, b'write': 1, b'model': 1, b'symbol': 2}
        if word not in call or (words and word not in most):
            return UNKNOWN, 0
        least = 0 if word in (b'write', b'model') or word not in most else 1
        numbers = [int(w) for w in words if re.fullmatch(rb'0|[1-9][0-9]*', w)]
        if len(numbers) != len(words) or not least <= len(words) <= most.get(word, 0) or any(v > BIGGEST for v in numbers):
            return NUMBER, 0
        if word == b'load':
            text = rest(numbers[0])
            return self.load(text), len(text)
        return call[word](*numbers), 0

    def answers(self, data):
        """The commands of an input, each as its bytes (a load with its text) and its answer."""
        at = 0
        while at < len(data):
            end = data.find(b'\n', at)
            end = len(data) if end < 0 else end
            answer, taken = self.command(data[at:end], lambda n: data[end + 1:end + 1 + n])
            yield data[at:end + 1 + taken], answer
            if answer is None:
                return
            at = end + 1 + taken


if __name__ == '__main__':
    for _, answer in Service().answers(sys.stdin.buffer.read()):
        sys.stdout.buffer.write(answer or b'')
