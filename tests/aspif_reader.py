#!/usr/bin/env python3
"""A reader of texts in Python, written from documents 01 and 02 (orders 1 and 2) alone: the program of a text, or its refusal's number and line.

tests/aspif_texts.py and tests/service.py use it.
"""
import re

from bodies import Sum, literals

H = b"asp 1 0 0\n"

class Refused(Exception):
    def __init__(self, number):
        self.number = number

class Fields:
    """A line without its byte 10, read field by field."""
    def __init__(self, line):
        self.line, self.at = line, 0

    def word(self):
        # the bytes up to the next space or the end of the line
        end = self.line.find(b" ", self.at)
        end = len(self.line) if end < 0 else end
        w = self.line[self.at:end]
        self.at = end
        return w

    def space(self):
        if self.line[self.at:self.at + 1] != b" ":
            raise Refused(2)
        self.at += 1

    def number(self, low, high, minus=False):
        w = self.word()
        if not re.fullmatch(rb"0|-?[1-9][0-9]*" if minus else rb"0|[1-9][0-9]*", w):
            raise Refused(2)
        v = int(w[:30])                      # above every range, as the whole number is
        if not low <= v <= high:
            raise Refused(4)
        return v

    def next(self, low, high, minus=False):
        self.space()
        return self.number(low, high, minus)

    def literal(self):
        v = self.next(-1024, 1024, True)
        if v == 0:
            raise Refused(4)
        return v

    def end(self):
        if self.at != len(self.line):
            raise Refused(2)

class Program:
    def __init__(self):
        self.rules, self.entries, self.levels, self.symbols, self.text = [], [], set(), [], b""

    def fits(self):
        return (len(self.rules) <= 2048 and sum(len(h) + len(literals(b)) for _, h, b in self.rules) <= 16384
                and len(self.entries) <= 512 and len(self.levels) <= 8 and len(self.symbols) <= 512
                and sum(len(c) for _, c in self.symbols) <= 2048 and sum(len(n) for n, _ in self.symbols) <= 16384)

def statement(line, p):
    """Reads a line into p; tells whether it is the `0` line."""
    f = Fields(line)
    kind = f.number(0, 10)
    if kind == 0:
        f.end()
    elif kind == 1:
        h = f.next(0, 1)
        m = f.next(0, 1024)
        if h == 0 and m > 1:
            raise Refused(3)
        heads = [f.next(1, 1024) for _ in range(m)]
        if f.next(0, 1) == 0:
            body = [f.literal() for _ in range(f.next(0, 1024))]
        else:
            bound = f.next(0, 1000000000)
            body = Sum(bound, [(f.literal(), f.next(0, 1000000)) for _ in range(f.next(0, 1024))])
        f.end()
        p.rules.append((h, heads, body))
    elif kind == 2:
        q = f.next(-1000, 1000, True)
        k = f.next(0, 1024)
        pairs = []
        for _ in range(k):
            z = f.literal()
            pairs.append((q, z, f.next(-1000000, 1000000, True)))
        f.end()
        p.entries += pairs
        p.levels.add(q)
    elif kind == 4:
        m = f.next(1, 64)
        f.space()
        name = line[f.at:f.at + m]
        if len(name) < m or any(not 32 <= b <= 126 for b in name):
            raise Refused(2)
        f.at += m
        condition = [f.literal() for _ in range(f.next(0, 1024))]
        f.end()
        p.symbols.append((name, condition))
    elif kind != 10:
        raise Refused(3)
    if kind != 10:
        p.text += line + b"\n"
    return kind == 0

def read(text):
    """The program, or a refusal's number and line."""
    if len(text) > 65536:
        return 5, 0
    pieces = text.split(b"\n")
    if pieces[0] != H[:-1]:
        return 1, 1
    if len(pieces) == 1:
        return 2, 1
    p = Program()
    p.text = H
    for n, line in enumerate(pieces[1:], 2):
        whole = n < len(pieces)
        try:
            final = statement(line, p)
        except Refused as r:
            return r.number, n
        if not whole:
            return 2, n
        if final:
            return p if pieces[n:] == [b""] else (2, n + 1)
        if not p.fits():
            return 5, n
