#!/usr/bin/env python3
"""Writes crates/aspif_texts/stdin and stdout: texts, and the answers that documents 01 and 02 (orders 1 and 2) give.

Each text stands here with its answer, taken from those: OK, or the number of the refusal and the line.
For an accepted text the answer also has figures of its program, from a reader in Python that was written from
the documents alone (tests/aspif_reader.py); it must agree with every answer that stands here.

A text in stdin is its length, as eight digits, and then its bytes. A line of stdout is the answer to it.
"""
import os, sys

from aspif_reader import H, Program, read
from bodies import Sum, literals

OK = "ok"

# ---- figures of a program

def fold(h, x):
    return (h * 31 + x) % 65521

def signed(x):
    return 2000 + x

def figures(p):
    atoms = [a for _, h, b in p.rules for a in h + literals(b)] + [z for _, z, _ in p.entries] + [z for _, c in p.symbols for z in c]
    hr = 7
    for h, heads, body in p.rules:
        # the kind of a rule: 2 more for a weighted body, 4 more for one in which an atom stands with both signs; its bound and its weights come after its literals
        weighted = isinstance(body, Sum)
        kind = h + (4 if body.mixed else 2) if weighted else h
        for x in [kind, len(heads), len(literals(body))] + [signed(z) for z in heads + literals(body)]:
            hr = fold(hr, x)
        for x in [body.bound, *[w for _, w in body.pairs]] if weighted else []:
            hr = fold(fold(hr, x // 20000), x % 20000)
    he = 7
    for q, z, w in p.entries:
        for x in [signed(q), signed(z), int(w < 0), abs(w) // 1000, abs(w) % 1000]:
            he = fold(he, x)
    hs = 7
    for name, c in p.symbols:
        for x in [len(name), len(c)] + list(name) + [signed(z) for z in c]:
            hs = fold(hs, x)
    ht = 7
    for b in p.text:
        ht = fold(ht, b)
    out = ["accepted", max([abs(a) for a in atoms], default=0), len(p.rules), hr, len(p.entries), he, len(p.symbols), hs, len(p.text), ht, len(p.levels)]
    out += sorted(p.levels, reverse=True)
    # written into 16 bytes: the rest, or all of them, are as before
    out += ["wrote", len(p.text), 16 - len(p.text)] if len(p.text) <= 16 else ["short", len(p.text), 16]
    return " ".join(str(x) for x in out)

# ---- texts with their answers

cases = []

def case(text, answer):
    if isinstance(text, str):
        text = text.encode("latin1")
    got = read(text)
    want = OK if isinstance(got, Program) else got
    if want != answer:
        sys.exit(f"the Python reader says {want}, this file {answer}: {text[:80]!r}")
    cases.append((text, figures(got) if answer == OK else f"refused {answer[0]} at line {answer[1]}"))

def body(lines, answer):
    """Lines after line 1, and the `0` line."""
    case(H.decode() + lines + "0\n", answer)

big = "9" * 300

# line 1
case("", (1, 1))
case("\n", (1, 1))
case("asp 1 0 0", (2, 1))
case("asp 1 0 ", (1, 1))
for first in ["asp 1 0 1", "asp 1 0 00", "asp 1 0 0 ", " asp 1 0 0", "asp  1 0 0", "asp 1 0 0\r", "ASP 1 0 0", "asp 1 0", "10 asp", "0", "asp 1 0 0 incremental", "asp 2 0 0", "asp\t1 0 0", "\0asp 1 0 0"]:
    case(first + "\n0\n", (1, 1))
    case(first, (1, 1))
case("asp 1 0 0\n0\n", OK)

# the `0` line, and what stands after it
case("asp 1 0 0\n", (2, 2))
case("asp 1 0 0\n0", (2, 2))
case("asp 1 0 0\n1 0 0 0 0\n", (2, 3))
case("asp 1 0 0\n1 0 0 0 0", (2, 2))
case("asp 1 0 0\n10\n", (2, 3))
case("asp 1 0 0\n10", (2, 2))
case("asp 1 0 0\n10 x", (2, 2))
case("asp 1 0 0\n2 0 0", (2, 2))
case("asp 1 0 0\n4 1 a 0", (2, 2))
for tail in ["\n", "0\n", "x", "0", "10\n", "1 0 0 0 0\n", " ", "\0", "\r\n"]:
    case("asp 1 0 0\n0\n" + tail, (2, 3))
    case("asp 1 0 0\n1 0 0 0 0\n0\n" + tail, (2, 4))
for line in ["0 ", " 0", "0 0", "00", "-0", "0x", "0\r", "+0", "0\0", ""]:
    case(H.decode() + line + "\n0\n", (2, 2))
    case(H.decode() + line + "\n", (2, 2))

# comments
for c in ["10", "10 ", "10  ", "10 a comment", "10 \0\r\x7f\xff", "10 10", "10 0", "10 1 0 0 0 0", "10 " + "x" * 300, "10 asp 1 0 0"]:
    body(c + "\n", OK)
    body(c + "\n1 0 1 1 0 0\n" + c + "\n" + c + "\n", OK)
for c in ["10x", "010", "10\t", "10\r", "10\0", "100x", "1 0", " 10", "-10", "10."]:
    body(c + "\n", (2, 2))
body("100\n", (4, 2))
body("100 comment\n", (4, 2))

# kinds
for kind in ["3", "5", "6", "7", "8", "9"]:
    body(kind + "\n", (3, 2))
    body(kind + " rubbish  01 \0\n", (3, 2))
    case(H.decode() + kind + " 0", (3, 2))
    case(H.decode() + kind, (3, 2))
    case(H.decode() + "1 0 0 0 0\n10\n" + kind + "\n", (3, 4))
for kind in ["11", "12", "99", "1000001", "1000011", "4294967296", "18446744073709551617", big]:
    body(kind + "\n", (4, 2))
    case(H.decode() + kind + " x", (4, 2))
for kind in ["3x", "01", "x", "-1", "-3", "+1", "1x", "11x", "\0", "a", "0" + big, big + "x", "1\r", "²", "1,"]:
    body(kind + " 0 0 0 0\n", (2, 2))

# each place where a number stands: the line up to it, one that is right there, the rest of the line, a minus allowed
places = [
    ("1 ", "0", " 0 0 0", False), ("1 ", "1", " 2 1 2 0 0", False), ("1 1 ", "2", " 1 2 0 0", False), ("1 0 ", "1", " 5 0 0", False), ("1 0 1 ", "5", " 0 0", False),
    ("1 1 2 5 ", "6", " 0 0", False), ("1 0 1 5 ", "0", " 1 2", False), ("1 0 1 5 0 ", "2", " 3 -4", False), ("1 0 1 5 0 2 ", "3", " -4", True), ("1 0 1 5 0 2 3 ", "4", "", True),
    ("2 ", "7", " 1 3 4", True), ("2 -7 ", "1", " 3 4", False), ("2 7 1 ", "3", " 4", True), ("2 7 1 3 ", "4", "", True), ("2 7 2 3 ", "4", " -5 6", True), ("2 7 2 3 4 ", "5", " 6", True), ("2 7 2 3 4 -5 ", "6", "", True), ("2 -7 2 -3 -4 -5 ", "-6", "", True),
    ("4 ", "3", " abc 1 2", False), ("4 3 abc ", "1", " 2", False), ("4 3 abc 1 ", "2", "", True), ("4 3 abc 2 2 ", "9", "", True),
]
def place(before, right, after, minus, out_of_range):
    body(before + right + after + "\n", OK)
    for wrong in ["", "01", "00", "+1", "x", "1x", "-", "--1", "1-", "-0", "-01", "\0", "1\r", "\t1", "1.0", "0x1", "-x", "²", "0" + big, "-0" + big]:
        body(before + wrong + after + "\n", (2, 2))
    body(before + "-1" + after + "\n", OK if minus else (2, 2))
    if not minus:
        body(before + "-" + big + after + "\n", (2, 2))
    for far in out_of_range:
        body(before + far + after + "\n", (4, 2))
        if minus:
            body(before + "-" + far + after + "\n", (4, 2))
    case(H.decode() + before[:-1] + "\n0\n", (2, 2))
    case(H.decode() + before[:-1], (2, 2))
    case(H.decode() + before, (2, 2))
    case(H.decode() + before + right + after, (2, 2))
    body(before + right + after + " \n", (2, 2))
    body(before + right + after + " 1\n", (2, 2))
    body(before + " " + right + after + "\n", (2, 2))

for p in places:
    place(*p, ["1000001", "4294967297", "18446744073709551617", big])

# ranges at both edges
for line, answer in [
    ("1 2 0 0 0", (4, 2)), ("1 1 0 0 0", OK), ("1 0 0 0 0", OK),
    ("1 1 1 1024 0 0", OK), ("1 1 1 1025 0 0", (4, 2)), ("1 1 1 0 0 0", (4, 2)), ("1 1 1 1 0 0", OK), ("1 0 1 1024 0 0", OK), ("1 0 1 1025 0 0", (4, 2)),
    ("1 0 0 2 0", (4, 2)), ("1 0 0 0 1025", (4, 2)), ("1 0 0 0 1 1024", OK), ("1 0 0 0 1 -1024", OK), ("1 0 0 0 1 1025", (4, 2)), ("1 0 0 0 1 -1025", (4, 2)),
    ("1 0 0 0 1 0", (4, 2)), ("1 0 0 0 1 -0", (2, 2)), ("1 0 0 0 1 1", OK), ("1 0 0 0 1 -1", OK),
    ("1 1 1025 1", (4, 2)), ("1 1 1024" + " 7" * 1024 + " 0 0", OK), ("1 0 0 0 1024" + " -7" * 1024, OK), ("1 1 1024" + " 1024" * 1024 + " 0 1024" + " -1024" * 1024, OK),
    ("2 1000 0", OK), ("2 -1000 0", OK), ("2 1001 0", (4, 2)), ("2 -1001 0", (4, 2)), ("2 0 0", OK), ("2 -0 0", (2, 2)),
    ("2 0 1 1 0", OK), ("2 0 1 1 1000000", OK), ("2 0 1 1 1000001", (4, 2)), ("2 0 1 -1024 5", OK), ("2 0 1 1025 5", (4, 2)), ("2 0 1 0 5", (4, 2)), ("2 0 1 -0 5", (2, 2)), ("2 0 1025", (4, 2)),
    ("4 0  0", (4, 2)), ("4 1 a 0", OK), ("4 64 " + "n" * 64 + " 0", OK), ("4 65 " + "n" * 65 + " 0", (4, 2)), ("4 1 a 1025", (4, 2)), ("4 1 a 1024" + " 3" * 1024, OK), ("4 1 a 1 0", (4, 2)), ("4 1 a 1 -1024", OK), ("4 1 a 1 -1025", (4, 2)),
]:
    body(line + "\n", answer)

# order 1: weights from -1,000,000 to 1,000,000, by form and then range; a minus in any other place is as before
for w in ["0", "1", "-1", "9", "-9", "-10", "999999", "-999999", "1000000", "-1000000"]:
    body(f"2 0 1 1 {w}\n", OK)
    body(f"2 -5 3 1 {w} -2 {w} 1 {w.lstrip('-')}\n2 5 1 1 {w}\n", OK)
for w in ["-0", "--1", "-", "-01", "-00", "+1", "+0", "- 1", "-1-", "1-", "-1x", "-x", "\xe2\x88\x921", "\xad1", "-\0", "-1.5", "-1e3", "-0" + "0" * 300, "-1000001x"]:
    body(f"2 0 1 1 {w}\n", (2, 2))
# a number that is out of range is so whatever it is in 32 or 64 bits
for w in ["1000001", "2147483647", "2147483648", "4293967297", "4294967295", "4294967296", "4295967296", "18446744073708551616", "18446744073709551615", big]:
    body(f"2 0 1 1 {w}\n", (4, 2))
    body(f"2 0 1 1 -{w}\n", (4, 2))
for line, answer in [
    ("2 0 -1 1 5", (2, 2)), ("2 0 -0", (2, 2)), ("2 0 -1", (2, 2)), ("-2 0 1 1 -5", (2, 2)), ("2 -0 1 1 -5", (2, 2)), ("2 0 1 -0 -5", (2, 2)), ("2 0 1 0 -5", (4, 2)), ("2 0 1 -1 -5", OK),
    ("2 0 1 1 -5 ", (2, 2)), ("2 0 1 1  -5", (2, 2)), ("2 0 1 1-5", (2, 2)), ("2 0 1 1 -5 2", (2, 2)), ("2 0 2 1 -5 2", (2, 2)), ("2 0 2 1 -5 -2 -1000001", (4, 2)), ("2 0 2 1 -1000001 -2 x", (4, 2)), ("2 0 2 1 -x -2 -1000001", (2, 2)),
    ("4 -1 a 0", (2, 2)), ("4 1 a -1 2", (2, 2)), ("1 -1 0 0 0", (2, 2)), ("1 1 -1 1 0 0", (2, 2)), ("1 0 0 -0 0", (2, 2)), ("1 0 0 0 -1 1", (2, 2)), ("1 0 1 -1 0 0", (2, 2)),
]:
    body(line + "\n", answer)
# one literal with both signs, and the same pair twice: each pair is an entry
body("2 0 4 1 -5 1 5 1 -5 -1 -5\n", OK)
body("2 0 512" + " 1 -1000000" * 512 + "\n", OK)
body("2 0 513" + " 1 -1" * 513 + "\n", (5, 2))
body("2 0 256" + " 1 -1" * 256 + "\n10 -1\n2 -1 256" + " -1 -1000000" * 256 + "\n4 2 -1 1 -1\n", OK)

# order 2: weighted bodies, `1 bound k` and k pairs of literal and weight. Bound, then k, then pair by pair, each number by form and then range; a minus in bound or weight is malformed
for before, right, after, minus in [
    ("1 0 1 5 ", "1", " 7 2 3 4 -6 8", False), ("1 0 1 5 1 7 ", "2", " 3 4 -6 8", False), ("1 0 1 5 1 7 2 ", "3", " 4 -6 8", True), ("1 0 1 5 1 7 2 3 ", "4", " -6 8", False),
    ("1 0 1 5 1 7 2 3 4 ", "-6", " 8", True), ("1 0 1 5 1 7 2 3 4 -6 ", "8", "", False), ("1 1 2 5 6 1 0 1 ", "9", " 0", True), ("1 0 0 1 9 1 -1 ", "0", "", False),
]:
    place(before, right, after, minus, ["1000001", "4294967297", "18446744073709551617", big])
for before, right, after in [("1 0 1 5 1 ", "7", " 2 3 4 -6 8"), ("1 0 0 1 ", "0", " 0"), ("1 1 2 5 6 1 ", "1000000000", " 1 3 4")]:
    place(before, right, after, False, ["1000000001", "2147483648", "4294967296", "5294967296", "18446744073709551616", "18446744074709551616", big])
for bound in ["0", "1", "9", "10", "999999", "1000000", "1000001", "999999999", "1000000000"]:
    body(f"1 0 0 1 {bound} 0\n", OK)
    body(f"1 0 1 3 1 {bound} 2 1 1 -2 5\n1 1 2 3 4 1 {bound} 1 -5 0\n", OK)
for bound in ["-0", "-1", "-01", "--1", "-", "+1", "00", "01", "1-", "1.0", "- 1", "-1000000000", "-1000000001", "0000000001", "1e9", "1x", ""]:
    body(f"1 0 0 1 {bound} 0\n", (2, 2))
for bound in ["1000000001", "1999999999", "4294967295", "4294967297", "18446744073709551615", "18446744073709551617"]:
    body(f"1 0 0 1 {bound} 0\n", (4, 2))
for w in ["0", "1", "999999", "1000000"]:
    body(f"1 0 0 1 5 1 1 {w}\n", OK)
    body(f"1 0 1 9 1 5 4 1 {w} -1 {w} 1 {w} -2 0\n", OK)
for w in ["-0", "-1", "-01", "-", "--1", "+1", "+0", "00", "01", "1-", "1.5", "-1000000", "-1000001", "1x", "- 1"]:
    body(f"1 0 0 1 5 1 1 {w}\n", (2, 2))
    body(f"1 0 0 1 5 2 -3 4 1 {w}\n", (2, 2))
for w in ["1000001", "1000000000", "2147483648", "4294967295", "4294967296", "4295967296", "18446744073709551616", big]:
    body(f"1 0 0 1 5 1 1 {w}\n", (4, 2))
for line, answer in [
    # k and b at their edges; k = 0; a plain head with two atoms comes before b
    ("1 0 0 1 0 0", OK), ("1 1 0 1 0 0", OK), ("1 0 1 7 1 0 0", OK), ("1 0 0 1 1000000000 0", OK), ("1 0 0 1 5 1025", (4, 2)), ("1 0 0 2 5 0", (4, 2)), ("1 0 0 2", (4, 2)), ("1 0 0 -1 5 0", (2, 2)),
    ("1 0 0 1 5 1024" + " -7 0" * 1024, OK), ("1 1 1024" + " 1024" * 1024 + " 1 1000000000 1024" + " -1024 1000000" * 1024, OK), ("1 0 2 1 2 1 0 0", (3, 2)), ("1 0 1025 1", (4, 2)),
    # a literal at its edges
    ("1 0 0 1 5 1 1024 1", OK), ("1 0 0 1 5 1 -1024 1", OK), ("1 0 0 1 5 1 1025 1", (4, 2)), ("1 0 0 1 5 1 -1025 1", (4, 2)), ("1 0 0 1 5 1 0 1", (4, 2)), ("1 0 0 1 5 1 -0 1", (2, 2)),
    # what is missing, what is too much
    ("1 0 0 1 ", (2, 2)), ("1 0 0 1 5", (2, 2)), ("1 0 0 1 5 ", (2, 2)), ("1 0 0 1 5 1", (2, 2)), ("1 0 0 1 5 1 2", (2, 2)), ("1 0 0 1 5 1 2 ", (2, 2)), ("1 0 0 1 5 2 1 1", (2, 2)), ("1 0 0 1 5 2 1 1 2", (2, 2)),
    ("1 0 0 1 5 1 1 1 ", (2, 2)), ("1 0 0 1 5 1 1 1 2", (2, 2)), ("1 0 0 1 5 1 1 1 2 1", (2, 2)), ("1 0 0 1 5 0 1", (2, 2)), ("1 0 0 1 5 0 1 1", (2, 2)), ("1 0 0 1 5 0 ", (2, 2)), ("1 0 0 1  5 0", (2, 2)),
    ("1 0 0 1 5  0", (2, 2)), ("1 0 0 1 5 1  1 1", (2, 2)), ("1 0 0 1 5 1 1  1", (2, 2)), ("1 0 0 1 5 1 1\t1", (2, 2)), ("1 0 0 15 0", (4, 2)), ("1 0 0 0 5 1 1 1", (2, 2)), ("1 0 0 0 1 5 1", (2, 2)),
    # the first that is wrong counts
    ("1 0 0 1 1000000001 x", (4, 2)), ("1 0 0 1 x 2000", (2, 2)), ("1 0 0 1 -0 2000", (2, 2)), ("1 0 0 1 -1 x", (2, 2)), ("1 0 0 1 1000000001x 0", (2, 2)), ("1 0 0 1 1000000001 -1", (4, 2)),
    ("1 0 0 1 5 1025 x", (4, 2)), ("1 0 0 1 5 x 0", (2, 2)), ("1 0 0 1 5 -1 0", (2, 2)), ("1 0 0 1 5 1025 0 -1", (4, 2)), ("1 0 0 1 5 1 0 x", (4, 2)), ("1 0 0 1 5 1 0 -1", (4, 2)), ("1 0 0 1 5 1 x 1000001", (2, 2)),
    ("1 0 0 1 5 2 1 1000001 x 1", (4, 2)), ("1 0 0 1 5 2 1 x 0 1", (2, 2)), ("1 0 0 1 5 2 1 -1 0 1", (2, 2)), ("1 0 0 1 5 2 1 1 0 x", (4, 2)), ("1 0 0 1 5 2 1 1 x 1000001", (2, 2)), ("1 0 0 1 5 2 1 1000001", (4, 2)),
    ("1 0 1 1025 1 x", (4, 2)), ("1 0 1 x 1 1000000001", (2, 2)), ("1 2 0 1 -1 0", (4, 2)), ("1 0 0 1x 5 0", (2, 2)), ("1 0 0 01 5 0", (2, 2)), ("1 0 0 2 -1", (4, 2)), ("1 1 2 3 4 1 0", (2, 2)),
]:
    body(line + "\n", answer)
case(H.decode() + "1 0 0 1 5 1 1 1", (2, 2))
case(H.decode() + "1 0 0 1 5 1 1 1000001", (4, 2))
case(H.decode() + "1 0 0 1 1000000001", (4, 2))
case(H.decode() + "1 0 0 1 5", (2, 2))
# the order's samples; one literal twice, with both signs and with either first; an atom that stands in a pair of weight 0 only; comments between
body("1 1 3 1 2 3 0 0\n1 0 0 1 5 3 1 2 2 3 3 4\n2 0 3 -1 2 -2 3 -3 4\n", OK)
for line in ["1 0 1 1 1 2 2 -2 1 -2 1", "1 0 1 1 1 1 1 1 1", "1 0 1 1 1 1 1 -1 1", "1 0 0 1 1 2 1 1 -1 1", "1 0 0 1 1 2 -1 1 1 1", "1 0 0 1 2 3 1 1 2 0 1 1", "1 0 0 1 2 3 1 0 2 1 -1 0", "1 1 2 1 2 1 3 2 900 0 -900 0"]:
    body(line + "\n2 0 1 5 1\n", OK)
    body(f"10 {line}\n{line}\n10\n1 0 0 0 1 3\n{line}\n10 1 0 0 1 -1 0\n", OK)
for k in range(1, 8):
    body("".join(f"1 0 1 {i} 1 {i} 2 {i + 1} {i} -{i} 1\n10 {i}\n" for i in range(1, k)) + "1 0 1 1 1 5 1 2 -1\n", (2, 2 * k))
# each pair takes one place of the 16,384, the bound none
pairs = "1 0 0 1 9 1024" + " 1 1" * 1024 + "\n"
body(pairs * 15 + "1 0 0 0 1024" + " 1" * 1024 + "\n1 0 0 1 7 0\n1 1 0 1 0 0\n1 0 0 0 0\n", OK)
body(pairs * 15 + "1 0 0 0 1023" + " 1" * 1023 + "\n1 0 0 1 7 1 5 0\n", OK)
body(pairs * 15 + "1 0 0 0 1024" + " 1" * 1024 + "\n1 0 0 1 7 1 5 0\n", (5, 18))
body(pairs * 15 + "1 0 0 0 1023" + " 1" * 1023 + "\n1 0 1 1 1 7 1 5 0\n", (5, 18))
body(pairs * 15 + "1 1 600" + " 2" * 600 + " 1 1 424" + " 3 1" * 424 + "\n", OK)
case(H.decode() + pairs * 15 + "1 0 0 0 1024" + " 1" * 1024 + "\n1 0 0 1 7 1 5 0", (2, 18))
body("1 0 0 1 1 0\n" * 2048, OK)
body("1 0 0 1 1 0\n" * 2049, (5, 2050))

# the accepted part, after form and range
for line, answer in [
    ("1 0 2 1 2 0 0", (3, 2)), ("1 0 1024", (3, 2)), ("1 0 1025", (4, 2)), ("1 0 2x", (2, 2)), ("1 0 02", (2, 2)), ("1 0 2 rubbish", (3, 2)), ("1 0 2 1 2 1 5 0", (3, 2)), ("1 0 0 1", (2, 2)), ("1 0 0 1 5 x", (2, 2)),
    ("1 0 0 1x", (2, 2)), ("1 0 0 2 x", (4, 2)), ("1 1 2 3 4 1 0", (2, 2)), ("1 2 01", (4, 2)), ("1 2x 9999", (2, 2)), ("1 1025x 0", (2, 2)), ("1 0 1 0x 0 0", (2, 2)), ("1 0 1 2000x 0 0", (2, 2)),
    ("1 0 0 0 2 0 x", (4, 2)), ("1 0 0 0 2 x 0", (2, 2)), ("2 2000 x", (4, 2)), ("2 x 2000", (2, 2)), ("2 0 1 2000 x", (4, 2)), ("2 0 1 x 2000000", (2, 2)), ("4 99 a", (4, 2)), ("4 1 \x07 2000", (2, 2)), ("4 1 a 2000 x", (4, 2)),
]:
    body(line + "\n", answer)
case(H.decode() + "1 0 2", (3, 2))
case(H.decode() + "1 0 0 1", (2, 2))
case(H.decode() + "1 0 0 0 1 1025", (4, 2))

# names
for name in [" ", "  ", "a b", " a", "a ", "p(1,2)", "~", "!", "10", "-1", "x 0 0", "\"q\"", "4 1 a 0"]:
    body(f"4 {len(name)} {name} 0\n", OK)
    body(f"4 {len(name)} {name} 2 3 -4\n", OK)
    body(f"4 {len(name) + 1} {name} 0\n", (2, 2))
for name in ["\0", "\r", "\t", "\x1f", "\x7f", "\x80", "\xff", "a\0", "\x1fb", "a\x7fb"]:
    body(f"4 {len(name)} {name} 0\n", (2, 2))
for line in ["4 1 ab 0", "4 2 a 0", "4 3 a b0", "4 2 ab", "4 2 ab0", "4 2 ab  0", "4 5 ab 0", "4 5 ab", "4 2", "4 2 ", "4 2 a", "4 1 a 1", "4 1 a 1 1 1", "4 1 a 0 ", "4 1a 0", "4  1 a 0"]:
    body(line + "\n", (2, 2))
body("4 2 a\nb 0\n", (2, 2))
body("4 2 a  0\n", OK)

# lines in order, and lines before and after each other
body("1 0 1 1 0 0\n1 0 1 01 0 0\n3\n", (2, 3))
body("3\n01\n", (3, 2))
body("1 0 1 1 0 0\n\n1 0 0 0 0\n", (2, 3))
body("1 0 1 1 0 0\r\n", (2, 2))
body("1 0 1 1 0 0\n2 0 1 2 3\n4 1 a 1 4\n10 x\n1 1 2 5 6 0 1 -7\n", OK)
body("4 1 a 1 1024\n", OK)
body("2 5 1 -900 0\n", OK)
body("1 0 1 3 0 2 3 3\n1 0 1 3 0 2 3 3\n", OK)
for k in range(1, 12):
    body("".join(f"1 0 1 {i} 0 1 -{i + 1}\n10 {i}\n" for i in range(1, k)) + "1 0 1 0 0 0\n", (4, 2 * k))

# priorities, highest first, each once
body("2 5 0\n", OK)
body("2 -1000 0\n2 1000 0\n2 0 1 1 1\n2 0 1 1 1\n2 7 0\n2 -7 0\n2 5 0\n2 -5 0\n2 -999 0\n2 7 2 1 5 2 6\n", OK)
body("".join(f"2 {q} 1 1 1\n" for q in [3, 1, 4, 1, 5, 9, 2, 6, 5, 3, 5]), OK)
body("".join(f"2 {q} 0\n" for q in range(8)), OK)
body("".join(f"2 {q} 0\n" for q in range(9)), (5, 10))
body("".join(f"2 {q} 0\n" for q in range(9, 0, -1)), (5, 10))
body("".join(f"2 {q} 1 1 0\n" for q in [0, 1, 2, 3, 4, 5, 6, 7, 3, 0, 7]), OK)
body("".join(f"2 {q} 1 1 0\n" for q in [0, 1, 2, 3, 4, 5, 6, 7, 3, 0, -7]), (5, 12))

# table limits at both edges; a limit is judged after its line, and before the next
body("1 0 0 0 0\n" * 2048, OK)
body("1 0 0 0 0\n" * 2049, (5, 2050))
body("1 1 0 0 0\n" * 2049 + "x\n", (5, 2050))
full = "1 0 0 0 1024" + " 1" * 1024 + "\n"
body(full * 16, OK)
body(full * 16 + "1 0 0 0 0\n", OK)
body(full * 16 + "1 0 0 0 1 1\n", (5, 18))
body(full * 16 + "1 0 1 1 0 0\n", (5, 18))
body(full * 16 + "1 1 1 1 0 0\n", (5, 18))
body(full * 16 + "1 1 0 0 0\n", OK)
body(full * 15 + "1 1 1000" + " 2" * 1000 + " 0 24" + " -3" * 24 + "\n", OK)
body(full * 15 + "1 1 1000" + " 2" * 1000 + " 0 25" + " -3" * 25 + "\n", (5, 17))
body(full * 15 + "1 1 1024" + " 2" * 1024 + " 0 1024" + " -3" * 1024 + "\n", (5, 17))
case(H.decode() + full * 16 + "1 0 0 0 1 1", (2, 18))
body(full * 17, (5, 18))
body("2 0 512" + " 1 1" * 512 + "\n", OK)
body("2 0 513" + " 1 1" * 513 + "\n", (5, 2))
body("2 0 1024" + " 1 1" * 1024 + "\n", (5, 2))
body("2 0 256" + " 1 1" * 256 + "\n2 1 256" + " -2 0" * 256 + "\n2 1 0\n", OK)
body("2 0 256" + " 1 1" * 256 + "\n2 1 256" + " -2 0" * 256 + "\n2 1 1 1 1\n", (5, 4))
body("2 0 512" + " 1 1" * 512 + "\n2 0 1024" + " 1 1" * 1024 + "\n", (5, 3))
body("".join(f"4 {len(str(i))} {i} 0\n" for i in range(512)), OK)
body("".join(f"4 {len(str(i))} {i} 0\n" for i in range(513)), (5, 514))
body(("4 1 a 1024" + " 1" * 1024 + "\n") * 2, OK)
body(("4 1 a 1024" + " 1" * 1024 + "\n") * 2 + "4 1 b 1 1\n", (5, 4))
body(("4 1 a 1024" + " 1" * 1024 + "\n") * 3, (5, 4))
body("".join("4 64 " + chr(33 + i % 90) * 64 + " 0\n" for i in range(256)), OK)
body("".join("4 64 " + chr(33 + i % 90) * 64 + " 0\n" for i in range(256)) + "4 1 x 0\n", (5, 258))
body("".join("4 64 " + chr(33 + i % 90) * 64 + " 0\n" for i in range(255)) + "4 63 " + "x" * 63 + " 0\n4 1 y 0\n", OK)
room = 65536 - len(H) - 2
case(H.decode() + "10 " + "x" * (room - 4) + "\n0\n", OK)
case(H.decode() + "10 " + "x" * (room - 3) + "\n0\n", (5, 0))
case(H.decode() + "10\n" * (room // 3) + "\n" * (room % 3) + "0\n", OK if room % 3 == 0 else (2, room // 3 + 2))
case("x" * 65536, (1, 1))
case("x" * 65537, (5, 0))
case("\n" * 65537, (5, 0))
case(H.decode() * 6554, (5, 0))
case(H.decode() + "1 0 0 0 0\n" * 2000 + "10 " + "y" * (room - 20000 - 4) + "\n0\n", OK)

# document 01's sample, and texts that gringo prints
here = os.path.dirname(os.path.abspath(__file__))
case("""asp 1 0 0
1 1 2 1 2 0 0
1 0 1 3 0 2 1 2
1 0 0 0 2 -1 -2
2 1 2 1 2 2 3
4 1 a 1 1
4 1 b 1 2
0
""", OK)
folder = os.path.join(here, "gringo")
for name in sorted(os.listdir(folder)):
    if name.endswith(".aspif"):
        text = open(os.path.join(folder, name), "rb").read()
        case(text, OK)
        # gringo prints no comment: what is written out is the text itself
        assert read(text).text == text, name
        lines = text.split(b"\n")
        remarked = b"\n".join(lines[:1] + [l for x in lines[1:-1] for l in (b"10 before " + x, x)] + [b""])
        if len(remarked) <= 65536:
            case(remarked, OK)
            assert read(remarked).text == text, name

if len(sys.argv) > 1:
    # one text, for a measurement: the largest
    sys.stdout.buffer.write(b"%08d" % 65536 + cases[-1][0])
    sys.exit()
crate = os.path.join(os.path.dirname(here), "crates", "aspif_texts")
with open(os.path.join(crate, "stdin"), "wb") as out:
    for text, _ in cases:
        out.write(b"%08d" % len(text) + text)
with open(os.path.join(crate, "stdout"), "w") as out:
    for _, answer in cases:
        out.write(answer + "\n")
print(len(cases), "texts")
