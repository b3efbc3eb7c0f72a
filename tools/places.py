#!/usr/bin/env python3
"""The places of docs/DESIGN-PASS.md: what in crates/*/src (and, for point 8, proofs/) has a form of the older language.

    tools/places.py            how many places each point has
    tools/places.py 3          the places of point 3, each as FILE:LINE: TEXT
    tools/places.py --kept     the places that stay, each with the line `// Kept: ..` beside it

The points are those of docs/DESIGN-PASS.md. It goes by the text: what it prints is a place to look at.
"""
import re
import sys
from pathlib import Path

ROOT = Path(__file__).resolve().parent.parent
ENTRY = r"[A-Za-z_]\w*"
NAMES = {"Refused", "RefusedAt", "Malformed", "Wrong", "NotLoaded", "NoModel", "NoSymbol", "Short", "TooLong"}


def sources():
    for path in sorted(ROOT.glob("crates/*/src/**/*.rt")):
        yield path.relative_to(ROOT), path.read_text()


def code(text):
    """The text with comments blanked, so that places keep their lines."""
    return re.sub(r"//[^\n]*", lambda m: " " * len(m.group()), text)


def line_of(text, at):
    return text.count("\n", 0, at) + 1


def closing(text, i, pair):
    """The place behind the bracket that closes the one at i."""
    depth = 0
    while True:
        depth += {pair[0]: 1, pair[1]: -1}.get(text[i], 0)
        i += 1
        if depth == 0:
            return i


def functions(text):
    """Each function: its place, name, parameters, clauses, body."""
    for m in re.finditer(r"\bfn (\w+)", text):
        i = m.end()
        if text[i] == "<":
            i = closing(text, i, "<>")
        if text[i] != "(":
            continue
        start = i
        i = closing(text, i, "()")
        params = text[start + 1 : i - 1]
        # the body begins at the first brace that stands after the clauses
        head = i
        while i < len(text) and text[i] not in "{;":
            nxt = re.compile(r"\s*(requires|ensures)[^{]*\{").match(text, i)
            if nxt:
                i = closing(text, nxt.end() - 1, "{}")
            else:
                i += 1
        clauses = text[head:i]
        if i >= len(text) or text[i] == ";":
            continue
        start = i
        i = closing(text, i, "{}")
        yield m.start(), m.group(1), params, clauses, text[start + 1 : i - 1]


def enums(text):
    for m in re.finditer(r"\benum (\w+)[^{;]*\{", text):
        i = closing(text, m.end() - 1, "{}")
        body = text[m.end() : i - 1]
        flat = re.sub(r"\{[^{}]*\}|\([^()]*\)", lambda x: "#" + re.sub(r"[,\s]", "", x.group()), body)
        yield m.start(), m.group(1), [v.strip() for v in flat.split(",") if v.strip()]


def declared(text):
    """The body of each struct and enum."""
    for m in re.finditer(r"\b(?:struct|enum) \w+[^{;(]*\{", text):
        i = closing(text, m.end() - 1, "{}")
        yield m.end(), text[m.end() : i - 1]


def split_params(params):
    return [p.strip() for p in re.split(r",(?![^<\[(]*[>\])])", params) if p.strip()]


def point1():
    for path, raw in sources():
        text = code(raw)
        for at, name, variants in enums(text):
            names = {v.split("#")[0].strip() for v in variants}
            data = [v for v in variants if "#" in v]
            if names & NAMES or (data and len(data) < len(variants)):
                yield path, line_of(text, at), f"enum {name}: {', '.join(v.replace('#', '') for v in variants)}"
        for start, body in declared(text):
            for m in re.finditer(r"\b(\w+): bool\b", body):
                yield path, line_of(text, start + m.start()), f"flag {m.group(1)}"
        for m in re.finditer(r"\b(code|kind|number|mark|signs?): (&mut |&)?(u8|u16|u32|usize|\[u8; \d+\])(?=[,) \n])", text):
            yield path, line_of(text, m.start()), f"number {m.group()}"
        for at, name, params, clauses, body in functions(text):
            if re.match(r"\s*->\s*u8\b", clauses):
                yield path, line_of(text, at), f"fn {name} -> u8"


def skeleton(body):
    """A body with its names and numbers taken out."""
    body = re.sub(r"\b\d[\w.]*", "0", body)
    keep = {"let", "mut", "while", "if", "else", "return", "match", "for", "in", "loop", "as", "true", "false"}
    body = re.sub(r"[A-Za-z_]\w*", lambda m: m.group() if m.group() in keep else "x", body)
    return re.sub(r"\s+", "", body)


def point2():
    seen = {}
    for path, raw in sources():
        text = code(raw)
        for at, name, params, clauses, body in functions(text):
            s = skeleton(body)
            if len(s) >= 60:
                seen.setdefault(s, []).append((path, line_of(text, at), f"fn {name}"))
    for group in seen.values():
        if len(group) > 1:
            names = ", ".join(f"{p}:{n}" for p, n, _ in group)
            for path, line, what in group:
                yield path, line, f"{what} (of {names})"


def point3():
    for path, raw in sources():
        text = code(raw)
        for m in re.finditer(r"^\s*(?:'\w+: )?(while\b[^\n]*|loop) \{", text, re.M):
            yield path, line_of(text, m.start(1)), m.group(1)


def point4():
    one = re.compile(
        r"^\s*(?:\w+(?:\.\w+)* (?:==|<|<=|\+) \w+(?:\.\w+)*|\(?\w+(?:\[\w+\])?(?: as \w+)+\)?|\w+\[\w+\](?: as \w+)?|\w+(?:::\w+)*\(\w+\) as \w+)\s*$"
    )
    for path, raw in sources():
        text = code(raw)
        for at, name, params, clauses, body in functions(text):
            if one.match(body):
                yield path, line_of(text, at), f"fn {name}: {' '.join(body.split())}"
        for m in re.finditer(r"\bas (?:u8|u16|u32|u64|usize|i32|i64)\b", text):
            yield path, line_of(text, m.start()), f"cast {text[max(0, m.start() - 20):m.end()].split(chr(10))[-1].strip()}"
        for m in re.finditer(r"^\s*(\w+): \1,?$", text, re.M):
            yield path, line_of(text, m.start(1)), f"field {m.group().strip()}"
        for m in re.finditer(r"\b(?:text|write_all|say|put)\((?:rt|out|err|\w+), b\"", text):
            yield path, line_of(text, m.start()), "print of bytes"


GROUPS = [
    ("pool", "rows"),
    ("starts", "rules"),
    ("starts", "lists"),
    ("headstarts", "headlists"),
    ("lits", "marks"),
    ("lits", "signs"),
    ("priorities", "literals"),
    ("priorities", "weights"),
    ("literals", "weights"),
    ("literals", "cores"),
    ("cores", "indices"),
    ("pool", "gap"),
    ("s", "at"),
    ("key", "m"),
    ("key", "start"),
    ("flags", "core"),
    ("wished", "count"),
    ("bytes", "used"),
    ("conditions", "symbols"),
]


def point5():
    facts = {}
    for path, raw in sources():
        text = code(raw)
        for at, name, params, clauses, body in functions(text):
            names = {p.split(":")[0].replace("mut ", "").strip() for p in split_params(params)}
            together = [g for g in GROUPS if set(g) <= names]
            if together:
                yield path, line_of(text, at), f"fn {name}: {len(names)} parameters, {'; '.join(' '.join(g) for g in together)}"
            for m in re.finditer(r"requires(?: \w+)? \{(.*?)\}\s*(?=requires|ensures|$)", clauses, re.S):
                fact = " ".join(m.group(1).split())
                facts.setdefault((path.parts[1], fact), []).append((path, line_of(text, at), name))
    for (crate, fact), places in facts.items():
        if len(places) >= 3:
            for path, line, name in places:
                yield path, line, f"fn {name}: a fact of {len(places)} functions: {fact[:60]}"


def point6():
    for path, raw in sources():
        text = code(raw)
        for start, body in declared(text):
            for m in re.finditer(r"\w+: (?:\[\w+; ?[\w:]+\]|[A-Z]\w+s\b)", body):
                yield path, line_of(text, start + m.start()), m.group()
        for m in re.finditer(r"\blet (?:mut )?\w+(?:: [^=]+)? = \[[^\];]+; ?[\w:]+\]|^pub type \w+ = [^;]*;[^;]*;", text, re.M):
            yield path, line_of(text, m.start()), m.group()


def point7():
    for path, raw in sources():
        text = code(raw)
        for at, name, params, clauses, body in functions(text):
            for p in split_params(params):
                if re.match(r"\w+: bool$", p) and re.search(r"\bif !?" + p.split(":")[0] + r"\b", body):
                    yield path, line_of(text, at), f"fn {name}: switch {p}"


def point8():
    for path in sorted(ROOT.glob("crates/*/proofs/**/Answers.antt")):
        answers = len(re.findall(r"^pub \S+ : goal\.", path.read_text(), re.M))
        yield path.relative_to(ROOT), 1, f"{answers} answers"


POINTS = [point1, point2, point3, point4, point5, point6, point7, point8]


def main():
    if sys.argv[1:] == ["--kept"]:
        for path, text in sources():
            for n, line in enumerate(text.split("\n"), 1):
                if "// Kept: " in line:
                    print(f"{path}:{n}: {line.strip()}")
        return
    if sys.argv[1:]:
        for path, line, what in POINTS[int(sys.argv[1]) - 1]():
            print(f"{path}:{line}: {what}")
        return
    for n, point in enumerate(POINTS, 1):
        print(f"point {n}: {len(list(point()))} places")


main()
