#!/usr/bin/env python3
"""Brings the repository's own definitions and lemmas to today's spelling: words in snake case, types and modules in camel case.

usage: python3 tools/respell.py [FOLDER]       once, right after /opt/rattle/port/port.py, at the top of the repository

What turns: names that files of specs/ and proofs/ declare, with a dash or a capital inside, as 'sumFrom' to 'sum_from' and 'put-done' to 'put_done': in .antt files, in the clauses and
ghost items of .rt files, and in must-fail edits. Functions of src/, strings, inputs and outputs keep their names, and so do the names of goals in Proof.antt, which Rattle makes.
Where a definition and a lemma would fall together, the definition has the plain name and the lemma gets '_lem'.
"""

import glob
import os
import re
import sys

TOKEN = re.compile(r"[^\s(){}.;,@\"«»`]+")
DECLARED = re.compile(r"(?m)^[ ]*(?:(?:abbrev|unfoldable|pub)\s+)*([^\s(){}.;,@\"«»:]+)\s+:\s+(?!(?:tie|goal|given)\.)")
CAMEL = re.compile(r"^[a-z][a-z0-9₀-₉]*([A-Z]|ℤ|ℕ)")
COMMENT = re.compile(r"(?<![^\s(){}.;,@\"«»])--[^\n]*")
# definitions of today's tree whose names a lemma would take, or that a lemma has taken: LEMMA (as port.py leaves it) -> its name here
LEMMAS = {
    "after_first": "after_first_lem",
    "all_hold": "all_hold_lem",
    "atoms-at": "atoms_at_lem",
    "best_of": "best_of_lem",
    "body_ok": "body_ok_lem",
    "core-of": "core_of_lem",
    "count_by": "count_by_lem",
    "drop_all": "drop_all_lem",
    "head_ok": "head_ok_lem",
    "is-all": "is_all_lem",
    "kind-at": "kind_at_lem",
    "kind-of": "kind_of_lem",
    "least_at": "least_at_lem",
    "meet-of": "meet_of_lem",
    "met_at": "met_at_lem",
    "name_by": "name_by_lem",
    "one_more": "one_more_lem",
    "open-at": "open_at_lem",
    "open_next": "open_next_lem",
    "pair-at": "pair_at_lem",
    "put-at": "put_at_lem",
    "row-ok": "row_ok_lem",
    "start-at": "start_at_lem",
}


# where the lemmas of that list stand which port.py has turned already
PLACES = {
    "after_first": ["advancing/proofs/Validity.antt"],
    "all_hold": ["search/proofs/Steps.antt"],
    "best_of": ["planner/proofs/Demand.antt"],
    "body_ok": ["search_traces/proofs/Checked.antt"],
    "count_by": ["advancing/proofs/Paths.antt"],
    "drop_all": ["advancing/proofs/Fresh.antt", "advancing/proofs/Validity.antt"],
    "head_ok": ["search_traces/proofs/Checked.antt"],
    "least_at": ["search/proofs/WeighLaws.antt"],
    "met_at": ["search/proofs/WeighLaws.antt"],
    "name_by": ["planner/proofs/Alike.antt", "planner/proofs/Symbols.antt", "planner/proofs/Demand.antt"],
    "one_more": ["search/proofs/Scans.antt"],
    "open_next": ["counting/proofs/NumberCode.antt", "counting/proofs/weigh/tally/Proof.antt"],
}


def is_odd(name):
    return bool(CAMEL.match(name)) or ("-" in name and re.match(r"^[a-zA-Z].*-|.*-[a-zA-Z]", name) is not None)


def snake(name):
    m = re.match(r"^(.*?)('*)$", name)
    stem, primes = m[1], m[2]
    stem = stem.replace("-", "_")
    stem = re.sub(r"(?<=[a-z0-9₀-₉])([A-Z])", lambda c: "_" + c[1].lower(), stem)
    stem = re.sub(r"(?<=[a-z0-9])([ℤℕ])", r"_\1", stem)
    return stem + primes


def files(root, *ends):
    for end in ends:
        for path in sorted(glob.glob(f"{root}/crates/*/{end}", recursive=True)):
            if "/out/" not in path:
                yield path


def read(path):
    with open(path, encoding="utf-8") as f:
        return f.read()


def table(root):
    names = set()
    for path in files(root, "specs/**/*.antt", "proofs/**/*.antt"):
        text = COMMENT.sub("", read(path))
        names.update(n for n in DECLARED.findall(text) if is_odd(n))
    names = {n for n in names if not re.match(r"^(Inv|μ|invariant|decreases)-", n)}
    turned = dict(LEMMAS)
    by_new = {}
    for n in sorted(names):
        if n not in turned:
            by_new.setdefault(snake(n), []).append(n)
    for new, olds in by_new.items():
        plain = [n for n in olds if "-" not in n] or olds[:1]
        for n in olds:
            turned[n] = new if n in plain[:1] else new + "_lem"
    return turned


def main():
    root = sys.argv[1] if len(sys.argv) > 1 else "."
    turned = table(root)
    # a word of the library keeps its spelling in the file that imports it
    crates = {os.path.basename(p) for p in glob.glob(f"{root}/crates/*")}

    def kept(text, path):
        words = set()
        for m in re.finditer(r"(?m)^(?:ghost )?use ([^\s{;]+?)\.\{([^}]*)\}", text):
            parts = m[1].split(".")
            if not (parts[0] == "Rattle" and parts[1] in crates):
                words.update(w.strip() for w in m[2].split(","))
        return words | {n for n, where in PLACES.items() if not any(path.endswith("/" + w) for w in where)}

    def turn(text, keep):
        return TOKEN.sub(lambda m: m[0] if m[0] in keep else turned.get(m[0], m[0]), text)

    def turn_code(text, keep, mark):
        out, at = [], 0
        for m in re.finditer(rf"{mark}[^\n]*|\"(?:[^\"\\\n]|\\.)*\"", text):
            out.append(turn(text[at : m.start()], keep))
            if m[0].startswith('"'):
                out.append(m[0])
            else:  # a comment: what stands in backticks, and names with a capital inside
                said = re.sub(r"`[^`\n]*`", lambda s: turn(s[0], keep), m[0])
                said = TOKEN.sub(lambda w: turned.get(w[0], w[0]) if "-" not in w[0] and CAMEL.match(w[0]) else w[0], said)
                out.append(said)
            at = m.end()
        out.append(turn(text[at:], keep))
        return "".join(out)

    count = 0
    for path in files(root, "specs/**/*.antt", "proofs/**/*.antt", "src/**/*.rt", "must-fail/*.edit"):
        old = read(path)
        if path.endswith(".edit"):
            new = "".join(turn(l, set(PLACES)) if re.match(r"(old|new): ", l) else l for l in old.splitlines(True))
        elif path.endswith(".rt"):
            new = turn_code(old, kept(old, path), "//")
        else:
            new = turn_code(old, kept(old, path), r"(?<![^\s(){}.;,@\"«»])--")
        if new != old:
            count += 1
            with open(path, "w", encoding="utf-8") as f:
                f.write(new)
    print(f"{len(turned)} names, {count} files")
    if "--table" in sys.argv:
        for a, b in sorted(turned.items()):
            print(a, b)


main()
