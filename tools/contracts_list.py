#!/usr/bin/env python3
"""docs/DESIGN-PASS-LIST.md: public signatures, clauses and definitions of an old commit beside those of this tree.

    tools/contracts_list.py OLD > docs/DESIGN-PASS-LIST.md

OLD is a clone at the first line of docs/DESIGN-PASS.md. It asks /opt/rattle/port/contracts.py, which goes by the text, and keeps the public functions.
"""
import collections
import json
import re
import subprocess
import sys
from pathlib import Path

TOOL = "/opt/rattle/port/contracts.py"
NEW = Path(__file__).resolve().parent.parent
OLD = Path(sys.argv[1])


def public(root):
    """The names of the public functions, by crate and file."""
    found = set()
    for path in root.glob("crates/*/src/**/*.rt"):
        crate, file = path.relative_to(root / "crates").parts[0], "/".join(path.relative_to(root / "crates").parts[1:])
        for m in re.finditer(r"\bpub fn (\w+)", path.read_text()):
            found.add(f"{crate} {file} {m.group(1)}")
    return found


def clauses(word, pairs):
    return [f"{word} {name + ' ' if name else ''}{{ {text} }}" for name, text in pairs]


def main():
    data = json.loads(subprocess.run(["python3", TOOL, str(OLD), str(NEW), "--json"], capture_output=True, text=True, check=True).stdout)
    pub = public(OLD) | public(NEW)
    changed = collections.defaultdict(lambda: ([], []))
    for name, old, new in data["signatures changed"]:
        changed[name][0].append("fn " + " ".join(old.split()))
        changed[name][1].append("fn " + " ".join(new.split()))
    for name, old_req, old_ens, new_req, new_ens in data["contracts changed"]:
        changed[name][0].extend(clauses("requires", old_req) + clauses("ensures ", old_ens))
        changed[name][1].extend(clauses("requires", new_req) + clauses("ensures ", new_ens))
    print("# Signatures, clauses and definitions: those of the commit at which the design pass began, and those of today\n")
    print("Made by `tools/contracts_list.py OLD`, where OLD is a clone at the first line of [DESIGN-PASS.md](DESIGN-PASS.md), from `python3 /opt/rattle/port/contracts.py OLD NEW --json`; public functions only, clauses as they")
    print("stand. `-` is old, `+` is new. A function that the tool does not find again has another name, is a method, or is gone; DESIGN-PASS.md says what states its promise. The tool does not see the clauses of generic functions.\n")
    print("## Public functions whose signature or contract is another\n")
    for name in sorted(changed):
        if name not in pub:
            continue
        print(f"`{name}`\n\n```")
        for line in changed[name][0]:
            print("- " + line)
        for line in changed[name][1]:
            print("+ " + line)
        print("```\n")
    print("## Public functions that are not found again\n")
    gone = collections.defaultdict(list)
    for entry in data["functions not found again"]:
        crate, file, fn = entry.split(" (")[0].split(" ")[:3]
        if f"{crate} {file} {fn}" in pub:
            gone[f"{crate} {file}"].append(fn)
    for place in sorted(gone):
        crate, file = place.split(" ")
        print(f"- `{crate} {file}`: " + ", ".join(f"`{fn}`" for fn in sorted(set(gone[place]))))
    defs = data["definitions"]
    print("\n## Definitions that are gone\n")
    lost = collections.defaultdict(list)
    for crate, name in defs["gone"]:
        lost[crate].append(name)
    for crate in sorted(lost):
        print(f"- `{crate}`: " + ", ".join(f"`{n}`" for n in sorted(set(lost[crate]))))
    print("\n## Definitions whose text is another\n")
    for crate, name, old, new in defs["changed"]:
        print(f"`{crate}` `{name}`\n\n```")
        for text in old:
            print("- " + " ".join(text.split()))
        for text in new:
            print("+ " + " ".join(text.split()))
        print("```\n")
    print("## Must-fail edits whose text is another; each has its name and its meaning\n")
    edits = []
    for path in sorted(OLD.glob("crates/*/must-fail/*.edit")):
        here = NEW / path.relative_to(OLD)
        if not here.exists() or here.read_text() != path.read_text():
            edits.append(f"`{path.parts[-3]}/{path.stem}`" + ("" if here.exists() else " (gone)"))
    print(", ".join(edits) + ".")


main()
