#!/usr/bin/env python3
"""Respells the names that this repository gives its definitions and lemmas: words in snake case, types and facts in camel case.

usage: python3 tools/respell.py        at the top of the repository, once, after the kit's port.py

A name is ours where a file of specs/ or proofs/ defines it: at the left margin, as a field of a record, as a constructor, or below a `where`.
Names that Rattle generates (of goals and steps) and names of its library keep their spelling. Source code keeps every name.
"""

import os
import re
import sys

NAME = r"[A-Za-z][A-Za-z0-9_']*(?:-[A-Za-z0-9_']+)+"
TOKEN = re.compile(r"(?<![\w'\-\u00b7])" + NAME + r"(?![\w'\-\u00b7])")
DEFINED = re.compile(r"^\s*(?:abbrev pub |unfoldable pub |pub data |pub record |abbrev |unfoldable |data |record |pub )?(" + NAME + r")\s*(?:\([^:]*:.*\)\s*)?:\s+(.*)$")
PARAMETER = re.compile(r"\(((?:[A-Za-z][\w'\-]* )+): ")
GOAL = re.compile(r"\b(?:need|goal)\.(" + NAME + r")")
LIBRARY = re.compile(r"use (?:Rattle\.std|borrow|base|lib|mathlib|Prim|core)\b[^{;\n]*\{([^}]*)\}")
CLAUSE = re.compile(r"^\s*(?:ghost|requires|ensures|//|$)?")
# Names that stand for a word of Rattle's own once they are in snake case.
APART = {"first-of": "first_refusal", "first_of": "first_refusal"}


def respelled(name):
    if name in APART:
        return APART[name]
    if name[0].isupper():
        return "".join(part[:1].upper() + part[1:] for part in name.split("-"))
    return name.replace("-", "_")


def files(endings):
    for folder, dirs, names in os.walk("crates"):
        dirs[:] = sorted(d for d in dirs if d != "out")
        for name in sorted(names):
            if name.endswith(endings):
                yield os.path.join(folder, name)


def read(path):
    with open(path, encoding="utf-8") as f:
        return f.read()


def ours():
    """The names with a hyphen that this repository defines, but for those that something else has too."""
    found, foreign, plain = set(), set(), set()
    for path in files((".antt", ".rt")):
        text = read(path)
        for names in LIBRARY.findall(text):
            foreign.update(n.strip() for n in names.split(","))
        foreign.update(GOAL.findall(text))
        if not path.endswith(".antt"):
            continue
        for line in text.splitlines():
            m = DEFINED.match(line)
            if m and not re.match(r"(?:need|goal)\.", m.group(2)):
                found.add(m.group(1))
            if "/specs/" in path:
                for group in PARAMETER.findall(line):
                    found.update(n for n in group.split() if "-" in n)
            plain.update(re.findall(r"^(?:abbrev pub |unfoldable pub |pub data |pub record |pub )?([A-Za-z][\w']*) .*:", line))
    return found, foreign, plain


def main():
    found, foreign, plain = ours()
    kept = sorted(found & foreign)
    names = {n: respelled(n) for n in found - foreign}
    clash = {}
    for old, new in sorted(names.items()):
        clash.setdefault(new, []).append(old)
    for new, olds in sorted(clash.items()):
        if len(olds) > 1 or new in plain:
            print(f"look: {', '.join(olds)} and {new} fall together" if new in plain else f"look: {', '.join(olds)} fall together")
    for name in kept:
        print(f"kept: {name}, which a goal or the library has too")
    changed = 0
    for path in files((".antt", ".rt", ".edit")):
        text = read(path)
        out = []
        inside = False
        for line in text.splitlines(keepends=True):
            if path.endswith(".rt"):
                bare = line.strip()
                inside = inside or bare.startswith(("ghost ", "requires", "ensures"))
                turn = inside and not bare.startswith("//")
                if bare.endswith(("}", "};", "},", ";")):
                    inside = False
            else:
                turn = True
            if turn:
                line = TOKEN.sub(lambda m: names.get(m.group(0), m.group(0)), line)
                if not path.endswith(".edit"):
                    line = re.sub(r"(?<![\w'\-.])first_of(?![\w'\-])(?! \(Prim)", APART["first_of"], line)
            out.append(line)
        new = "".join(out)
        if new != text:
            changed += 1
            with open(path, "w", encoding="utf-8") as f:
                f.write(new)
    print(f"respelled {len(names)} names in {changed} files")


if __name__ == "__main__":
    sys.exit(main())
