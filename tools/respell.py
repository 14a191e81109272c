#!/usr/bin/env python3
"""Brings this repository's own names to the spelling of today's Rattle.

usage: python3 tools/respell.py [TOP]

To be run once, at the top, right after the kit's port.py. Definitions, lemmas and variables of specs/, proofs/ and of
clauses that are in camel case from a small letter on (`exposureOf`, `byLimit-ordered`) get snake case (`exposure_of`,
`by_limit-ordered`). Types, modules, document 01's letters (C, K, N, W, M, VAF, VAF') and all names of the code stay.
A name that is brought in from outside the repository's crates is left alone. It also writes operators in comments as
the code has them. It prints what falls together with a name that a file already has.
"""

import glob
import os
import re
import sys

PIECE = re.compile(r"(?<![\w'])[a-z][a-z0-9]*(?:[A-Z][a-z0-9]*|'[A-Z][a-z0-9]+)+(?![\w])")

# A lemma that gets its function's name in the new spelling.
FIRST = {"crates/schedule/specs/FitsLaws.antt": [("row_fits", "row_fits_lem")]}

# Operators in comments, whose parts were underscores.
OPERATORS = [("_andThen_", "◌and_then◌"), ("refuse_unless_", "refuse◌unless◌"), ("if_then_else_", "if◌then◌else◌")]


def snake(word):
    return re.sub(r"(?<=[a-z0-9'])[A-Z]", lambda m: "_" + m.group(0).lower(), word)


def files(top):
    found = []
    for kind in ("specs/**/*.antt", "proofs/**/*.antt", "src/*.rt"):
        found += glob.glob(os.path.join(glob.escape(top), "crates", "*", kind), recursive=True)
    return sorted(f for f in found if "/out/" not in f)


def outside(text):
    """Names that a file brings in from elsewhere than the repository's own crates."""
    names = set()
    for m in re.finditer(r"^\s*(?:ghost )?use (\S+?)\.\{([^}]*)\}", text, re.M):
        path = m.group(1)
        if not path.startswith("Rattle.") or path.startswith("Rattle.std"):
            names |= set(re.findall(r"[^\s,{}]+", m.group(2)))
    return names


def main(top):
    every = {p: open(p, encoding="utf-8").read() for p in files(top)}
    left = set()
    for text in every.values():
        left |= {p for n in outside(text) for p in PIECE.findall(n)}
    changed = 0
    for path, text in every.items():
        new = text
        for old, name in FIRST.get(os.path.relpath(path, top), []):
            new = re.sub(r"(?<![\w'.-])" + re.escape(old) + r"(?![\w'-])", name, new)
        for old, name in OPERATORS:
            new = new.replace(old, name)
        lines = []
        for line in new.split("\n"):
            lines.append(PIECE.sub(lambda m: m.group(0) if m.group(0) in left else snake(m.group(0)), line))
        new = "\n".join(lines)
        if new != text:
            with open(path, "w", encoding="utf-8") as f:
                f.write(new)
            changed += 1
    print(f"respell: {changed} files; left alone: {sorted(left)}")


if __name__ == "__main__":
    main(os.path.abspath(sys.argv[1] if len(sys.argv) > 1 else "."))
