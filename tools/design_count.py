#!/usr/bin/env python3
"""Counts the places of docs/DESIGN-PASS.md in the Rattle sources of a commit, or of the working tree.

    python3 tools/design_count.py [COMMIT] [--list] [--point N]
"""
import argparse
import re
import subprocess
from collections import defaultdict


def sources(commit, where):
    """Paths and texts of the files of crates/*/src (or proofs), by git."""
    if commit:
        names = subprocess.run(
            ["git", "ls-tree", "-r", "--name-only", commit, "crates"],
            capture_output=True, text=True, check=True).stdout.split()
    else:
        names = subprocess.run(
            ["git", "ls-files", "crates"], capture_output=True, text=True, check=True).stdout.split()
    for name in names:
        if re.fullmatch(where, name):
            if commit:
                text = subprocess.run(
                    ["git", "show", f"{commit}:{name}"], capture_output=True, text=True, check=True).stdout
            else:
                text = open(name, encoding="utf-8").read()
            yield name, text


def without_comments(text):
    return re.sub(r"//[^\n]*", "", text)


FUNCTION = re.compile(r"^ *(pub(?:\(crate\))? )?(?:extern \"C\" )?fn ([a-z_0-9]+)", re.M)


def functions(text):
    """(name, public, head with clauses, body) of each function."""
    for m in FUNCTION.finditer(text):
        start = m.start()
        # The body begins at the first line that is a lone '{', or at the '{' that ends the signature's line.
        body = re.compile(r"^ *\{$|[^{}\n]*\{$", re.M)
        at = m.end()
        depth = None
        lone = re.compile(r"^( *)\{\n", re.M).search(text, at)
        ends = re.compile(r"\) (?:-> [^\n{]*)?\{\n").search(text, at)
        semi = text.find(";\n", at)
        first = [x for x in (lone, ends) if x]
        if not first:
            continue
        hit = min(first, key=lambda x: x.end())
        if 0 <= semi < hit.start() and "\n\n" in text[at:hit.start()]:
            continue
        begin = hit.end()
        depth, i = 1, begin
        while i < len(text) and depth:
            depth += {"{": 1, "}": -1}.get(text[i], 0)
            i += 1
        yield m.group(2), bool(m.group(1)), text[start:hit.start()], text[begin:i - 1]


def parameters(head):
    """The parameters of a function's head."""
    at = head.find("(")
    depth, i = 0, at
    while i < len(head):
        depth += {"(": 1, ")": -1}.get(head[i], 0)
        i += 1
        if not depth:
            break
    return [p.strip() for p in head[at + 1:i - 1].split(",") if ":" in p]


WORD = re.compile(r"[A-Za-z_][A-Za-z_0-9]*|\d[\d_]*|==|!=|<=|>=|&&|\|\||<<|>>|->|=>|::|\+=|-=|\S")
TYPES = {"u8", "u16", "u32", "u64", "usize", "i64", "bool"}


def shape(body):
    """A body's words with its names numbered, and numbers, types and what stands before '::' left out."""
    seen, out = {}, []
    for w in WORD.findall(body):
        if w in TYPES:
            out.append("T")
        elif w[0].isdigit():
            out.append("0")
        elif re.match(r"[A-Za-z_]", w) and w not in {"if", "else", "let", "mut", "while", "for", "in", "match", "return", "as"}:
            out.append(str(seen.setdefault(w, len(seen))))
        else:
            out.append(w)
    return " ".join(out)


def places(commit):
    found = defaultdict(list)
    shapes = defaultdict(list)
    facts = defaultdict(set)
    for name, text in sources(commit, r"crates/[a-z_0-9]+/src/.*\.rt"):
        crate = name.split("/")[1]
        code = without_comments(text)
        for line in code.split("\n"):
            if "ghost use" in line or re.match(r" *(requires|ensures)\b", line):
                continue
            if re.search(r"enum (Checked|Answer)\b|(->|:) (Checked|Answer)\b", line):
                found["1 own Result"].append(f"{crate}: {line.strip()}")
            if re.search(r"\b(kind|entry|form|grade|tier|version|reinsured): (u8|u16|u64|usize)\b", line) and "fn " not in line:
                found["1 number for a kind"].append(f"{crate}: {line.strip()}")
            if re.search(r"const NONE\b|found: ", line):
                found["1 sentinel or flag"].append(f"{crate}: {line.strip()}")
            if re.search(r"\bwhile\b|\bloop \{", line):
                found["3 counted by hand"].append(f"{crate}: {line.strip()}")
            for cast in re.findall(r"\bas (u8|u16|u32|u64|usize|i64)\b", line):
                found["4 cast"].append(f"{crate}: {line.strip()}")
            if re.search(r"choice::(amount|number|byte|greater|lesser|difference|one_if)\(|rows::index\(", line):
                found["4 helper for the library's"].append(f"{crate}: {line.strip()}")
            if re.search(r"match (wanted|change)\b", line):
                found["7 switch on a step"].append(f"{crate}: {line.strip()}")
        for fn, public, head, body in functions(code):
            many = parameters(head)
            if len(many) >= 7:
                found["5 seven parameters or more"].append(f"{crate}::{fn}: {len(many)}")
            lengths = [p for p in many if re.fullmatch(r"(n|k|c|groups|lines|size|end|start|first|assets): (usize|Assets)", p)]
            if lengths and any("&" in p for p in many):
                found["6 length or place beside a buffer"].append(f"{crate}::{fn}: {', '.join(lengths)}")
            if sum(1 for p in many if re.search(r": &(mut )?\[u(16|64)\]", p)) >= 2:
                found["6 parallel tables"].append(f"{crate}::{fn}")
            if len(body.split()) >= 3:
                shapes[(shape(body), )].append(f"{crate}::{fn}")
            clauses = re.findall(r"requires(?: [a-z_]+)? \{ (.*) \}", head)
            for clause in clauses:
                for part in re.split(r" × ", clause):
                    facts[part.strip("() ")].add(f"{crate}::{fn}")
    for names in shapes.values():
        if len(names) > 1:
            found["2 twins"].append(" = ".join(names))
    for fact, where in sorted(facts.items()):
        if len(where) >= 3:
            found["5 fact in three contracts or more"].append(f"{fact}: {len(where)}")
    files = lines = 0
    for name, text in sources(commit, r"crates/[a-z_0-9]+/proofs/.+/(Answers|Invariants)\.antt"):
        files += 1
        lines += sum(1 for l in text.split("\n") if l.strip() and not l.strip().startswith("--"))
    found["8 proof files of functions"] = [str(files)] * files
    found["8 their lines"] = [""] * lines
    return found


def main():
    parser = argparse.ArgumentParser(description=__doc__)
    parser.add_argument("commit", nargs="?")
    parser.add_argument("--list", action="store_true")
    parser.add_argument("--point")
    args = parser.parse_args()
    found = places(args.commit)
    for key in sorted(found):
        if args.point and not key.startswith(args.point):
            continue
        print(f"{key}: {len(found[key])}")
        if args.list and not key.startswith("8"):
            for place in found[key]:
                print(f"    {place}")


if __name__ == "__main__":
    main()
