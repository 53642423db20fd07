#!/usr/bin/env python3
"""Brings this repository's own definitions and lemmas to today's spelling: words in snake case, types and facts in camel case.

usage: tools/respell.py [--list]     at the top of a checkout in which port.py has run

A name is turned everywhere at once: in specs/, in proofs/, in the clauses and ghost items of src/ (not in its strings and
comments), and where a comment or a page has it between backquotes. Names of functions in src/, exported names, inputs and outputs stay.
--list prints what would be turned, and the names that would fall together, and writes nothing.
"""

import os
import re
import sys
from collections import defaultdict

TOKEN = re.compile(r'[^\s(){}\[\],;."`◌]+')
HEAD = re.compile(
    r"^\s*(?:(?:pub|abbrev|unfoldable)\s+)*(?:(?:data|record|ruleset)\s+)?(?:pub\s+)?"
    r'([^\s(){}\[\],;."`:]+)\s*(?:[({].*)?:(?:\s|$)'
)
RULESET = re.compile(r"^\s*(?:pub\s+)?ruleset\s+(?:pub\s+)?([^\s(){}\[\],;=]+)")
# Names that would fall together with another one.
APART = {"Demand-3": "Demand3ForAll"}
PAGES = ["README.md", "docs"]


def files(ending, under="crates"):
    for folder, dirs, names in os.walk(under):
        dirs[:] = sorted(d for d in dirs if d != "out")
        for name in sorted(names):
            if name.endswith(ending):
                yield os.path.join(folder, name)


def read(path):
    with open(path, encoding="utf-8") as f:
        return f.read()


def walks(path):
    """Whether a file is a function's own proof, whose names Rattle makes."""
    return os.path.basename(path) in ("Proof.antt", "Invariants.antt", "Answers.antt") and "/proofs/" in path and path.count("/") > 3


def code_of(line):
    if line.lstrip().startswith("--"):
        return ""
    return re.split(r"\s--\s", line)[0]


def spelled(name):
    if name in APART:
        return APART[name]
    parts = name.split("-")
    if name[0].isupper():
        return "".join(p[:1].upper() + p[1:] for p in parts)
    return "_".join(parts)


def own_names():
    found = set()
    for path in files(".antt"):
        if walks(path):
            continue
        for line in read(path).splitlines():
            code = code_of(line)
            if code.lstrip().startswith("use "):
                continue
            m = HEAD.match(code) or RULESET.match(code)
            if m and "-" in m.group(1)[1:] and m.group(1)[0].isalpha():
                found.add(m.group(1))
    return found


def turn_antt(text, names):
    out = []
    for line in text.split("\n"):
        if line.lstrip().startswith("--"):
            out.append(turn_quoted(line, names))
            continue
        out.append(TOKEN.sub(lambda m: names.get(m.group(0), m.group(0)), line))
    return "\n".join(out)


def turn_quoted(text, names):
    def inner(m):
        return "`" + TOKEN.sub(lambda t: names.get(t.group(0), t.group(0)), m.group(1)) + "`"

    return re.sub(r"`([^`\n]*)`", inner, text)


PIECES = re.compile(r'"(?:[^"\\]|\\.)*"|//[^\n]*|[^"/]+|/', re.S)


def turn_rt(text, names):
    """Turns all but strings and comments; in Rattle's code a dash between two names has blanks about it."""

    def piece(m):
        p = m.group(0)
        if p.startswith('"'):
            return p
        if p.startswith("//"):
            return turn_quoted(p, names)
        return TOKEN.sub(lambda t: names.get(t.group(0), t.group(0)), p)

    return PIECES.sub(piece, text)


def main():
    names = {n: spelled(n) for n in own_names()}
    by = defaultdict(set)
    for old, new in names.items():
        by[new].add(old)
    for new, olds in sorted(by.items()):
        if len(olds) > 1:
            print(f"fall together: {new}: {', '.join(sorted(olds))}")
    if "--list" in sys.argv:
        for old in sorted(names):
            print(f"{old} -> {names[old]}")
        return
    for ending, turn in ((".antt", turn_antt), (".rt", turn_rt)):
        for path in files(ending):
            before = read(path)
            after = turn(before, names)
            if after != before:
                with open(path, "w", encoding="utf-8") as f:
                    f.write(after)
    for page in PAGES:
        for path in [page] if page.endswith(".md") else files(".md", page):
            before = read(path)
            after = turn_quoted(before, names)
            if after != before:
                with open(path, "w", encoding="utf-8") as f:
                    f.write(after)
    print(f"{len(names)} names turned")


main()
