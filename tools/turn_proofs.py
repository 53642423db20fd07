#!/usr/bin/env python3
"""Turns the proofs over `Tie` of a crate from the names that the older Rattle made to those that today's makes.

usage: tools/turn_proofs.py NAMES CRATE     NAMES is the names.json of `rt check --generated DIR --old-names`

A step that was counted (`if1`, `loop2`, `is-size2`, `match`) is named after its source now (`if-x-n`, `loop-y`, `is_size-2`, `in-1`),
and so are the goals. A path from the record of a place goes up as many places as there are now, and a local name for such a record is
written out. Nothing else of a proof changes; what it could not turn is printed.
"""

import json
import os
import re
import sys

TOKEN = re.compile(r'--[^\n]*|[^\s(){}\[\],;."`]+')
HEAD = re.compile(r"^ {0,2}(?:(?:pub|abbrev|unfoldable)\s+)*(?!(?:use|module|let|record|data|in)\s)([^\s:(){}]+)\s*:(?=\s)", re.M)
MODULE = re.compile(r"^module _ (.*?) where$", re.M | re.S)
KINDS = ("", "overflow-", "nonzero-", "bounds-", "slice-bounds-")
plain = lambda it: it.replace("_", "-")


def read(path):
    with open(path, encoding="utf-8") as f:
        return f.read()


def source_words(crate):
    found = set()
    for folder, dirs, names in os.walk(os.path.join(crate, "..")):
        dirs[:] = [d for d in dirs if d not in ("out", "target")]
        for name in names:
            if name.endswith(".rt"):
                found |= set(re.findall(r"\b[A-Za-z]\w*_\w*\b", read(os.path.join(folder, name))))
    return {plain(w): w for w in found}


class Function:
    """What Rattle says of one function's names."""

    def __init__(self, entry):
        self.new_place, self.parent, self.step, self.parts, self.arms, self.merged = {}, {}, {}, {}, {}, {}
        self.arm_name = {}
        arms = entry["arms"]
        for k, (place, new) in enumerate(zip(entry["places"], entry["places_by_name"])):
            old, parent, names, _, parts = place[:5]
            self.new_place[plain(old)] = new
            self.parent[plain(old)] = plain(parent) if parent else None
            if names and names[0]:
                self.step[plain(old)] = (plain(names[0]), names[1])
            self.parts[plain(old)] = {plain(a): b for a, b in parts or []}
            if k < len(arms) and arms[k]:
                self.merged[plain(old)] = arms[k][1]
                self.arm_name[plain(old)] = arms[k][0]
                self.arms[plain(old)] = [(field, plain(step), [plain(p) for p in path]) for field, step, path in arms[k][2]]
        self.goals, self.goal_place = {}, {}
        for (old, new), at in zip(entry["needs"], entry["asked_at"]):
            self.goals[plain(old)] = new
            self.goal_place[plain(old)] = plain(at[0])
        self.loops = {plain(names[0]): names[1] for names, _ in entry["loops"]}
        self.params = entry["params"]
        self.callee = {plain(p[0]): p[3] for p in entry["places"]}

    def goal(self, key):
        for kind in KINDS:
            if key.startswith(kind) and key[len(kind) :] in self.goals:
                return key[len(kind) :]
        return None


LET = re.compile(r"\blet\s+([^\s:=]+)\s*=\s*([^\s.()]+)((?:\.before)*)\s+in\b[ \t]*\n?[ \t]*")
CALLED = re.compile(r"\blet\s+([^\s:=]+)\s*=\s*([^\s.()]+)(?:\s+[^\s()]+)+\s+in\b")
AT_START = {"args", "requires", "ranges", "lifetimes", "well_formed", "pre"}


def place_in(text, function):
    m = re.match(r"tie\.([^\s()]+)", text.strip())
    if not m:
        return None
    word = m.group(1)
    if word.startswith("Need-"):
        return function.goal_place.get(function.goal(plain(word[5:])))
    return plain(word) if plain(word) in function.parent else None


def arrows(text):
    """The parts of a type between its outermost arrows."""
    parts, depth, start = [], 0, 0
    for k, ch in enumerate(text):
        if ch in "([{":
            depth += 1
        elif ch in ")]}":
            depth -= 1
        elif ch == "→" and depth == 0:
            parts.append(text[start:k])
            start = k + 1
    return parts + [text[start:]]


def records(head, name, function):
    """For a declaration: the place of each explicit parameter that is a record of a place, by index, and that of its result."""
    m = re.match(r"\s*(?:(?:pub|abbrev|unfoldable)\s+)*[^\s:]+\s*:(.*)", head, re.S)
    if not m:
        return {}, None
    parts = arrows(m.group(1))
    found, k = {}, 0
    if place_in(parts[0], function) and len(parts) == 1:
        return ({0: place_in(parts[0], function)}, None) if "tie.Need-" in parts[0] else ({}, place_in(parts[0], function))
    for part in parts[:-1]:
        part = part.strip()
        if part.startswith("{"):
            continue
        groups = re.findall(r"\(([^()]*?):\s*((?:[^()]|\([^()]*\))*)\)", part) if part.startswith("(") and ":" in part else None
        if groups:
            for names, kind in groups:
                for _ in names.split():
                    if place_in(kind, function):
                        found[k] = place_in(kind, function)
                    k += 1
        else:
            if place_in(part, function):
                found[k] = place_in(part, function)
            k += 1
    return found, place_in(parts[-1], function)


def split_head(block, name):
    """A declaration's signature, and its equations."""
    m = re.search(r"^ {0,2}" + re.escape(name) + r"(?=[\s{])(?!\s*:)", block, re.M)
    return (block[: m.start()], block[m.start() :]) if m else (block, "")


def turn_block(block, function, words, said, helpers, of_module):
    m = HEAD.match(block)
    name = m.group(1) if m else ""
    head, body = split_head(block, name) if name else (block, "")
    found, result = helpers.get(name, ({}, None))
    given = dict(of_module)
    for names, kind in re.findall(r"\(([^():]*):\s*(tie\.(?:[^()]|\([^()]*\))*)\)", head):
        for it in names.split():
            if place_in(kind, function):
                given[it] = place_in(kind, function)
    head, given = without_lets(head, given, helpers)
    bases = dict(of_module)
    if body:
        left = re.match(r"[^=]*?=", body)
        arguments = left.group(0).split()[1:-1] if left else []
        for k, place in found.items():
            if k < len(arguments):
                bases[arguments[k]] = place
        body, bases = without_lets(body, bases, helpers)
    head = walk(head, function, given, None, words, said, helpers)
    return head + walk(body, function, bases, result, words, said, helpers)


def without_lets(text, bases, helpers):
    """The text with each name that is a record of a place, or one before it, written as the name of the first."""
    bases = dict(bases)
    while True:
        hit = next((l for l in LET.finditer(text) if l.group(2) in bases), None)
        if not hit:
            for call in CALLED.finditer(text):
                if helpers.get(call.group(2), ({}, None))[1]:
                    bases[call.group(1)] = helpers[call.group(2)][1]
            return text, bases
        text = text[: hit.start()] + text[hit.end() :]
        text = re.sub(r"(?<![\w.'-])" + re.escape(hit.group(1)) + r"(?![\w'-])", hit.group(2), text)


def ancestors(place, function):
    """The places on the way back; an arm stands for the places that it took in."""
    found = []
    while place:
        found.append(place)
        for _ in range(function.merged.get(place, 1)):
            place = function.parent.get(place)
    return found


def walk(block, function, bases, result, words, said, helpers):
    out, end = [], 0
    tokens = [t for t in TOKEN.finditer(block)]
    k = 0
    while k < len(tokens):
        t = tokens[k]
        word = t.group(0)
        used, new = 1, None
        if word.startswith("--"):
            k += 1
            continue
        projected = t.start() and block[t.start() - 1] == "."
        if word in bases and not projected:
            new, used = path(block, tokens, k, function, bases[word], result, words, said, helpers)
        elif projected and called_before(block, t.start() - 1, helpers):
            new, used = after_call(block, tokens, k, function, called_before(block, t.start() - 1, helpers), words, said)
        elif not projected or block[max(0, t.start() - 4) : t.start()] == "tie.":
            new = of_tie(block, t, word, function, said)
        elif "-" in word and plain(word) in words:
            new = words[plain(word)]
        if new is not None:
            out.append(block[end : t.start()])
            out.append(new)
            end = tokens[k + used - 1].end()
        k += used
    out.append(block[end:])
    return "".join(out)


def fields_after(block, tokens, k):
    """The words of the projections that follow token k at once."""
    found = []
    while k + 1 < len(tokens) and block[tokens[k].end() : tokens[k + 1].start()] == ".":
        k += 1
        found.append(tokens[k].group(0))
    return found


def path(block, tokens, k, function, base, result, words, said, helpers):
    """A path from the record of a place: to the nearest place on the way that has the step, and on by the step's new names."""
    fields = fields_after(block, tokens, k)
    used = 1 + len(fields)
    name = tokens[k].group(0)
    while fields and fields[0] == "before":
        fields = fields[1:]
    way = ancestors(base, function)

    def up(place):
        return name + ".before" * way.index(place)

    if not fields:
        place = wanted(block, tokens, k, helpers) or result
        if place in way:
            return up(place), used
        if used > 1:
            said.append("where: " + block[tokens[k].start() : tokens[k + used - 1].end()])
        return None, used
    new = projections(base, fields, function, words)
    if new is None:
        said.append("no step: " + block[tokens[k].start() : tokens[k + used - 1].end()])
        return None, used
    return name + new, used


def projections(base, fields, function, words):
    """The new projections from the record of a place, for the old ones."""
    while fields and fields[0] == "before":
        fields = fields[1:]
    if not fields:
        return None
    way = ancestors(base, function)
    key = plain(fields[0])

    def up(place, *rest):
        return ".before" * way.index(place) + "".join("." + it for it in rest)

    if fields[0] in AT_START or key.startswith(("fits-", "told-")):
        first = "requires" if fields[0] == "pre" else fields[0].replace("well-formed", "well_formed")
        return up(way[-1], first, *respelled(fields[1:], words))
    for place in way:
        new = function.step[place][1] if place in function.step else None
        rest = fields[1:]
        arms = [a for a in function.arms.get(place, []) if a[1] == key]
        for field, _, arm in sorted(arms, key=lambda a: -len(a[2])):
            if [plain(f) for f in rest[: len(arm)]] == arm:
                return up(place, function.arm_name[place], field, *respelled(rest[len(arm) :], words))
        if place in function.step and function.step[place][0] == key:
            parts = function.parts[place]
            if rest and rest[0] == "inv":
                rest = ["invariant"] + rest[1:]
            if rest and plain(rest[0]) in parts:
                rest = [parts[plain(rest[0])]] + rest[1:]
            if rest and rest[0] in ("new", "auto"):
                rest = last_values(rest, function.callee.get(place), function)
            return up(place, new, *respelled(rest, words))
    return None


def called_before(block, dot, helpers):
    """The place that a call in parentheses answers, which ends before this dot."""
    if dot < 1 or block[dot - 1] != ")":
        return None
    depth, k = 0, dot - 1
    while k >= 0:
        depth += (block[k] == ")") - (block[k] == "(")
        if depth == 0:
            break
        k -= 1
    m = re.match(r"\(([^\s().]+)\s", block[k:])
    return helpers.get(m.group(1), ({}, None))[1] if m else None


def after_call(block, tokens, k, function, base, words, said):
    """The projections of what a call answers; token k is the first of them."""
    fields = [tokens[k].group(0)] + fields_after(block, tokens, k)
    new = projections(base, fields, function, words)
    if new is None:
        said.append("no step: (..)." + ".".join(fields))
        return None, len(fields)
    return new.lstrip("."), len(fields)


def last_values(rest, callee, function):
    """What a call left in a parameter goes by its name, and went by its position."""
    n = 1
    while n < len(rest) and rest[n] == "1":
        n += 1
    names = function.params.get(callee, [])
    if n < len(rest) and rest[n] == "0" and n - 1 < len(names):
        return [rest[0], names[n - 1]] + rest[n + 1 :]
    return rest


def respelled(fields, words):
    return [words[plain(f)] if "-" in f and plain(f) in words else f for f in fields]


def wanted(block, tokens, k, helpers):
    """The place whose record a helper wants as the argument that stands at token k."""
    n = 0
    j = k - 1
    while j >= 0 and n < 4:
        between = block[tokens[j].end() : tokens[j + 1].start()]
        if not re.fullmatch(r"[\s.]*", between):
            return None
        if between != "." and tokens[j].group(0) in helpers:
            return helpers[tokens[j].group(0)][0].get(n)
        if between != ".":
            n += 1
        j -= 1
    return None


def of_tie(block, t, word, function, said):
    if block[max(0, t.start() - 4) : t.start()] != "tie.":
        return None
    if word.startswith("Need-"):
        key = function.goal(plain(word[5:]))
        if key:
            return "Need-" + function.goals[key]
        said.append(word)
        return None
    for kind in ("invariant-", "decreases-"):
        if word.startswith(kind):
            key = plain(word[len(kind) :])
            if key in function.loops:
                return kind + function.loops[key]
            said.append(word)
            return None
    return function.new_place.get(plain(word))


def turn(text, entry, words, name):
    function = Function(entry)
    said = []
    modules = [(m.start(), m.end(), m.group(1), re.search(r"\n(?=[^\s-])", text[m.end() :])) for m in MODULE.finditer(text)]
    modules = [(a, b, given, b + end.start() + 1 if end else len(text)) for a, b, given, end in modules]
    cuts = sorted({0, len(text)} | {m.start() for m in HEAD.finditer(text)} | {m[0] for m in modules} | {m[1] for m in modules} | {m[3] for m in modules})
    inside, outside, blocks = {}, {}, []
    for a, b in zip(cuts, cuts[1:]):
        module = next((m for m in modules if m[1] <= a < m[3]), None)
        block = text[a:b]
        blocks.append((a, block, module))
        m = HEAD.match(block)
        if not m:
            continue
        own_name = m.group(1)
        it = records(split_head(block, own_name)[0].split("\nunfolding")[0].split("\n  unfolding")[0], own_name, function)
        inside[own_name] = it
        if module:
            own = records("m : " + module[2].replace(") (", ") → (") + " → Unit", "m", function)[0]
            count = len(re.sub(r":[^()]*(\([^()]*\)[^()]*)*", "", module[2]).replace("(", " ").replace(")", " ").split())
            it = (dict(own) | {k + count: v for k, v in it[0].items()}, it[1])
        outside[own_name] = it
    parts = []
    for a, block, module in blocks:
        of_module = {}
        helpers = dict(outside)
        if module:
            for names, kind in re.findall(r"\(([^():]*):\s*(tie\.(?:[^()]|\([^()]*\))*)\)", module[2]):
                for it in names.split():
                    if place_in(kind, function):
                        of_module[it] = place_in(kind, function)
            for b, other, m in blocks:
                if m and m[0] == module[0] and HEAD.match(other):
                    helpers[HEAD.match(other).group(1)] = inside[HEAD.match(other).group(1)]
        parts.append(turn_block(block, function, words, said, helpers, of_module))
    out = "".join(parts)
    out = re.sub(r"(?<=[\w)])\.pre(?=[.\s);,])", ".requires", out)
    spec = re.compile(r"(?<![\w-])" + re.escape(plain(name)) + r"-spec(?![\w-])")
    out = spec.sub(name + "_spec", out)
    return out, said


def main():
    names, crate = sys.argv[1:]
    table = json.loads(read(names))
    words = source_words(crate)
    for key, entry in table.items():
        m = re.fullmatch(r"Rattle-\w+-proofs\.(.*)\.Lts.*", key)
        if not m:
            continue
        path = os.path.join(crate, "proofs", m.group(1).replace(".", "/"), "Proof.antt")
        if not os.path.exists(path):
            continue
        text = read(path)
        out, said = turn(text, entry, words, m.group(1).split(".")[-1])
        for s in said:
            print(f"{path}: {s}")
        if out != text:
            with open(path, "w", encoding="utf-8") as f:
                f.write(out)


main()
