#!/usr/bin/env python3
"""Brings the repository's own definitions and lemmas to snake case, once, right after the port to today's Rattle.

usage: python3 tools/snake_names.py        at the top of the repository

Names are collected from the signatures in crates/*/specs and crates/*/proofs. A name in camel case or with dashes becomes one in snake case; types,
facts and modules keep their capitals, and what the toolchain makes (goals, steps) keeps its spelling. Where two names would fall together the lemma
gets '_lem' behind it. Functions of src/, strings and comments keep their text, but for names of definitions in comments.
"""
import collections
import glob
import re
import sys

SIGNATURE = re.compile(r"^(\s*)((?:pub |abbrev |unfoldable )*)([^\s:.(){}]+(?: [^\s:.(){}]+)*) : (.*)")
TOKEN = re.compile(r"[^\s(){}\[\];.,:@«»\"]+")
# a definition whose plain snake case is a field's name
GIVEN = {"turnedAway": "turned_away_of"}


def files(kinds):
    out = []
    for kind in kinds:
        out += glob.glob(kind, recursive=True)
    return sorted(set(out))


def declared(paths):
    names = collections.defaultdict(list)
    for path in paths:
        for line in open(path, encoding="utf-8"):
            m = SIGNATURE.match(line)
            if m and not line.lstrip().startswith("--"):
                for name in m[3].split():
                    names[name].append((path, m[4]))
    return names


def snake(name):
    if re.match(r"[a-z]", name) and re.search(r"[A-Z]", name):
        name = re.sub(r"(?<=[a-z0-9])([A-Z])", lambda m: "_" + m[1].lower(), name)
    return name.replace("-", "_")


def mapping(names):
    made = {n for n, v in names.items() if any(t.startswith(("tie.", "goal.")) or "statement M" in t for _, t in v)}
    turn = {}
    for n in names:
        if n in made or not re.match(r"[a-z]", n):
            continue
        to = GIVEN.get(n, snake(n))
        if to != n:
            turn[n] = to
    taken = collections.defaultdict(list)
    for n in names:
        taken[turn.get(n, n)].append(n)
    for to, olds in taken.items():
        if len(olds) < 2:
            continue
        # the definition of specs/ keeps the plain name, the lemma gets '_lem'
        keep = next((o for o in olds if any("/specs/" in p for p, _ in names[o]) and "-" not in o and re.search("[A-Z]", o)), None) or next(o for o in olds if o == to or "-" not in o)
        for o in olds:
            if o != keep:
                turn[o] = to + "_lem"
    # a field of a record, which stands behind a dot
    turn.pop("same_end", None)
    return {a: b for a, b in turn.items() if a != b}


def camel(name):
    return "-" not in name and re.search(r"[A-Z]", name)


def apply(text, turn, clause):
    """Where a line is no clause and no proof, as a comment, only a name in camel case is one: 'well-formed' is two words."""
    out = []
    for line in text.split("\n"):
        whole = clause(line)
        out.append(TOKEN.sub(lambda m: turn[m[0]] if m[0] in turn and (whole or camel(m[0])) else m[0], line))
    return "\n".join(out)


def in_antt(line):
    return not line.lstrip().startswith("--")


def in_rust(line):
    return not line.lstrip().startswith("//") and (re.match(r"\s*(ghost use |requires|ensures|ghost )", line) or "λ" in line or "≡" in line)


def main():
    antt = files(["crates/*/specs/**/*.antt", "crates/*/proofs/**/*.antt"])
    names = declared(antt)
    turn = mapping(names)
    for path in antt:
        text = open(path, encoding="utf-8").read()
        new = apply(text, turn, in_antt)
        if new != text:
            open(path, "w", encoding="utf-8").write(new)
    for path in files(["crates/*/src/**/*.rt"]):
        text = open(path, encoding="utf-8").read()
        new = apply(text, turn, in_rust)
        if new != text:
            open(path, "w", encoding="utf-8").write(new)
    with open(sys.argv[1] if len(sys.argv) > 1 else "/dev/null", "w", encoding="utf-8") as f:
        for a, b in sorted(turn.items()):
            f.write(f"{a} {b}\n")
    print(f"{len(turn)} names")


if __name__ == "__main__":
    main()
