#!/usr/bin/env python3
"""Spells the repository's own definitions and lemmas as Rattle's guides do: functions, lemmas and fields in snake case, types
in upper camel case. A dash stays only behind the name of a function, as in length-table, and a lemma that would have the name
of a definition ends in _lem.

usage: python3 tools/respell.py [--check]      at the top of the repository, once, after the kit's port.py

It takes the names that files right in specs/ and proofs/ declare, and turns them in every .antt file and in the clauses of
every .rt file. It stops, and writes nothing, where two names would fall together in a file. --check writes nothing.
"""

import glob
import re
import sys

WORD = r"[^\s(){}.;,@\"«»:]+"
DECLARED = re.compile(rf"^ *(?:(?:pub|abbrev|unfoldable|record|data) )*({WORD})(?: \{{[^{{}}\n]*\}})*(?: \([^()\n]*\))* :")
TOKEN = re.compile(r"(?<![^\s(){}.;,@\"«»:\[\]|`])([A-Za-z][\w'′-]*)(?![\w'′-])")
MODULE = re.compile(r"\.(?:Goals|Given)\b")
GHOST = re.compile(r"^\s*(?:pub )?(?:ghost|requires|ensures)\b")

# Functions of the standard library that stand at the head of lemmas' names.
HEADS = {"length", "take", "drop", "map", "fold", "sum", "cond", "replicate"}
# Heads that the standard library has under another name now.
ANEW = {"getD": "slice_index", "isSome": "is_some", "okOr": "ok_or", "putMid": "put_mid", "eqb": "eqb"}
# Two names that would fall together otherwise.
APART = {"Reads-back": "EveryReadsBack"}


def snake(word):
    word = re.sub(r"(?<=[a-z0-9])([A-Z])", lambda m: "_" + m[1].lower(), word)
    return word.replace("′", "'")


def camel(name):
    return "".join(part[:1].upper() + part[1:] for part in name.split("-"))


def respelled(name, functions):
    if name in APART:
        return APART[name]
    if name[0].isupper():
        return camel(name)
    head, dash, rest = name.partition("-")
    if not dash:
        return snake(name)
    if head in ANEW:
        return ANEW[head] + "-" + snake(rest.replace("-", "_"))
    joint = "-" if head in functions or head in HEADS else "_"
    return snake(head) + joint + snake(rest.replace("-", "_"))


def read(path):
    with open(path, encoding="utf-8") as f:
        return f.read()


def declared():
    specs, lemmas = set(), set()
    for path in glob.glob("crates/*/specs/**/*.antt", recursive=True) + glob.glob("crates/*/proofs/**/*.antt", recursive=True):
        if re.search(r"/(?:Answers|Invariants|Proof|Choices)\.antt$", path):
            continue
        for line in read(path).split("\n"):
            m = DECLARED.match(line)
            if m and not re.match(r" *(?:let|λ|--|use)\b", line):
                (specs if "/specs/" in path else lemmas).add(m[1])
    return specs, lemmas


def main():
    specs, lemmas = declared()
    functions = {n for n in specs if n[0].islower() and "-" not in n}
    turned = {n: respelled(n, functions) for n in sorted(specs)}
    said = set(turned.values())
    for n in sorted(lemmas - specs):
        new = respelled(n, functions)
        turned[n] = new + "_lem" if "_" in new and new in said else new
    turned = {n: new for n, new in turned.items() if n != new}
    texts, bad = {}, []
    for path in sorted(glob.glob("crates/*/**/*.antt", recursive=True) + glob.glob("crates/*/src/**/*.rt", recursive=True)):
        if "/out/" in path:
            continue
        old = read(path)
        met = {}

        def turn(m):
            new = turned.get(m[1], m[1])
            if new != m[1] or not MODULE.match(m.string, m.end()):
                met.setdefault(new, set()).add(m[1])
            return new

        if path.endswith(".antt"):
            new = TOKEN.sub(turn, old)
        else:
            new = "\n".join(TOKEN.sub(turn, l) if GHOST.match(l) else l for l in old.split("\n"))
        bad += [f"{path}: {', '.join(sorted(olds))} would be {name}" for name, olds in met.items() if len(olds) > 1]
        texts[path] = (old, new)
    if bad:
        print("\n".join(bad))
        return 1
    for path, (old, new) in texts.items():
        if new != old and "--check" not in sys.argv[1:]:
            with open(path, "w", encoding="utf-8") as f:
                f.write(new)
    print(f"respelled {len(turned)} names in {sum(a != b for a, b in texts.values())} files")
    for name, new in turned.items():
        print(f"  {name} {new}")
    return 0


if __name__ == "__main__":
    raise SystemExit(main())
