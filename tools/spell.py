#!/usr/bin/env python3
"""Spells the repository's own definitions and lemmas as today's Rattle does.

usage: python3 tools/spell.py            at the top, once, right after the kit's port.py

Words are in snake case, facts and types in upper camel case. A lemma of two functions keeps the dash between their
names, as in mul-pow. Names are found where they are declared, in specs/ and proofs/; names that Rattle makes, which
answers only cite, are left alone. Functions of src/, strings, inputs and outputs keep their names.
"""

import glob
import re

# what two functions' lemma joins by a dash
FUNCTIONS = {"mul", "mod", "pow", "add", "sum", "minus", "signed", "inverse", "length", "encode", "decode", "cong", "walk"}
# a definition that would fall together with a field and a parameter of that name
SPECIAL = {"row-length": "row_length_of"}

TOKEN = re.compile(r"(?<![\w'\-])[A-Za-z][\w']*(?:-[\w']+)+(?![\w'\-])")
# a signature or a field, on one line or with its type on the next one, but for the answer to a goal of that name
SIGNATURE = re.compile(r"^ *(?:(?:abbrev|unfoldable|pub|data|record) )*([A-Za-z][\w'\-]*)((?: [^=\n]*?)?\n? *) :(?!\s*goal\.)", re.M)
MADE = re.compile(r"^(invariant|decreases|ghost|returns|loop|if|in|overflow|bounds)-")


def texts():
    for kind in ("specs", "proofs"):
        yield from sorted(glob.glob(f"crates/*/{kind}/**/*.antt", recursive=True))


def declared():
    names = set()
    library = set()
    for path in texts():
        text = re.sub(r"--.*", "", open(path, encoding="utf-8").read())
        for found in re.finditer(r"^use (?!Rattle\.(?!std\.)).*\{(.*)\}", text, re.M):
            library.update(re.findall(r"[A-Za-z][\w'\-]*", found.group(1)))
        text = re.sub(r"^(use|mod|pub mod) .*", "", text, flags=re.M)
        names.update(found.group(1) for found in SIGNATURE.finditer(text))
    return {n for n in names - library if "-" in n and not MADE.match(n)}


def spelled(name):
    if name in SPECIAL:
        return SPECIAL[name]
    parts = name.split("-")
    if name[0].isupper():
        return "".join(p[:1].upper() + p[1:] for p in parts)
    out = parts[0]
    for before, after in zip(parts, parts[1:]):
        both = len(parts) == 2 and before in FUNCTIONS and after in FUNCTIONS
        out += ("-" if both else "_") + after
    return out


def main():
    turned = {n: spelled(n) for n in declared()}
    turned = {a: b for a, b in turned.items() if a != b}
    together = {}
    for old, new in turned.items():
        together.setdefault(new, []).append(old)
    for new, olds in sorted(together.items()):
        if len(olds) > 1:
            print(f"these fall together: {olds} as {new}")
    paths = list(texts()) + sorted(glob.glob("crates/*/src/**/*.rt", recursive=True))
    count = 0
    for path in paths:
        text = open(path, encoding="utf-8").read()
        pieces = re.split(r'("(?:[^"\\\n]|\\.)*")', text) if path.endswith(".rt") else [text]
        for at in range(0, len(pieces), 2):
            pieces[at] = TOKEN.sub(lambda m: turned.get(m.group(0), m.group(0)), pieces[at])
        new = "".join(pieces)
        if new != text:
            open(path, "w", encoding="utf-8").write(new)
            count += 1
    print(f"{len(turned)} names, {count} files")


main()
