#!/usr/bin/env python3
"""Brings the names of definitions and lemmas, and the texts of must-fail edits, to the spelling of today's Rattle.

usage: tools/respell.py        at the top, once, right after the kit's port.py

Definitions in camel case become snake case. In a lemma's name a dash joins two names of definitions, and a plain word is added with
'_'. A lemma that would then have another name's spelling gets '_lem'. Functions of src/ keep their names: only tokens of specs/ and
proofs/, of clauses, of pages and of edits are turned. It prints the names that would fall together.
"""
import collections
import os
import re
import sys

TOKEN = re.compile(r"[^\s(){}.;,@\"«»\[\]\\`|]+")
HEAD = re.compile(r"^\s*(?:(?:abbrev|unfoldable|pub|data|record)\s+)*([^\s:(){}=.,;\"]+)\s*(?:[({][^:=]*:[^)}]*[)}]\s*)*:(?=\s)")
# Names of lists and numbers in the kit's library, which a lemma's name may join by a dash.
KIT = set("length get_or take drop set append reverse map sum zip min max bit_and bit_or bit_xor cond".split())
# Lemmas that have the name that a definition gets, and the files that cite them.
LEMMAS = {
    "answers_of": ["crates/custody/proofs/Whole.antt"],
    "by_field": ["crates/quantization_laws/proofs/Pattern.antt"],
    "half_up": ["crates/fractions/proofs/Rounding.antt", "crates/fractions/proofs/Same.antt"],
    "is_cut": ["crates/fractions/proofs/Same.antt", "crates/color_equations/proofs/Whole.antt", "crates/color_model_laws/proofs/Inverse.antt"],
    "is_open": ["crates/ppm_laws/proofs/Exported.antt", "crates/ppm_laws/proofs/Claims.antt"],
}
# What port.py half turned: the index into a list is get_or there.
FIXED = {"get_d_tabulate": "get_or-tabulate", "getD-tabulate": "get_or-tabulate"}


def walk(*ends):
    for top in ("crates",):
        for folder, dirs, files in os.walk(top):
            dirs[:] = sorted(d for d in dirs if d != "out")
            for f in sorted(files):
                if f.endswith(ends):
                    yield os.path.join(folder, f)


def read(path):
    with open(path, encoding="utf-8") as f:
        return f.read()


def write(path, text):
    with open(path, "w", encoding="utf-8") as f:
        f.write(text)


def snake(word):
    if word[:1].isupper():
        return word
    word = re.sub(r"^getD$", "get_or", word)
    return re.sub(r"(?<=[a-z0-9])([A-Z])", lambda m: "_" + m.group(1).lower(), word)


def defined(text):
    for line in text.split("\n"):
        if line.strip().startswith("--") or re.match(r"\s*(use|mod|pub use|pub mod)\b", line):
            continue
        m = HEAD.match(line)
        if m:
            yield m.group(1)


def main():
    for name, paths in LEMMAS.items():
        for path in paths:
            write(path, TOKEN.sub(lambda m: name + "_lem" if m.group(0) == name else m.group(0), read(path)))
    tokens = collections.Counter()
    names, lemmas, definitions = set(), set(), set()
    for path in walk(".antt"):
        text = read(path)
        tokens.update(TOKEN.findall(text))
        inside = path.split(os.sep)[2:]
        found = set(defined(text))
        names |= {n for n in TOKEN.findall(text) if re.fullmatch(r"[a-z][\w'-]*", n) and re.search(r"[a-z0-9][A-Z]", n.split("-")[0]) and "Need-" not in n}
        names |= {n for n in found if re.search(r"[a-z0-9][A-Z]", n) and not n[0].isupper()}
        if inside[0] == "specs":
            definitions |= found
        # lemma files: proofs/NAME.antt
        if inside[0] == "proofs" and len(inside) == 2 or inside[0] == "specs":
            lemmas |= {n for n in found if "-" in n and not n[0].isupper() and n[0].isalpha()}
    for path in walk(".rt"):
        tokens.update(re.findall(r"[A-Za-z_][A-Za-z0-9_]*", read(path)))
    known = {snake(d) for d in definitions} | KIT
    turned, taken = dict(FIXED), collections.defaultdict(set)
    for n in sorted(names | lemmas):
        parts = [snake(p) for p in n.split("-")]
        new = parts[0]
        for a, b in zip(parts, parts[1:]):
            new += ("-" if a in known and b in known else "_") + b
        if n in FIXED:
            continue
        if new != n:
            turned[n] = new
    for old, new in turned.items():
        taken[new].add(old)
    for new, olds in sorted(taken.items()):
        together = set(olds)
        if new in tokens and new not in turned:
            together.add(new)
        if len(together) > 1 and not together <= set(FIXED):
            # the definition in camel case keeps the plain name, the others get an ending
            for old in sorted(olds):
                if "-" in old and old not in FIXED:
                    turned[old] = new + "_lem"
            print("fall together:", new, sorted(together), "->", sorted((o, turned[o]) for o in olds))
    after = collections.Counter(turned.values())
    for new, k in after.items():
        if k > 1 and not {o for o, t in turned.items() if t == new} <= set(FIXED):
            print("still together:", new, [o for o, t in turned.items() if t == new])
    camel = {o: t for o, t in turned.items() if re.search(r"[a-z0-9][A-Z]", o)}
    for path in walk(".antt"):
        text = read(path)
        write(path, TOKEN.sub(lambda m: turned.get(m.group(0), m.group(0)), text))
    for path in walk(".rt"):
        text = read(path)
        write(path, re.sub(r"[A-Za-z_][A-Za-z0-9_']*", lambda m: camel.get(m.group(0), m.group(0)), text))
    with open(os.path.join(os.path.dirname(os.path.abspath(__file__)), "respelled.tsv"), "w") as f:
        for o in sorted(turned):
            f.write(f"{o}\t{turned[o]}\n")
    print(len(turned), "names turned")


if __name__ == "__main__":
    sys.exit(main())
