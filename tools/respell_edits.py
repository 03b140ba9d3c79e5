#!/usr/bin/env python3
"""Brings the texts of must-fail edits to the new spelling, where the old text no longer stands once in its file.

usage: tools/respell_edits.py PORT_SAID      at the top, after tools/respell.py; PORT_SAID is the folder in which port.py left what it said
"""
import os
import re
import sys

HERE = os.path.dirname(os.path.abspath(__file__))
TOKEN = re.compile(r"[^\s(){}.;,@\"«»\[\]\\`|]+")


def snake(word):
    word = re.sub(r"(?<=[a-z0-9])([A-Z])", lambda m: "_" + m.group(1).lower(), word)
    return word.replace("-", "_")


def names(said):
    of = {}
    for f in sorted(os.listdir(said)):
        with open(os.path.join(said, f), encoding="utf-8", errors="replace") as it:
            for line in it:
                m = re.match(r"look: .*so these names of yours are in snake case now: (.*?)\. Your other", line)
                if m:
                    for n in m.group(1).split(", "):
                        of[n] = snake(n)
    with open(os.path.join(HERE, "respelled.tsv"), encoding="utf-8") as it:
        for line in it:
            old, new = line.rstrip("\n").split("\t")
            of[old] = new
    # words of the kit
    of |= {"getD": "get_or", "natAbs": "nat_abs", "_≡_": "◌≡◌"}
    return of


def turned(text, of):
    text = re.sub(r"\(((?:\w|')+(?: \.\w+)+)\)", lambda m: m.group(1).replace(" .", "."), text)
    text = re.sub(r"(?<=[\w']) \.(?=\w)", ".", text)
    text = TOKEN.sub(lambda m: of.get(m.group(0), m.group(0)), text)
    return text.replace("′", "'")


def main(said):
    of = names(said)
    for c in sorted(os.listdir("crates")):
        folder = os.path.join("crates", c, "must-fail")
        if not os.path.isdir(folder):
            continue
        for e in sorted(os.listdir(folder)):
            path = os.path.join(folder, e)
            with open(path, encoding="utf-8") as f:
                lines = f.read().split("\n")
            out, file, texts, ok, changed = [], None, {}, True, False
            old = None
            for line in lines:
                if line.startswith("file: "):
                    file = line[6:].strip()
                    with open(os.path.join("crates", c, file), encoding="utf-8") as f:
                        texts[file] = f.read() if file not in texts else texts[file]
                elif line.startswith("old: "):
                    old = line[5:]
                    new_old = old if texts[file].count(old) == 1 and not file.endswith(".antt") else turned(old, of)
                    if texts[file].count(new_old) != 1:
                        print(f"left: {path}: {file} has {texts[file].count(new_old)} of: {new_old}")
                        ok = False
                    line = "old: " + new_old
                    old = new_old
                elif line.startswith("new:"):
                    new = line[5:]
                    if file.endswith(".antt") or re.search(r"[a-z][A-Z]", new):
                        new = turned(new, of)
                    line = "new: " + new if new else "new:"
                    texts[file] = texts[file].replace(old, new, 1)
                changed |= line != lines[len(out)]
                out.append(line)
            if changed:
                with open(path, "w", encoding="utf-8") as f:
                    f.write("\n".join(out))


if __name__ == "__main__":
    sys.exit(main(sys.argv[1]))
