#!/usr/bin/env python3
"""Brings the definitions and lemmas of this repository to today's spelling: words in snake case (`hasClass` was, `has_class` is), types and modules in camel case.

usage: respell.py ROOT          rewrites the files below ROOT in place, once, behind port.py; prints names that fall together
"""
import os
import re
import sys

CAMEL = re.compile(r"(?<![A-Za-z0-9_'@/])[a-z][a-z0-9]*(?:[A-Z][a-z0-9]*)+(?![A-Za-z0-9_])")
# names of other languages and of the library
KEEP = {"getD", "xCC", "cR", "eD", "onE"}


def snake(word):
    w = re.sub(r"([a-z0-9])([A-Z])", r"\1_\2", word)
    w = re.sub(r"([A-Z])([A-Z])", r"\1_\2", w)
    return w.lower()


# Lemmas that port.py brought to the very word that a definition gets here: they keep the name of two words that they had.
LEMMAS = "called_at cut_off has_in is_member is_name line_taken no_fields no_room one_more too_large".split()
LEMMA = re.compile(r"(?<![\w'-])(?<!before\.)(?<!\bc\.)(" + "|".join(LEMMAS) + r")(?![\w'-])")


def turned(text, said, lemmas=False):
    if lemmas:
        text = LEMMA.sub(lambda m: m.group(0).replace("_", "-"), text)

    def one(m):
        if m.group(0) in KEEP:
            return m.group(0)
        said.add(m.group(0))
        return snake(m.group(0))

    # texts in quotes stay as they are
    parts = re.split(r'("(?:[^"\\\n]|\\.)*")', text)
    return "".join(p if i % 2 else CAMEL.sub(one, p) for i, p in enumerate(parts))


def texts(root):
    for top, kinds in (("crates", (".antt", ".rt", ".edit")), ("wrong", (".txt", ".rt", ".antt", ".edit")), ("answers", (".ans",))):
        for folder, dirs, files in os.walk(os.path.join(root, top)):
            dirs[:] = sorted(d for d in dirs if d != "out")
            for f in sorted(files):
                if f.endswith(kinds):
                    yield os.path.join(folder, f)


def main(root):
    said, words = set(), {}
    for p in texts(root):
        old = open(p, encoding="utf-8").read()
        for w in re.findall(r"[A-Za-z_][\w']*", old):
            words.setdefault(w, set()).add(p)
        new = turned(old, said, p.endswith(".antt"))
        if new != old:
            open(p, "w", encoding="utf-8").write(new)
    for w in sorted(said):
        n = snake(w)
        if n in words:
            print(f"{w} falls together with {n}: {' '.join(sorted(os.path.relpath(x, root) for x in words[n])[:6])}")
    print(f"{len(said)} names")


if __name__ == "__main__":
    main(sys.argv[1])
