#!/usr/bin/env python3
"""Gives the definitions and lemmas of this repository the spelling of today's Rattle.

usage: tools/respell.py [FOLDER]     FOLDER is the top of a checkout; without it, this one

Run it once, right after the kit's port.py. tools/spelling.tsv has a row for each name: the old spelling, a tab, the new one.
Words and lemmas are in snake case; a dash is left only between two words that are definitions themselves; types are in camel case.
A whole word alone turns: in the code and the comments of .antt files, in the clauses, imports and comments of .rt files, in the texts of must-fail edits,
and in the code spans of .md files. Strings stay as they are.
"""
import os
import re
import sys

HERE = os.path.dirname(os.path.realpath(__file__))
WORD = re.compile(r'"(?:[^"\\\n]|\\.)*"|[^\s(){}\[\];,.@"«»`|]+')
SPAN = re.compile(r"`[^`\n]+`")


def table():
    with open(os.path.join(HERE, "spelling.tsv"), encoding="utf-8") as f:
        return dict(line.rstrip("\n").split("\t") for line in f if line.strip())


def turn(text, names):
    return WORD.sub(lambda m: names.get(m.group(0), m.group(0)), text)


def main(argv):
    root = argv[0] if argv else os.path.dirname(HERE)
    names = table()
    changed = 0
    for folder, dirs, files in os.walk(root):
        dirs[:] = sorted(d for d in dirs if d not in (".git", "out", "target", "tools"))
        for name in sorted(files):
            path = os.path.join(folder, name)
            if not name.endswith((".antt", ".rt", ".edit", ".md")):
                continue
            with open(path, encoding="utf-8") as f:
                old = f.read()
            if name.endswith(".md"):
                new = SPAN.sub(lambda m: turn(m.group(0), names), old)
            else:
                new = turn(old, names)
            if new != old:
                with open(path, "w", encoding="utf-8") as f:
                    f.write(new)
                changed += 1
    print(f"respell: {changed} files")


main(sys.argv[1:])
