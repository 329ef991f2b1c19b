#!/usr/bin/env python3
"""Spells the repository's own definitions, lemmas, fields and constructors in snake case, by the rows of respell.tsv beside this file.

usage: respell.py [FOLDER]     after port.py, once: turns whole words in the .rt and .antt files below FOLDER/crates (here by default)

A row is an old name, a tab and its new name. A lemma that would have its definition's name gets `_lem`. In a .rt file only clauses,
`ghost use` items and comments have such names, and no name of Rust is spelled like a row. The names that stand behind `Need-` are the checker's.
"""
import os
import re
import sys

HERE = os.path.dirname(os.path.realpath(__file__))
WORD = re.compile(r'[^\s(){}.;,@"«»`]+')


def main():
    top = sys.argv[1] if len(sys.argv) > 1 else os.path.dirname(HERE)
    with open(os.path.join(HERE, "respell.tsv"), encoding="utf-8") as f:
        table = dict(line.rstrip("\n").split("\t") for line in f)
    # a name that port.py made is no row of a .rt file, where Rust may have it
    of_rust = {old: new for old, new in table.items() if "-" in old or old != old.lower()}
    changed = 0
    for folder, dirs, files in os.walk(os.path.join(top, "crates")):
        dirs[:] = sorted(d for d in dirs if d != "out")
        for name in sorted(files):
            if not name.endswith((".rt", ".antt")):
                continue
            rows = table if name.endswith(".antt") else of_rust
            path = os.path.join(folder, name)
            with open(path, encoding="utf-8") as f:
                text = f.read()
            turned = WORD.sub(lambda m: rows.get(m[0], m[0]), text)
            if turned != text:
                with open(path, "w", encoding="utf-8") as f:
                    f.write(turned)
                changed += 1
    print(f"{changed} files changed")


if __name__ == "__main__":
    main()
