#!/usr/bin/env python3
"""Draws the crates of crates.txt, lowest layer first, into docs/ARCHITECTURE.md between its two marks.

layers.py           prints the drawing
layers.py --write   puts it into docs/ARCHITECTURE.md
layers.py --check   says whether the drawing there is that of crates.txt
"""
import os
import sys

ROOT = os.path.dirname(os.path.dirname(os.path.abspath(__file__)))
PAGE = os.path.join(ROOT, "docs", "ARCHITECTURE.md")
BEGIN = "<!-- drawing: tools/layers.py --write -->\n"
END = "<!-- end of the drawing -->\n"


def read_crates(path, kit=False):
    """Each crate's name with its dependencies, those of the kit only if they are asked for, and the comment above its line."""
    lines, note, crates = open(path, encoding="utf-8").read().splitlines(), "", {}
    for line in lines:
        if line.startswith("#"):
            note = line[1:].strip()
        elif ":" in line:
            name, deps = line.split(":", 1)
            crates[name.split()[0]] = (deps.split(), note)
            note = ""
    return {name: ([d for d in deps if kit or d in crates], note) for name, (deps, note) in crates.items()}


def needless(name, crates):
    """The dependencies of a crate that one of its other dependencies has too."""
    def below(n):
        found = set()
        for d in crates[n][0]:
            found |= {d} | below(d)
        return found
    deps = crates[name][0]
    return {d for d in deps if any(d in below(e) for e in deps if e != d)}


def drawing(crates):
    level = {}

    def height(name):
        if name not in level:
            level[name] = 1 + max((height(d) for d in crates[name][0]), default=0)
        return level[name]

    for name in crates:
        height(name)
    out = []
    for n in range(1, max(level.values()) + 1):
        for name in [c for c in crates if level[c] == n]:
            hidden = needless(name, crates)
            direct = [d for d in crates[name][0] if d not in hidden]
            over = " <- " + ", ".join(direct) if direct else ""
            out.append(f"{n:2}  {name}{over}")
            out.append(f"      {crates[name][1]}")
    return "```\n" + "\n".join(out) + "\n```\n"


def main(words):
    text = drawing(read_crates(os.path.join(ROOT, "crates.txt")))
    if not words:
        print(text, end="")
        return 0
    page = open(PAGE, encoding="utf-8").read()
    head, rest = page.split(BEGIN, 1)
    old, tail = rest.split(END, 1)
    if words == ["--write"]:
        open(PAGE, "w", encoding="utf-8").write(head + BEGIN + text + END + tail)
        return 0
    if words == ["--check"]:
        same = old == text
        print("1 passed, 0 failed" if same else "docs/ARCHITECTURE.md: run tools/layers.py --write\n0 passed, 1 failed")
        return 0 if same else 1
    print(__doc__)
    return 2


if __name__ == "__main__":
    sys.exit(main(sys.argv[1:]))
