"""The Python example of README.md: its one block ```python, run in a folder with lgs.py and liblgs.so, prints what the block ```text after it says.
Status 0 if so.

    python3 from_readme.py README.MD LGS.PY LIBLGS.SO
"""
import difflib
import os
import shutil
import subprocess
import sys
import tempfile


def blocks(text):
    """The fenced blocks: the word behind the opening fence, and the lines."""
    found, inside = [], False
    for line in text.split("\n"):
        if line.startswith("```"):
            inside = not inside
            if inside:
                found.append((line[3:].strip(), []))
        elif inside:
            found[-1][1].append(line + "\n")
    return found


def example(text):
    """The program and what it should print."""
    found = blocks(text)
    at = [i for i, (word, _) in enumerate(found) if word == "python"]
    if len(at) != 1:
        sys.exit(f"README.md has {len(at)} blocks that begin with ```python, not one")
    if found[at[0] + 1:] == [] or found[at[0] + 1][0] != "text":
        sys.exit("README.md has no block ```text after its block ```python: what the example prints")
    return "".join(found[at[0]][1]), found[at[0] + 1][1]


def run(program, files):
    """What the program prints in a folder with these files, errors too; and its status."""
    words = {name: word for name, word in os.environ.items() if name not in ("LGS_LIBRARY", "PYTHONPATH")}
    with tempfile.TemporaryDirectory() as folder:
        for name in files:
            shutil.copy(name, folder)
        with open(os.path.join(folder, "example.py"), "w", encoding="utf-8") as file:
            file.write(program)
        done = subprocess.run([sys.executable, "example.py"], cwd=folder, env=words, stdout=subprocess.PIPE, stderr=subprocess.STDOUT)
    return done.stdout.decode(), done.returncode


def main():
    with open(sys.argv[1], encoding="utf-8") as file:
        program, expected = example(file.read())
    printed, status = run(program, sys.argv[2:])
    sys.stdout.writelines(difflib.unified_diff(expected, printed.splitlines(keepends=True), "the block ```text", "what the example prints"))
    if status != 0:
        print(f"the example ends with status {status}")
    return 0 if status == 0 and printed == "".join(expected) else 1


sys.exit(main())
