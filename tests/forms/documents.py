"""The documents: no line over 160 characters but in tables, and each link leads to a file."""

import glob
import os
import re
import sys

RESULTS = []


def check(name, good, seen):
    RESULTS.append(good)
    if not good:
        print(f"FAILED: {name}: {seen}")


def main():
    documents = sorted(glob.glob("*.md") + glob.glob("tests/**/*.md", recursive=True) + glob.glob("docs/**/*.md", recursive=True))
    check("there are documents", len(documents) > 10, documents)
    for document in documents:
        with open(document, encoding="utf-8") as file:
            text = file.read()
        long = [(at, len(line)) for at, line in enumerate(text.split("\n"), 1) if len(line) > 160 and not line.startswith("|")]
        check(f"{document}: no line over 160 characters", not long, long)
        links = [link for link in re.findall(r"\]\(([^)#]+)[^)]*\)", text) if "://" not in link]
        lost = [link for link in links if not os.path.exists(os.path.join(os.path.dirname(document), link))]
        check(f"{document}: links", not lost, lost)
    print(f"{sum(RESULTS)} passed, {len(RESULTS) - sum(RESULTS)} failed")
    return 0 if all(RESULTS) else 1


sys.exit(main())
