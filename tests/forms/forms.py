"""The number of the book's records is found by a shift and never by a division."""

import json
import os
import subprocess
import sys

RESULTS = []


def check(name, good, seen):
    RESULTS.append(good)
    if not good:
        print(f"FAILED: {name}: {seen[:400]}")


def mir(crate):
    """The operations of each function of the crate, by its name; none where they cannot be had."""
    folder = os.path.join("crates", crate)
    run = subprocess.run(["rt", "lib"], cwd=folder, capture_output=True, text=True, stdin=subprocess.DEVNULL)
    try:
        with open(os.path.join(folder, "out", "rlib", crate + ".rlib", "toolchain", "mir.json"), encoding="utf-8") as file:
            functions = {name: function["body"] for name, function in json.load(file)}
    except OSError:
        functions = {}
    check(f"the operations of {crate}", run.returncode == 0 and len(functions) > 0, run.stdout + run.stderr)
    return functions


def operations(body):
    """The operations and the calls of a body, each as its name and what it is applied to."""
    if isinstance(body, list):
        return [found for part in body for found in operations(part)]
    found = []
    for word, inside in body.items() if isinstance(body, dict) else []:
        if word in ("Op1", "Op2"):
            # The name stands alone, or as the one key beside the sign of the operands.
            found.append((inside[0] if isinstance(inside[0], str) else " ".join([*inside[0], *map(str, inside[0].values())]), inside[1:]))
        elif word == "Call":
            found.append((word, inside))
        found += operations(inside)
    return found


def names(found):
    return [name for name, _ in found]


def main():
    records = mir("records")
    count = operations(records.get("records::entry_count"))
    check("entry_count is one shift, with no division and no call", names(count) == ["Shr Unsigned"], str(count))
    check("entry_count shifts by 3", [applied[-1] for _, applied in count] == [{"Int": {"width": 64, "value": 3}}], str(count))
    # A division would be seen: the case's count of records is found by one.
    rows = operations(records.get("records::row_count"))
    check("row_count is one division", names(rows) == ["Div Unsigned"], str(rows))
    print(f"{sum(RESULTS)} passed, {len(RESULTS) - sum(RESULTS)} failed")
    return 0 if all(RESULTS) else 1


sys.exit(main())
