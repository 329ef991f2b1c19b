#!/usr/bin/env python3
"""What the library and the program rest on, by the checker's reports, after tools/build. The report of a static library or of a program lists the C functions
that its whole graph declares, marks those whose assumed contract the check reached, and counts these (axioms=N) where there are any: the library reaches none.
The same reading of the program's report must find those that docs/PROMISES.md names, or it would find none anywhere. No crate of the library lists a library of
the kit. Last line 'N passed, M failed'.

axioms.py [LIBRARY_REPORT [PROGRAM_REPORT]]
"""
import os
import re
import sys

ROOT = os.path.dirname(os.path.dirname(os.path.abspath(__file__)))
sys.dont_write_bytecode = True
from layers import read_crates

# The C functions behind std's trait of files, all of them though the program only opens, reads and closes, and behind its writer.
PROGRAM_RESTS_ON = {
    "libc": "chmod chown close fchmod fdatasync flock fsync ftruncate futimens lchown link lseek mkdir net::bind pipe2 read readlink realpath rename rmdir "
            "statx symlink unlink write",
    "os::c": "__xpg_strerror_r fcntl getdents64 open rattle_errno rattle_open_dir_at rattle_set_errno unlinkat",
}
KIT = {"core", "io", "libc", "os", "std", "std_alloc", "std_collections", "std_heap", "std_io"}    # the standard library's, passed to every crate
tally = {"passed": 0, "failed": 0}


def check(name, good, detail=""):
    tally["passed" if good else "failed"] += 1
    if not good:
        print(f"FAILED {name}: {detail}")


def read(path):
    """The last verdict of a report, the crates that were loaded for it, the assumed contracts that it reached, and how many it counts crate by crate."""
    lines = open(path, encoding="utf-8").read().splitlines() if os.path.isfile(path) else []
    verdicts = [at for at, line in enumerate(lines) if line.startswith("logic=")]
    if not verdicts:
        return "", set(), [], 0
    own = lines[([-1] + verdicts)[-2] + 1:verdicts[-1]]
    loaded = {found[1] for found in (re.match(r"(?:library|statements) (\w+): modules loaded=", line) for line in own) if found}
    named = [found[1] for found in (re.fullmatch(r"  (\S+) +reached", line) for line in own) if found]
    counts = [found[1] for found in (re.match(r"axioms \w+: (none|\d+) reached of the ", line) for line in own) if found]
    return lines[verdicts[-1]], loaded, sorted(named), sum(0 if count == "none" else int(count) for count in counts) if counts else -1


def rests_on(path):
    """The assumed contracts that a report names, or what is wrong with it."""
    verdict, _, named, counted = read(path)
    if not re.match(r"logic=proved functions=\d+ .*\btarget=", verdict):
        return f"no report of a proved static library or program: {verdict}"
    count = re.search(r"\baxioms=(\d+)", verdict)
    if "foreign=" in verdict or not (int(count[1]) if count else 0) == counted == len(named):
        return f"counted otherwise than named, or declared by the crate itself: {verdict}, {counted}, {named}"
    return named


def below(name, crates):
    found = set()
    for dep in crates[name][0]:
        found |= {dep} | below(dep, crates)
    return found


def main():
    library, program = (sys.argv[1:] + [None, None])[:2]
    library = library or os.path.join(ROOT, "target", "lib", "liblgs.report")
    program = program or os.path.join(ROOT, "target", "lib", "place.report")
    listed = os.path.join(ROOT, "crates.txt")
    crates = read_crates(listed)
    check("the library rests on no assumed contract", rests_on(library) == [], rests_on(library))
    loaded, expected = read(library)[1] - KIT, below("exports", crates)
    check("the library is made of the crates below exports, and of nothing else", loaded == expected, f"{sorted(loaded ^ expected)}")
    kit = {dep for crate in expected | {"exports"} for dep in read_crates(listed, kit=True)[crate][0]} - set(crates)
    check("the library calls no library of the kit but the standard one", not kit, f"{sorted(kit)}")
    known = sorted(f"{crate}::{name}" for crate, names in PROGRAM_RESTS_ON.items() for name in names.split())
    check("the program rests on the assumed contracts that docs/PROMISES.md names", rests_on(program) == known, rests_on(program))
    print(f"{tally['passed']} passed, {tally['failed']} failed")
    return 1 if tally["failed"] else 0


sys.exit(main())
