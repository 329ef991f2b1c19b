"""Tests of desk.py: example K to the byte, visits that end in never, lots drawn, equal marks parted by them, fares added up, years driven visit by
visit, whole colleges, who is settled, answers as tables, wrong inputs, a withdrawal, stages worked out, several who work in one folder at once.

    LGS_LIBRARY=LIBLGS.SO python3 desk_tests.py DESK.PY
"""
import contextlib
import csv
import errno
import fcntl
import io
import json
import os
import random
import re
import resource
import shutil
import signal
import stat
import struct
import subprocess
import sys
import tempfile
import time
import traceback
from concurrent.futures import ThreadPoolExecutor
from types import SimpleNamespace

DESK, LIBRARY = (os.path.abspath(path) for path in (sys.argv[1], os.environ["LGS_LIBRARY"]))
os.environ["LGS_LIBRARY"] = LIBRARY
tally = {"passed": 0, "failed": 0}


def check(name, good, detail=""):
    tally["passed" if good else "failed"] += 1
    if not good:
        print(f"FAILED {name}\n{detail}")


def desk(folder, *words, first=None, **more):
    """Runs desk.py in the folder as a clerk does: status, what it printed, what it complained of. `more` is for the environment."""
    done = subprocess.run([sys.executable, DESK, *words], cwd=folder, env={**os.environ, **more}, capture_output=True, stdin=subprocess.DEVNULL,
                          preexec_fn=first, timeout=60)
    return done.returncode, done.stdout.decode(), done.stderr.decode()


def read(folder, name):
    with open(os.path.join(folder, name), "rb") as f:
        return f.read()


def write(folder, name, data):
    with open(os.path.join(folder, name), "wb") as f:
        f.write(data if isinstance(data, bytes) else data.encode())


def read_all(folder):
    return {name: read(folder, name) for name in os.listdir(folder)}


def add(folder, name, text):
    write(folder, name, read(folder, name) + text.encode())


def made(folder):
    """The case and the book, as desk.py makes them from the tables in this folder."""
    real, found = InProcess().module.lgs.place, []

    def place(case, book):
        found.extend((case, book))
        return real(case, book)

    InProcess().run(folder, lgs=engine(place=place))
    return tuple(found)


def engine(**others):
    """lgs.py, with some of its functions exchanged."""
    return SimpleNamespace(**{**vars(InProcess().module.lgs), **others})


def answers(name, given, wanted):
    check(name, given == wanted, f"{given}\nwanted {wanted}")


def new_files(*options):
    """The four files of `desk.py new`, with her number for each student's lot, and the lots that were drawn."""
    with tempfile.TemporaryDirectory() as folder:
        answers("new", desk(folder, "new", *options), (0, NEW_SAYS, ""))
        files, comma = read_all(folder), ";" if options else ","
    rows = [row.rsplit(comma, 1) for row in files["students.csv"].decode("utf-8-sig").split("\r\n")]
    drawn, numbered = [int(row[1]) for row in rows[1:-1]], [[row[0], str(n)] for n, row in enumerate(rows[1:-1], 1)]
    files["students.csv"] = "\r\n".join(comma.join(row) for row in [rows[0], *numbered, rows[-1]]).encode("utf-8-sig")
    return files, drawn


NEW_FILES = {}
NEW_SAYS = ("Wrote students.csv, workshops.csv, pairs.csv, visits.csv. The lots are drawn at random.\n"
            "Put your own year in them with a spreadsheet, or try the example: python3 desk.py\n")


def in_new_folder(test):
    """Runs the test in a folder that has the example's four files."""
    with tempfile.TemporaryDirectory() as folder:
        for name, data in NEW_FILES.items():
            write(folder, name, data)
        test(folder)


# ---------------------------------------------------------------- example K

K_CASE = """
01 00 01 00 01 00 02 00 01 00 00 00 00 00 00 00
01 00 02 00 02 00 02 00 02 00 00 00 00 00 00 00
01 00 03 00 02 00 02 00 03 00 00 00 00 00 00 00
02 00 01 00 01 00 03 00 00 00 00 00 00 00 00 00
02 00 02 00 01 00 03 00 00 00 00 00 00 00 00 00
03 00 01 00 01 00 01 00 01 00 f0 00 00 00 00 00
03 00 01 00 02 00 01 00 01 00 36 01 00 00 00 00
03 00 02 00 01 00 01 00 02 00 b4 00 00 00 00 00
03 00 02 00 02 00 01 00 02 00 a4 01 00 00 00 00
03 00 03 00 01 00 01 00 02 00 00 00 00 00 00 00
03 00 03 00 02 00 02 00 02 00 6d 01 00 00 00 00
"""
K_BOOK = """
01 00 01 00 05 00 03 00
01 00 02 00 02 00 04 00
02 00 02 00 ff ff 01 00
03 00 02 00 04 00 06 00
"""
K_VISITS = [("Anna Berg", "Dye house", 5, 3), ("Anna Berg", "Weaving mill", 2, 4),
            ("Ben Olsen", "Weaving mill", -1, 1), ("Carla Roth", "Weaving mill", 4, 6)]
K_PAIRS = [("Anna Berg", "Dye house"), ("Anna Berg", "Weaving mill"), ("Ben Olsen", "Dye house"), ("Ben Olsen", "Weaving mill"),
           ("Carla Roth", "Dye house"), ("Carla Roth", "Weaving mill")]
K_GROUPS = ("1,1", "1,1", "1,2", "1,2", "1,2", "2,2")    # from the student and from the workshop
K_FARES = (240, 310, 180, 420, 0, 365)
K_PLACED = """The placement is finished.

  Anna Berg   Dye house
  Ben Olsen   no place
  Carla Roth  Weaving mill

Dye house, 1 of 1: Anna Berg
Weaving mill, 1 of 1: Carla Roth

Students with a workshop of their first group: 1, of their second group: 1. Students without a place: 1.
Seats filled: 2 of 2.
Stage in hand: none, all are done. Students settled for good: 3; waiting: 0.
Visits held for it: 4.
Fares of these visits: 1335 pence (13.35 pounds).
"""
NO_FARES = 'Fares of these visits: not known, pairs.csv has none below the heading "fare".\n'


def fares_told(total):
    return f"Fares of these visits: {total} pence ({total / 100:.2f} pounds).\n"


def cost(couples, fares=K_FARES):
    """What these visits of K's pairs cost together."""
    return sum(fares[K_PAIRS.index(couple)] for couple in couples)


def add_visits(folder, visits):
    add(folder, "visits.csv", "".join(f"{s},{w},{a},{b}\r\n" for s, w, a, b in visits))


def hold_visits(folder, name, visits):
    """These visits are asked for, one after the other."""
    for done, (student, workshop, a, b) in enumerate(visits):
        status, out, err = desk(folder)
        check(f"{name}, {done} visits", status == 0 and out.startswith(f"Next visit: {student} goes to {workshop}.\n")
              and out.endswith(f"Visits so far: {done}.\n" + fares_told(cost(visit[:2] for visit in visits[:done]))), out + err)
        add_visits(folder, [(student, workshop, a, b)])


def example_k(folder):
    hold_visits(folder, "K", K_VISITS)
    before = read_all(folder)
    status, out, err = desk(folder)
    answers("K placed", (status, out, err), (0, K_PLACED, ""))
    check("K: nothing is written", read_all(folder) == before, str(os.listdir(folder)))
    case, book = made(folder)
    check("K's case", case == bytes.fromhex(K_CASE), case.hex(" "))
    check("K's book", book == bytes.fromhex(K_BOOK), book.hex(" "))
    status, out, err = desk(folder, "next", "--visits")
    check("K's visits", out == K_PLACED + "\nThe visits:\n" + "".join(f"  {s} at {w}\n" for s, w, _, _ in K_VISITS), out)


def guide(folder):
    """What the guide shows is what is printed."""
    with open(os.path.join(os.path.dirname(DESK), "..", "docs", "GUIDE.md"), encoding="utf-8") as f:
        text = f.read()
    first = desk(folder)[1]
    show_lots(folder, text)
    rows = "Ana Berg,Dye house,1,1,240\n\n\nBen Olsen,Weaving mill,two,2,420\nCarla Roth,Dye house,1,2,3.65\n\nCarla Roth,Dye house,1,2,0\n"
    for file, content in (("pairs.csv", FARE_HEAD + rows),
                          ("visits.csv", VISIT_HEAD + "Anna Berg,Dye house,5,3\nAnna Berg,Weaving mill,5,4\n")):
        before = read(folder, file)
        write(folder, file, content)
        shows(text, desk(folder)[2])
        write(folder, file, before)
    rows = [(s, w, *groups.split(","), str(fare)) for (s, w), groups, fare in zip(K_PAIRS, K_GROUPS, K_FARES)]
    check("the guide's table has these fares", "".join(f"\n| {' | '.join(row)} |" for row in rows) in text, str(rows))
    write(folder, "students.csv", students("Anna Berg,,2\nBen Olsen,,2\nCarla Roth,,2\n"))
    shows(text, desk(folder, "stages")[1])
    write(folder, "students.csv", students("Anna Berg,2,2\nBen Olsen,,2\nCarla Roth,,2\n"))
    check("the guide shows what stood there", "Anna Berg (was 2)\n" in desk(folder, "stages")[1] and "`Anna Berg (was 2)`" in text)
    write(folder, "pairs.csv", read(folder, "pairs.csv").replace(b"Anna Berg,Weaving mill,1,1", b"Anna Berg,Weaving mill,1,3"))
    shows(text, desk(folder, "stages")[2])
    shows(text, locked(os.path.join(folder, LOCK), GUIDE_HOLDER.encode(), lambda: desk(folder, "lots"))[2])
    for shown in (NEW_SAYS, first, K_PLACED, NEVER_PLACED + NEVER_LIST, NO_FARES):
        shows(text, shown)
    show_reasons(text)
    for visits in (K_VISITS[1:], NEVER_VISITS):
        check("the guide shows what is asked for", asked_after(visits) in text, asked_after(visits))


def show_lots(folder, text):
    """The guide's lots: what is told of them, with these drawn; and equal marks, with these and with two of them exchanged."""
    before = read_all(folder)
    write(folder, "students.csv", K_STUDENTS.format("", "", ""))
    shows(text, drawing(GUIDE_LOTS, folder)[1])
    check("the guide's lots are written", read(folder, "students.csv") == K_STUDENTS.format(*GUIDE_LOTS).encode())
    check("the guide's table has these lots", all(f"| {name} | {stage} | 2 | {lot} |\n" in text for name, stage, lot in zip(K_NAMES, "122", GUIDE_LOTS)))
    shows(text, drawing([], folder)[1])
    add_visits(folder, EQUAL_VISITS)
    answers("equal marks in the guide", desk(folder), (0, K_PLACED, ""))
    write(folder, "students.csv", K_STUDENTS.format(GUIDE_LOTS[0], GUIDE_LOTS[2], GUIDE_LOTS[1]))
    answers("equal marks in the guide, lots exchanged", desk(folder), (0, BEN_PLACED, ""))
    shows(text, BEN_PLACED)
    write(folder, "students.csv", "student,stage,line group\nAnna Berg,1,2\n")
    shows(text, desk(folder)[2])
    write(folder, "students.csv", K_STUDENTS.format(250, 250, 7))
    shows(text, desk(folder)[2])
    for name, data in before.items():
        write(folder, name, data)


def show_reasons(text):
    """The guide's block, its table of reasons, the line on where we stand, and the note."""
    def show(folder, visits, change, names):
        add_visits(folder, visits)
        if change:
            write(folder, change[0], read(folder, change[0]).decode().replace(*change[1:]))
        reason = desk(folder, "why", *names)[1].split("\n")[-2]
        check("the guide shows the reason", f" | {reason} |\n" in text, reason)

    for visits, change, names in REASONS:
        in_new_folder(lambda folder: show(folder, visits, change, names))

    def rest(folder):
        add_visits(folder, K_VISITS[:3])
        shows(text, next(line for line in desk(folder)[1].split("\n") if line.startswith("Stage in hand")))
        add_visits(folder, K_VISITS[3:])
        shows(text, desk(folder, "why", "Ben Olsen", "Dye house")[1])
        shows(text, UNFINISHED[3][3].strip("\n"))

    in_new_folder(rest)


def asked_after(visits):
    """The guide's table of these visits, with what is said after each."""
    said = [f"Next visit: {s} goes to {w}." for s, w, _, _ in visits[1:]] + ["The placement is finished."]
    return "".join(f"\n| {s} | {w} | {a} | {b} | {then} |" for (s, w, a, b), then in zip(visits, said))


def shows(text, printed):
    block = "\n".join("    " + line if line else "" for line in printed.rstrip("\n").split("\n"))
    check("the guide shows what is printed", f"\n\n{block}\n\n" in text, block)


# ---------------------------------------------------------------- visits that end in never

NEVER_VISITS = [("Anna Berg", "Dye house", 5, "never"), ("Anna Berg", "Weaving mill", 2, 4),
                ("Ben Olsen", "Dye house", 3, 2), ("Carla Roth", "Dye house", 2, 5)]
NEVER_BOOK = """
01 00 01 00 05 00 18 fc
01 00 02 00 02 00 04 00
02 00 01 00 03 00 02 00
03 00 01 00 02 00 05 00
"""
NEVER_PLACED = """The placement is finished.

  Anna Berg   Weaving mill
  Ben Olsen   no place
  Carla Roth  Dye house

Dye house, 1 of 1: Carla Roth
Weaving mill, 1 of 1: Anna Berg

Students with a workshop of their first group: 2. Students without a place: 1.
Seats filled: 2 of 2.
Stage in hand: none, all are done. Students settled for good: 3; waiting: 0.
Visits held for it: 4.
Fares of these visits: 730 pence (7.30 pounds).
"""
NEVER_LIST = """
The visits:
  Anna Berg at Dye house (never)
  Anna Berg at Weaving mill
  Ben Olsen at Dye house
  Carla Roth at Dye house
"""

# The guide's reasons: the visits, what is changed in a table, the two names.
REASONS = [
    (K_VISITS, (), ("Anna Berg", "Weaving mill")),
    (K_VISITS, (), ("Ben Olsen", "Weaving mill")),
    (NEVER_VISITS[:1], (), ("Anna Berg", "Dye house")),
    ([("Ben Olsen", "Dye house", -4, 2)], ("pairs.csv", "Ben Olsen,Dye house,1", "Ben Olsen,Dye house,2"), ("Ben Olsen", "Dye house")),
    ([], ("workshops.csv", "Dye house,1", "Dye house,0"), ("Anna Berg", "Dye house")),
    ([], ("pairs.csv", "Anna Berg,Dye house,1,1,240\r\n", ""), ("Anna Berg", "Dye house")),
    (K_VISITS[:3], (), ("Ben Olsen", "Weaving mill")),
]

# The two marks of a visit as they are written, their bytes in the book, and whether it ended in never.
ENDS = [
    ("never", "3", "18 fc 03 00", True),
    ("5", "never", "05 00 18 fc", True),
    (" Never ", "NEVER", "18 fc 18 fc", True),
    ("-1000", "3", "18 fc 03 00", True),
    ("5", "\u22121000", "05 00 18 fc", True),
    ("-999", "3", "19 fc 03 00", False),
    ("5", "-999", "05 00 19 fc", False),
]


def never(folder):
    """The guide's example."""
    hold_visits(folder, "never", NEVER_VISITS)
    answers("never: placed", desk(folder, "--visits"), (0, NEVER_PLACED + NEVER_LIST, ""))
    book = made(folder)[1]
    check("never: book", book == bytes.fromhex(NEVER_BOOK), book.hex(" "))


def ends_of_a_visit(folder):
    """Anna's other workshop of that group is never too, so Ben's first visit tells whether she has the dye house."""
    before = read(folder, "visits.csv")
    for a, b, marks, ended in ENDS:
        write(folder, "visits.csv", before)
        add_visits(folder, [("Anna Berg", "Dye house", a, b), ("Anna Berg", "Weaving mill", "never", "never")])
        status, out, err = desk(folder, "--visits")
        workshop, said = ("Dye house", " (never)") if ended else ("Weaving mill", "")
        check(f"marks {a} and {b}", status == 0 and out.startswith(f"Next visit: Ben Olsen goes to {workshop}.\n")
              and out.endswith(f"\n  Anna Berg at Dye house{said}\n  Anna Berg at Weaving mill (never)\n"), out + err)
        book = made(folder)[1]
        check(f"marks {a} and {b}: book", book == bytes.fromhex(f"01 00 01 00 {marks} 01 00 02 00 18 fc 18 fc"), book.hex(" "))


def nevers_of_a_workshop(folder):
    """The dye house takes none of the three, two of whom are in one group."""
    add_visits(folder, [("Anna Berg", "Dye house", 5, "never"), ("Anna Berg", "Weaving mill", 2, 4),
                        ("Ben Olsen", "Dye house", 3, "never"), ("Carla Roth", "Dye house", 2, "never")])
    status, out, err = desk(folder)
    check("nevers of a workshop", status == 0 and "\n\n  Anna Berg   Weaving mill\n  Ben Olsen   no place\n  Carla Roth  no place\n\n" in out
          and "\nDye house, 0 of 1: nobody\n" in out and out.endswith("\nVisits held for it: 4.\n" + fares_told(730)), out + err)


# ---------------------------------------------------------------- lots

K_NAMES = ("Anna Berg", "Ben Olsen", "Carla Roth")
K_STUDENTS = "student,stage,line group,lot\nAnna Berg,1,2,{}\nBen Olsen,2,2,{}\nCarla Roth,2,2,{}\n"
GUIDE_LOTS = (31, 250, 7)
EQUAL_VISITS = K_VISITS[:3] + [("Carla Roth", "Weaving mill", 4, 1)]    # the mill gives Ben and Carla the same mark
BEN_PLACED = """The placement is finished.

  Anna Berg   Dye house
  Ben Olsen   Weaving mill
  Carla Roth  no place

Dye house, 1 of 1: Anna Berg
Weaving mill, 1 of 1: Ben Olsen

Students with a workshop of their first group: 2. Students without a place: 1.
Seats filled: 2 of 2.
Stage in hand: none, all are done. Students settled for good: 3; waiting: 0.
Visits held for it: 4.
Fares of these visits: 1335 pence (13.35 pounds).
"""
LOTS_WROTE = """
Wrote them in students.csv: {} changed, all else is as it was.
A spreadsheet that still shows students.csv shows the old lots: open the file again there before you change it.
Keep this list: lots are drawn once for a year.
"""
LOTS_THERE = "\nEvery student in students.csv has a lot. Nothing was written.\n"
LOT_TWICE = '{} has the lot {}, and so has {} in row {}. Empty the wrong cell; "python3 desk.py lots" draws another.'
NO_LOT = ('students.csv, row 1: the column "lot" is missing. The headings are student, stage, line group; needed are student, stage, line group, lot.\n'
          '"python3 desk.py lots" adds it and draws a lot for each student.\n')

# Ways to write students.csv without lots, and with the lots 9, 8 and 7 drawn in this order: name, before, after.
LOTS_KEPT = [
    ("a column without lots", "student,stage,line group,lot\nAnna Berg,1,2,\nBen Olsen,2,2, \nCarla Roth,2,2,\n",
     "student,stage,line group,lot\nAnna Berg,1,2,9\nBen Olsen,2,2,8\nCarla Roth,2,2,7\n"),
    ("a lot that is there", "student,stage,line group,lot\nAnna Berg,1,2,\nBen Olsen,2,2, 300\nCarla Roth,2,2,\n",
     "student,stage,line group,lot\nAnna Berg,1,2,9\nBen Olsen,2,2, 300\nCarla Roth,2,2,8\n"),
    ("no column", "student,stage,line group\nAnna Berg,1,2\nBen Olsen,2,2\nCarla Roth,2,2\n",
     "student,stage,line group,lot\nAnna Berg,1,2,9\nBen Olsen,2,2,8\nCarla Roth,2,2,7\n"),
    ("no column, semicolons, CRLF, a byte order mark, no line end", "\ufeffstudent;stage;line group\r\nAnna Berg;1;2\r\nBen Olsen;2;2\r\nCarla Roth;2;2",
     "\ufeffstudent;stage;line group;lot\r\nAnna Berg;1;2;9\r\nBen Olsen;2;2;8\r\nCarla Roth;2;2;7"),
    ("no column, short and long rows, empty rows, quotation marks",
     '"student"\tline group\tstage\t"note, x"\n"Anna Berg"\t2\t1\n\n\t\t\nBen Olsen\t2\t2\t"a\tb\nc"\t\t\r\nCarla Roth\t2\t2\t\n',
     '"student"\tline group\tstage\t"note, x"\tlot\n"Anna Berg"\t2\t1\t\t9\n\n\t\t\nBen Olsen\t2\t2\t"a\tb\nc"\t8\t\r\nCarla Roth\t2\t2\t\t7\n'),
    ("names alone", "note,student\nx,Anna Berg\n,Ben Olsen\n,Carla Roth\n", "note,student,lot\nx,Anna Berg,9\n,Ben Olsen,8\n,Carla Roth,7\n"),
    ("the first column, in quotation marks", '"Lot","student"\n"","Anna Berg"\n"","Ben Olsen"\n" ","Carla Roth"\n',
     '"Lot","student"\n"9","Anna Berg"\n"8","Ben Olsen"\n"7","Carla Roth"\n'),
    ("wrong stages and line groups", "student,stage,line group,lot\nAnna Berg,,x,\nBen Olsen,0,,\nCarla Roth,one,99,\n",
     "student,stage,line group,lot\nAnna Berg,,x,9\nBen Olsen,0,,8\nCarla Roth,one,99,7\n"),
]

# Lots that are refused, by every command: the three cells, and the messages without the file's name.
WRONG_LOTS = [
    (("1", "0", "3"), ['row 3, column "lot": "0" is there; it must be a whole number from 1 to 512.']),
    (("513", "2", "-3"), ['row 2, column "lot": "513" is there; it must be a whole number from 1 to 512.',
                          'row 4, column "lot": "-3" is there; it must be a whole number from 1 to 512.']),
    (("1", "two", "2.5"), ['row 3, column "lot": "two" is there; it must be a whole number from 1 to 512.',
                           'row 4, column "lot": "2.5" is there; it must be a whole number from 1 to 512.']),
    (("5", "6", "05"), ['row 4, column "lot": ' + LOT_TWICE.format("Carla Roth", 5, "Anna Berg", 2)]),
    (("7", "7", "7"), ['row 3, column "lot": ' + LOT_TWICE.format("Ben Olsen", 7, "Anna Berg", 2),
                       'row 4, column "lot": ' + LOT_TWICE.format("Carla Roth", 7, "Anna Berg", 2)]),
    (("0", "0", "never"), ['row 2, column "lot": "0" is there; it must be a whole number from 1 to 512.',
                           'row 3, column "lot": "0" is there; it must be a whole number from 1 to 512.',
                           'row 4, column "lot": "never" is there; it must be a whole number from 1 to 512.']),
]


def drawing(lots, folder):
    """`desk.py lots`, which draws these: only the chance is taken away."""
    return InProcess().run(folder, "lots", draw_lots=lambda count, used=(): list(lots[:count]))


def lots_in(folder, comma=","):
    """The lots in students.csv, whose column is the last one; None for an empty cell."""
    rows = read(folder, "students.csv").decode("utf-8-sig").split("\n")[1:-1]
    cells = [row.rsplit(comma, 1)[1].strip() for row in rows]
    return [int(cell) if cell else None for cell in cells]


def are_lots(lots, count):
    return len(lots) == count == len(set(lots)) and all(1 <= lot <= 512 for lot in lots)


def lots_of_new():
    """Lots of the example are drawn, and the rest of it is the same each time."""
    drawn = []
    for options in ((), ("--semicolon",)) * 4:
        files, lots = new_files(*options)
        drawn.append(tuple(lots))
        check("new: lots", are_lots(lots, 3), str(lots))
        check("new: all else", {name: data.replace(b";", b",") for name, data in files.items()} == NEW_FILES, str(files))
    check("new: other lots each time", len(set(drawn)) > 1, str(drawn))


def draws():
    """All of 1 to 512 can be drawn, about as often; none that is used; and a student who draws later comes first about as often as others."""
    draw = InProcess().module.draw_lots
    check("draw all", are_lots(draw(512), 512))
    check("draw the last one", draw(1, set(range(1, 513)) - {77}) == [77] and draw(0, set(range(1, 513))) == [] and draw(0) == [])
    check("a lot of None is not used", are_lots(draw(512, {None}), 512))
    rest = draw(256, set(range(1, 513, 2)))
    check("draw the rest", sorted(rest) == list(range(2, 513, 2)) and rest != sorted(rest))
    count = [0] * 513
    for lot in (lot for _ in range(2000) for lot in draw(64)):
        count[lot] += 1
    check("every lot is drawn", min(count[1:]) > 150 and max(count) < 350, str(count))
    lower = sum(draw(1, set(first))[0] < min(first) for first in (draw(3) for _ in range(4000)))
    check("who draws later", 850 < lower < 1150, str(lower))


def lots_drawn(folder):
    """A lot for each, kept the second time; further students get one, and nobody else's changes."""
    write(folder, "students.csv", K_STUDENTS.format("", "", ""))
    others = {name: data for name, data in read_all(folder).items() if name != "students.csv"}
    status, out, err = desk(folder, "lots")
    first = lots_in(folder)
    listed = "".join(f"  {lot:3}  {name} (drawn)\n" for lot, name in sorted(zip(first, K_NAMES)))
    answers("lots", (status, out, err), (0, "The lots, the lowest first:\n" + listed + LOTS_WROTE.format("3 cells"), ""))
    check("lots: drawn", are_lots(first, 3) and read(folder, "students.csv") == K_STUDENTS.format(*first).encode(), str(first))
    answers("lots again", desk(folder, "lots"), (0, "The lots, the lowest first:\n" + listed.replace(" (drawn)", "") + LOTS_THERE, ""))
    check("lots again: kept", lots_in(folder) == first)
    check("lots: the year can begin", desk(folder)[1].startswith("Next visit: Anna Berg goes to Dye house.\n"), str(desk(folder)))
    check("lots in the case", [struct.unpack_from("<H", made(folder)[0], 16 * n + 8)[0] for n in range(3)] == first)
    add(folder, "students.csv", "Dora Lund,1,2,\n")
    status, out, err = desk(folder, "lots")
    check("a lot more", status == 0 and LOTS_WROTE.format("1 cell") in out and out.count("(drawn)") == 1 and "  Dora Lund (drawn)\n" in out, out + err)
    check("a lot more: the others'", are_lots(lots_in(folder), 4) and lots_in(folder)[:3] == first, str(lots_in(folder)))
    check("lots: other files", all(read(folder, name) == data for name, data in others.items()))


def lots_of_many(folder):
    """512 students use every lot. Where some have one already, the rest is drawn."""
    draw = random.Random(7)
    for kept in (0, 1, 300, 511):
        have = dict(zip(draw.sample(range(512), kept), draw.sample(range(1, 513), kept)))
        write(folder, "students.csv", "student,lot\n" + "".join(f"S{n},{have.get(n, '')}\n" for n in range(512)))
        status, out, err = desk(folder, "lots")
        found = lots_in(folder)
        check(f"512 students, {kept} with lots", status == 0 and sorted(found) == list(range(1, 513)) and found != sorted(found), out[-300:] + err)
        check(f"512 students, {kept} with lots: kept", all(found[n] == lot for n, lot in have.items()))
        before = read_all(folder)
        check(f"512 students, {kept} with lots: again", desk(folder, "lots")[1].endswith(LOTS_THERE) and read_all(folder) == before)
    write(folder, "students.csv", "student,lot\n" + "".join(f"S{n},\n" for n in range(513)))
    answers("lots for 513 students", desk(folder, "lots"), (1, "", f"students.csv, row 514: there are 513 rows; 512 is the most.{END}"))


def lots_kept(folder):
    """Nothing but the lots changes, whatever the table looks like; only names are needed in it."""
    for name in ("workshops.csv", "pairs.csv", "visits.csv"):
        os.remove(os.path.join(folder, name))
    for name, before, after in LOTS_KEPT:
        write(folder, "students.csv", before)
        status, out, err = drawing([9, 8, 7], folder)
        there = read(folder, "students.csv")
        check(f"{name}: lots", status == 0 and there == after.encode(), f"{there}\nwanted {after.encode()}\n{err}")
        check(f"{name}: told", ('students.csv: the column "lot" was added, ' in out) == ("lot" not in before.lower()) and " (drawn)\n" in out, out)
        status, out, err = desk(folder, "lots")
        check(f"{name}: the second time", status == 0 and out.endswith(LOTS_THERE) and read(folder, "students.csv") == after.encode(), out + err)


def wrong_lots(folder):
    """Lots that are missing, no numbers, out of range or used twice: told by each command, and nothing is written."""
    for cells, messages in WRONG_LOTS:
        write(folder, "students.csv", K_STUDENTS.format(*cells))
        refused_everywhere(folder, f"lots {cells}", "".join(f"students.csv, {message}\n" for message in messages)[:-1] + END)
    write(folder, "students.csv", K_STUDENTS.format("4", "", "4"))
    twice = 'students.csv, row 4, column "lot": ' + LOT_TWICE.format("Carla Roth", 4, "Anna Berg", 2) + END
    empty = 'students.csv, row 3, column "lot": the cell is empty; it must be a whole number from 1 to 512. "python3 desk.py lots" draws it.\n'
    refused_everywhere(folder, "a lot missing and a lot twice", empty + twice, lots=twice)
    write(folder, "students.csv", "student,stage,line group\nAnna Berg,1,2\n")
    for words in ((), ("stages",)):
        answers(f"no lots {words}", desk(folder, *words), (1, "", NO_LOT))
    for name, content, message in (
            ("the column twice", "student,lot,lot\nAnna Berg,1,\n",
             'students.csv, row 1: the column "lot" is there twice. The headings are student, lot, lot; needed are student, stage, line group, lot.\n'),
            ("no names", "stage,lot\n1,\n",
             'students.csv, row 1: the column "student" is missing. The headings are stage, lot; needed are student, stage, line group, lot.\n'),
            ("a name twice", "student,lot\nAnna,\n\nAnna,\n", 'students.csv, row 4, column "student": "Anna" stands in row 2 already. '
             f"Two of the same name need something to tell them apart.{END}"),
            ("a cell too many", "student,lot\nAnna,1,2\n",
             f"students.csv, row 2: there are more cells than headings. A name with a comma or semicolon in it needs quotation marks around it.{END}"),
            ("nobody", "student,lot\n", f'students.csv, row 2, column "student": there is nobody. At least one row is needed below the headings.{END}')):
        write(folder, "students.csv", content)
        answers(f"lots, {name}", desk(folder, "lots"), (1, "", message))
        check(f"lots, {name}: nothing is written", read(folder, "students.csv") == content.encode())


def refused_everywhere(folder, name, message, lots=None):
    before = read_all(folder)
    for words in ((), ("stages",), ("lots",)):
        answers(f"{name} {words}", desk(folder, *words), (1, "", lots if lots and words == ("lots",) else message))
    check(f"{name}: nothing is written", read_all(folder) == before)


def writing_lots(folder):
    """A spreadsheet that is open, a protected file, no room; a lot is never told that is not written."""
    blank, lock, path = K_STUDENTS.format("", "", ""), ".~lock.students.csv#", os.path.join(folder, "students.csv")
    write(folder, "students.csv", blank)
    write(folder, lock, "")
    answers("lots, open in a spreadsheet", desk(folder, "lots"), (1, "", OPEN))
    os.remove(os.path.join(folder, lock))
    small_files = lambda: resource.setrlimit(resource.RLIMIT_FSIZE, (50, 50))
    answers("lots, no room", desk(folder, "lots", first=small_files), (1, "", "students.csv cannot be written in this folder: File too large.\n"))
    os.chmod(path, 0o444)
    answers("lots, a protected file", desk(folder, "lots"), (1, "", "students.csv is protected against writing. Nothing was written.\n"))
    check("lots: nothing is written", read(folder, "students.csv") == blank.encode() and len(os.listdir(folder)) == 4, str(os.listdir(folder)))
    os.chmod(path, 0o640)
    check("lots: written", desk(folder, "lots")[0] == 0 and are_lots(lots_in(folder), 3) and stat.S_IMODE(os.stat(path).st_mode) == 0o640)


# Marks of a workshop that are equal: name, the three lots, the visits, and the workshop of each student ("" for no place).
EQUAL = [
    ("the lots as the numbers", (1, 2, 3), EQUAL_VISITS, ("Dye house", "Weaving mill", "")),
    ("the lots exchanged", (1, 3, 2), EQUAL_VISITS, ("Dye house", "", "Weaving mill")),
    ("gaps between the lots", (500, 256, 255), EQUAL_VISITS, ("Dye house", "", "Weaving mill")),
    ("the lowest lot without a part in it", (1, 511, 512), EQUAL_VISITS, ("Dye house", "Weaving mill", "")),
    ("a better mark with a higher lot", (1, 2, 3), K_VISITS, ("Dye house", "", "Weaving mill")),
    ("a better group with a higher lot", (3, 1, 2), [(s, w, a, 3) for s, w, a, _ in K_VISITS], ("Dye house", "Weaving mill", "")),
]


def equal_marks(folder):
    """A workshop's equal marks in one group are accepted, in any order of the rows, and the lower lot has the seat."""
    before = read(folder, "visits.csv")
    for name, lots, visits, places in EQUAL:
        write(folder, "students.csv", K_STUDENTS.format(*lots))
        for rows in (visits, visits[::-1]):
            write(folder, "visits.csv", before)
            add_visits(folder, rows)
            status, out, err = desk(folder)
            wanted = "".join(f"  {student:10}  {place or 'no place'}\n" for student, place in zip(K_NAMES, places))
            check(f"equal marks, {name}", status == 0 and out.startswith(f"The placement is finished.\n\n{wanted}\n"), out + err)
    write(folder, "visits.csv", before)
    write(folder, "students.csv", K_STUDENTS.format(*GUIDE_LOTS))
    hold_visits(folder, "equal marks", EQUAL_VISITS)
    answers("equal marks held one after the other", desk(folder), (0, K_PLACED, ""))


# ---------------------------------------------------------------- fares

FARE_HEAD = "student,workshop,group from student,group from workshop,fare\n"

# The fares of K's pairs as they are written, and as numbers.
FARES = [
    (K_FARES, K_FARES),
    ((" 1 ", "+2", "0004", "8", '"16"', "32"), (1, 2, 4, 8, 16, 32)),
    (("65535",) * 6, (65535,) * 6),
    (("0",) * 6, (0,) * 6),
    (("255", "256", "65535", "1", "65535", "99"), (255, 256, 65535, 1, 65535, 99)),
]


def fields(case, at):
    """The fields at these bytes of the records of K's pairs."""
    return tuple(struct.unpack_from("<H", case, 16 * record + at)[0] for record in range(5, 11))


def answer_told(folder, name):
    """The answer in two parts: all but the fares, and the line with them."""
    status, out, err = desk(folder)
    lines = out.splitlines(keepends=True)
    told = [line for line in lines if line.startswith("Fares")]
    check(f"{name}: one line tells the fares", status == 0 and len(told) == 1, out + err)
    return "".join(line for line in lines if line not in told), told


def fares(folder):
    """After every visit the total is that of the visits called for, and nothing else changes with the fares; so without them."""
    head = read(folder, "visits.csv")
    others = [("Carla Roth", "Dye house", 7, 7), ("Ben Olsen", "Dye house", 7, 8)]    # visits that are not called for
    for held in (0, 1, 3, 4):
        write(folder, "visits.csv", head)
        add_visits(folder, others[:held % 3] + K_VISITS[:held])
        write(folder, "pairs.csv", pairs("".join(f"{s},{w},{both}\n" for (s, w), both in zip(K_PAIRS, K_GROUPS))))
        without, told = answer_told(folder, "no fares")
        case = made(folder)[0]
        check("no fares are told", told == [NO_FARES], str(told))
        check("no fares in the case", fields(case, 10) == (0,) * 6, case.hex(" "))
        for cells, numbers in FARES:
            write(folder, "pairs.csv", FARE_HEAD + "".join(f"{s},{w},{both},{cell}\n" for (s, w), both, cell in zip(K_PAIRS, K_GROUPS, cells)))
            rest, told = answer_told(folder, f"fares {cells}")
            check(f"fares {cells}, {held} visits", told == [fares_told(cost((visit[:2] for visit in K_VISITS[:held]), numbers))], str(told))
            check(f"fares {cells}, {held} visits: the answer", rest == without, rest)
            there = made(folder)[0]
            check(f"fares {cells} in the case", fields(there, 10) == numbers and len(there) == len(case)
                  and all(there[at] == case[at] for at in range(len(case)) if at < 80 or at % 16 not in (10, 11)), there.hex(" "))


def fares_column(folder):
    """The column at another place, its heading in capitals, and another column that only looks like it; no pairs at all; a wrong fare with `stages`."""
    write(folder, "pairs.csv", "FARE;note;student;Fares;workshop;group from student;group from workshop\n"
          "240;;Anna Berg;x;Dye house;1;1\n65535;a;Ben Olsen;7;Dye house;1;2\n")
    case = made(folder)[0]
    check("the column first", fields(case + bytes(64), 10) == (240, 65535, 0, 0, 0, 0), case.hex(" "))
    write(folder, "pairs.csv", FARE_HEAD.replace("fare", "fares") + "Anna Berg,Dye house,1,1,240\n")
    check("another column is not read", answer_told(folder, "another column")[1] == [NO_FARES] and made(folder)[0][-6:] == bytes(6))
    write(folder, "pairs.csv", FARE_HEAD)
    rest, told = answer_told(folder, "no pairs")
    check("no pairs", "Visits held for it: 0.\n" in rest and told == [NO_FARES], rest)
    write(folder, "students.csv", students("Anna Berg,,2\nBen Olsen,,2\nCarla Roth,,2\n"))
    write(folder, "pairs.csv", FARE_HEAD + "Anna Berg,Dye house,1,1,\n")
    before = read_all(folder)
    answers("stages, an empty fare", desk(folder, "stages"),
            (1, "", f'pairs.csv, row 2, column "fare": the cell is empty; {FARE} Write 0 where there is nothing to pay.{END}'))
    check("stages, an empty fare: nothing is written", read_all(folder) == before)


# ---------------------------------------------------------------- other ways to write the tables, other years


def other_spellings(folder):
    """Semicolons, quotes, no byte order mark, other column order, other columns, empty rows, blanks, rows in any order."""
    write(folder, "students.csv", 'LOT;"Stage";"STUDENT";phone;"Line group"\n1;1;"Anna  Berg";;2\n+2;2; Ben Olsen ;7;2\n\n"03";"2";"Carla Roth";"8";"2"\n;;;\n')
    pairs = read(folder, "pairs.csv").decode("utf-8-sig").split("\r\n")
    write(folder, "pairs.csv", "\n".join([pairs[0]] + pairs[:0:-1]))
    write(folder, "visits.csv", "student\tworkshop\tmark from student\tmark from workshop\n"
          + "".join(f"{s}\t{w}\t{a}\t{b}\n" for s, w, a, b in K_VISITS).replace("-", "\u2212") + "Ben Olsen\tDye house\t\t\n")
    status, out, err = desk(folder)
    answers("other spellings", (status, out, err), (0, K_PLACED, ""))
    check("other spellings: case and book", made(folder) == (bytes.fromhex(K_CASE), bytes.fromhex(K_BOOK)))


def accents(folder):
    """A letter with its accent as one sign in one file and as two in another."""
    for name in ("students.csv", "pairs.csv"):
        write(folder, name, read(folder, name).decode().replace("Anna Berg", "\u00c5se" if name == "pairs.csv" else "A\u030ase"))
    status, out, err = desk(folder)
    check("accents", out.startswith("Next visit: \u00c5se goes to Dye house.\n"), out + err)


def planned_row(folder):
    add(folder, "visits.csv", "Carla Roth,Dye house,,\r\nAnna Berg,Dye house,,\r\n")
    status, out, err = desk(folder)
    check("a planned row", "write both marks in visits.csv, row 3, save" in out, out + err)
    check("planned rows are not in the book", made(folder)[1] == b"")


def unused_visit(folder):
    add_visits(folder, [("Carla Roth", "Dye house", 7, 7)])
    status, out, err = desk(folder)
    check("a visit not called for", f"Visits so far: 0.\n{fares_told(0)}Other visits in visits.csv, not called for so far: 1.\n" in out, out + err)


WORKS_OUT = '"python3 desk.py stages" works out stages that agree, if there are any.\n'


def stages_note(folder):
    write(folder, "students.csv", students("Anna Berg,2,2\nBen Olsen,1,2\nCarla Roth,1,2\n"))
    status, out, err = desk(folder)
    check("a note on the stages", "  Dye house: Anna Berg and Ben Olsen\n  Weaving mill: Anna Berg and Ben Olsen\n" + WORKS_OUT in out, out + err)
    desk(folder, "stages")
    check("no note on stages worked out", desk(folder)[1].endswith("Visits so far: 0.\n" + fares_told(0)), desk(folder)[1])


def withdrawal(folder):
    """Ben leaves: his rows go. The others' visits stay as they are, and Carla has another number."""
    add_visits(folder, K_VISITS)
    desk(folder)
    for name in ("students.csv", "pairs.csv", "visits.csv"):
        lines = read(folder, name).decode().split("\r\n")
        write(folder, name, "\r\n".join(line for line in lines if "Ben Olsen" not in line))
    status, out, err = desk(folder)
    check("a student withdrawn", "  Anna Berg   Dye house\n  Carla Roth  Weaving mill\n" in out
          and "Visits held for it: 3.\n" + fares_told(915) in out, out + err)
    case, book = made(folder)
    check("without gaps", book[-8:] == bytes.fromhex("02 00 02 00 04 00 06 00"))
    check("with her lot", case[16:32] == bytes.fromhex("01 00 02 00 02 00 02 00 03 00 00 00 00 00 00 00"))
    write(folder, "workshops.csv", "workshop,quota,line group\nDye house,0,3\nWeaving mill,1,3\n")
    status, out, err = desk(folder)
    check("a workshop with quota 0", "  Anna Berg   Weaving mill\n  Carla Roth  no place\n" in out, out + err)


# ---------------------------------------------------------------- years of 100 students and 20 workshops

# Who says never, and how it is written.
NEVER_MARKS = [("never", ""), ("", "never"), ("-1000", "Never")]


class HiddenYear:
    """Full orders that nobody sees but through groups, marks and lots. `None` is no place. `share` is how many of the pairs are never; with `equal`
    the workshops have few marks, and give the same to many. Pairs have fares up to `most_fare`; with None their table has no such column."""

    def __init__(self, seed, share, stages=3, met=0.5, students=100, workshops=20, equal=False, most_fare=999):
        draw = random.Random(seed)
        self.stage = {f'Berg, Åse "{n}"' if n % 7 == 0 else f"Student {n}": draw.randint(1, stages) for n in range(1, students + 1)}
        self.quota = {f"Werkstatt; {n}" if n % 5 == 0 else f"Workshop {n}": draw.randint(0, 7) for n in range(1, workshops + 1)}
        self.couples = {(s, w): None for s in self.stage for w in self.quota if draw.random() < met}
        self.lot = dict(zip(self.stage, random.Random(f"lots {seed}").sample(range(1, 513), students)))
        fare = random.Random(f"fares {seed}")
        self.fare = None if most_fare is None else {couple: fare.randint(0, most_fare) for couple in self.couples}
        self.given, self.group, self.line = {}, {}, {}
        for s in self.stage:
            self.rank(draw, s, [w for w in self.quota if (s, w) in self.couples], lambda w: draw.randint(1, 4), draw.randint(2, 5))
        for w in self.quota:
            self.rank(draw, w, [s for s in self.stage if (s, w) in self.couples], lambda s: self.stage[s], draw.randint(stages, stages + 1), 30 if equal else 1)
        self.order = self.orders()
        self.couples = list(self.couples)
        draw.shuffle(self.couples)
        self.never = {couple: draw.choice(NEVER_MARKS) for couple in self.couples if draw.random() < share}

    def rank(self, draw, who, options, group_of, line, step=1):
        """Groups and marks for all options. Higher is better, and 0 is where None stands; `step` marks that follow each other become one."""
        self.line[who] = line
        for other in options:
            self.group[who, other] = group_of(other)
        all_options = options + [None]
        draw.shuffle(all_options)
        for at, other in enumerate(all_options):
            mark = 3 * (all_options.index(None) - at)
            self.given[who, other] = -(-mark // step) if mark > 0 else mark // step

    def orders(self):
        """By group, then by mark, and then by the lower lot, which only students have."""
        order = {}
        for who, other in self.given:
            order.setdefault(who, []).append(other)
        group = lambda who, other: self.line[who] if other is None else self.group[who, other]
        key = lambda who: lambda other: (group(who, other), -self.given[who, other], self.lot.get(other, 0))
        return {who: sorted(others, key=key(who)) for who, others in order.items()}

    def tables(self):
        """The groups that count for the stages: of each workshop with quota above 0, for those not above its line group."""
        return [{s: self.group[w, s] for s in self.stage if (s, w) in self.couples and self.group[w, s] <= self.line[w]} for w in self.quota if self.quota[w]]

    def marks(self, s, w):
        """What is written after their visit: each mark, or never instead."""
        return [never or self.given[who] for never, who in zip(self.never.get((s, w), ("", "")), ((s, w), (w, s)))]

    def fares(self, couples):
        """What is said of the fares of these visits."""
        return NO_FARES if self.fare is None else fares_told(sum(self.fare[couple] for couple in couples))

    def prefers(self, who, one, two):
        return self.order[who].index(one) < self.order[who].index(two)

    def possible(self, s, w):
        """Acceptable to both; a never pair is acceptable to neither."""
        return (s, w) not in self.never and self.prefers(s, w, None) and self.prefers(w, s, None)

    def stable(self, place):
        """Nobody has too many, all are acceptable, and no two would rather have each other."""
        held = {w: [s for s in self.stage if place[s] == w] for w in self.quota}
        fits = all(len(held[w]) <= self.quota[w] for w in self.quota)
        willing = all(place[s] is None or self.possible(s, place[s]) for s in self.stage)
        return fits and willing and not any(self.blocks(s, w, place, held) for s, w in self.couples)

    def blocks(self, s, w, place, held):
        wants = self.prefers(s, w, place[s]) and self.possible(s, w)
        return wants and (len(held[w]) < self.quota[w] or any(self.prefers(w, s, other) for other in held[w]))

    def best_for_students(self):
        """Students apply where it is possible, from the top of their orders; workshops keep the best."""
        place, left, hand = {s: None for s in self.stage}, {s: iter(self.order[s]) for s in self.stage}, list(self.stage)
        while hand:
            s = hand.pop()
            w = place[s] = next(w for w in left[s] if w is None or self.possible(s, w))
            if w is None:
                continue
            held = sorted((t for t in self.stage if place[t] == w), key=self.order[w].index)
            for t in held[self.quota[w]:]:
                place[t] = None
                hand.append(t)
        return place


def csv_text(rows):
    text = io.StringIO()
    csv.writer(text, delimiter=";").writerows(rows)
    return text.getvalue()


def write_students(folder, year, stage):
    write(folder, "students.csv", "\ufeff" + csv_text([("student", "stage", "line group", "lot")]
                                                       + [(s, stage[s], year.line[s], year.lot[s]) for s in year.stage]))


def write_year(folder, year):
    write_students(folder, year, year.stage)
    write(folder, "workshops.csv", csv_text([("workshop", "quota", "line group")] + [(w, n, year.line[w]) for w, n in year.quota.items()]))
    rows = [(s, w, year.group[s, w], year.group[w, s]) for s, w in year.couples]
    head = pairs("") if year.fare is None else FARE_HEAD
    rows = rows if year.fare is None else [(*row, year.fare[row[:2]]) for row in rows]
    write(folder, "pairs.csv", head.replace(",", ";") + csv_text(rows))
    write(folder, "visits.csv", csv_text([("student", "workshop", "mark from student", "mark from workshop")]))


def asked_for(out, year):
    """The pair in the line 'Next visit: ..'."""
    line = out.split("\n", 1)[0]
    return next(((s, w) for s, w in year.couples if line == f"Next visit: {s} goes to {w}."), None)


def placed_by(out, year):
    """The placement in the lines between the two first empty ones."""
    rows = out.split("\n\n")[1].split("\n")
    places = {}
    for (s, row) in zip(year.stage, rows):
        w = row[2:].replace(s, "", 1).strip()
        places[s] = w if w in year.quota else None
    return places if len(rows) == len(year.stage) else None


def drive(desk_once, folder, year):
    """Holds visit after visit until the placement comes. The placement, and the visits; after each the fares are those of the visits held."""
    held = set()
    while True:
        status, out, err = desk_once(folder)
        if year.fares(held) not in out:
            return out + err, None
        if status == 0 and out.startswith("The placement is finished.\n"):
            return out, held
        couple = asked_for(out, year)
        if couple is None or couple in held or not stands(year, held, couple, out):
            return out + err, None
        held.add(couple)
        add(folder, "visits.csv", csv_text([(*couple, *year.marks(*couple))]))


def whole_year(seed, share, prepare=lambda folder, year: None, students=100, **shape):
    year = HiddenYear(seed, share, students=students, **shape)
    with tempfile.TemporaryDirectory() as folder:
        write_year(folder, year)
        prepare(folder, year)
        out, held = drive(InProcess().run, folder, year)
        check(f"year {seed} ends", held is not None, out)
        if held is None:
            return
        place = placed_by(out, year)
        check(f"year {seed} is stable", year.stable(place), out)
        check(f"year {seed} is the best for the students", place == year.best_for_students(), out)
        check(f"year {seed} is summed up", summary(year, place) in out, out)
        check(f"year {seed}: whether lots decide", students < 100 or lots_decide(year) == shape.get("equal", False))
        check(f"year {seed} holds only visits that were called for", f"Visits held for it: {len(held)}.\n" in out, out)
        check(f"year {seed}: the stages agree", "Note" not in out, out)
        status, again, err = desk(folder)
        check(f"year {seed} as a command", (status, again, err) == (0, out, ""), again + err)
        ended = [f"  {s} at {w} (never)" for s, w in held if (s, w) in year.never]
        listed = desk(folder, "--visits")[1].split("\nThe visits:\n")[1].splitlines()
        check(f"year {seed} tells what ended in never", sorted(line for line in listed if "never" in line) == sorted(ended), str(listed))
        names = {f"  {s} at {w}": (s, w) for s, w in year.couples}
        check(f"year {seed} tells the fares of the visits listed", year.fares([names[line.replace(" (never)", "")] for line in listed]) in out, out)
        met = {year.never[couple] for couple in held if couple in year.never}
        check(f"year {seed} meets all kinds of never", students < 100 or len(met) == (len(NEVER_MARKS) if share else 0), str(met))
        print(f"year {seed}: {len(held)} of {len(year.couples)} pairs visited, {len(ended)} ended in never, "
              f"{sum(w is not None for w in place.values())} of {len(place)} placed. {year.fares(held)}", end="")


def lots_decide(year):
    """With the lots the other way round another placement is the best."""
    before, year.lot = year.best_for_students(), {s: 513 - lot for s, lot in year.lot.items()}
    year.order = year.orders()
    return year.best_for_students() != before


class InProcess:
    """desk.py without a new Python for each visit."""

    def __init__(self):
        sys.path.insert(0, os.path.dirname(DESK))
        sys.dont_write_bytecode = True
        import desk as module
        self.module = module

    def run(self, folder, command="answer", **settings):
        """With other values for names of desk.py; that a table was written just now is fine unless they say otherwise. `command` may be a function that
        takes the module."""
        before, names = os.getcwd(), dict(vars(self.module))
        os.chdir(folder)
        vars(self.module).update({"AT_REST": 0, **settings})
        try:
            commands = {"answer": lambda: self.module.answer(False, None), "stages": self.module.work_out_stages, "lots": self.module.fill_in_lots,
                        "new": lambda: self.module.new(False)}
            lines = commands[command]() if command in commands else command(self.module)
            return 0, "\n".join(lines) + "\n", ""
        except self.module.Stop as stop:
            return 1, "", str(stop)
        finally:
            os.chdir(before)
            vars(self.module).clear()
            vars(self.module).update(names)


# ---------------------------------------------------------------- wrong inputs

END = "\nNothing was written. Correct this and run desk.py again.\n"
VISIT_HEAD = "student,workshop,mark from student,mark from workshop\n"
RANGE = "it must be a whole number from"
MISSING = "this mark is missing and the other is there. Fill in both, or none while the visit is not held."
FARE = "it must be a whole number of pence from 0 to 65535."
PAIR_HEADINGS = "student, workshop, group from student, group from workshop, fare (may be left out)"
MARK = f"{RANGE} -1000 to 1000, and not 0, or the word never."


def students(rows):
    """A table of these rows, each with a lot, from 1 up."""
    lots = iter(range(1, 1000))
    return "student,stage,line group,lot\n" + "".join(f"{row},{next(lots)}\n" if row else "\n" for row in rows.split("\n")[:-1])


def pairs(rows):
    return "student,workshop,group from student,group from workshop\n" + rows


# Name, file, its content, the message.
WRONG = [
    ("not UTF-8", "students.csv", students("Anna,1,2\n").encode() + b"J\xf6rg,1,2,2\n",
     'students.csv, row 3: a letter is not stored as UTF-8. Save the file again as "CSV UTF-8".\n'),
    ("an empty file", "students.csv", "", "students.csv, row 1: the headings are missing: student, stage, line group, lot.\n"),
    ("a heading missing", "students.csv", "student;line group;lot\nAnna;2;1\n",
     'students.csv, row 1: the column "stage" is missing. The headings are student, line group, lot; needed are student, stage, line group, lot.\n'),
    ("a heading twice", "students.csv", "student,stage,stage,line group,lot\nAnna,1,1,2,1\n",
     'students.csv, row 1: the column "stage" is there twice. The headings are student, stage, stage, line group, lot; '
     "needed are student, stage, line group, lot.\n"),
    ("no lots", "students.csv", "student,stage,line group\nAnna,1,2\n", NO_LOT),
    ("an empty lot", "students.csv", K_STUDENTS.format(1, "", 3),
     f'students.csv, row 3, column "lot": the cell is empty; {RANGE} 1 to 512. "python3 desk.py lots" draws it.{END}'),
    ("a lot of 513 and a lot twice", "students.csv", K_STUDENTS.format(2, 513, 2),
     f'students.csv, row 3, column "lot": "513" is there; {RANGE} 1 to 512.\n'
     f'students.csv, row 4, column "lot": {LOT_TWICE.format("Carla Roth", 2, "Anna Berg", 2)}{END}'),
    ("an empty cell", "students.csv", students("Anna,,2\n"),
     f'students.csv, row 2, column "stage": the cell is empty; {RANGE} 1 to 512. "python3 desk.py stages" works it out.{END}'),
    ("a stage of 0", "students.csv", students("Anna,0,2\n"), f'students.csv, row 2, column "stage": "0" is there; {RANGE} 1 to 512.{END}'),
    ("a word for a number", "students.csv", students("Anna,1,two\n"),
     f'students.csv, row 2, column "line group": "two" is there; {RANGE} 1 to 65.{END}'),
    ("two wrong rows", "students.csv", students("Anna,1.5,2\n\nBen,1,99999999999\n"),
     f'students.csv, row 2, column "stage": "1.5" is there; {RANGE} 1 to 512.\n'
     f'students.csv, row 4, column "line group": "99999999999" is there; {RANGE} 1 to 65.{END}'),
    ("no name", "students.csv", students(",1,2\n"), f'students.csv, row 2, column "student": the name is missing.{END}'),
    ("a name twice", "students.csv", students("Anna,1,2\nBen,1,2\nAnna ,1,2\n"),
     f'students.csv, row 4, column "student": "Anna" stands in row 2 already. Two of the same name need something to tell them apart.{END}'),
    ("no students", "students.csv", students(""),
     f'students.csv, row 2, column "student": there is nobody. At least one row is needed below the headings.{END}'),
    ("513 students", "students.csv", students("".join(f"S{n},1,2\n" for n in range(513))),
     f'students.csv, row 514: there are 513 rows; 512 is the most.\nstudents.csv, row 514, column "lot": "513" is there; {RANGE} 1 to 512.{END}'),
    ("65 workshops", "workshops.csv", "workshop,quota,line group\n" + "".join(f"W{n},1,2\n" for n in range(65)),
     f"workshops.csv, row 66: there are 65 rows; 64 is the most.{END}"),
    ("a quota of 513", "workshops.csv", "workshop,quota,line group\nDye house,513,3\n",
     f'workshops.csv, row 2, column "quota": "513" is there; {RANGE} 0 to 512.{END}'),
    ("a name with a comma", "students.csv", students("Berg, Anna,1,2\n"),
     f"students.csv, row 2: there are more cells than headings. A name with a comma or semicolon in it needs quotation marks around it.{END}"),
    ("an open quotation mark", "pairs.csv", pairs('Anna Berg,Dye house,1,1\n"Ben Olsen,Dye house,1,2\n'),
     "pairs.csv, row 3: a quotation mark is opened and not closed, or stands inside a cell.\n"),
    ("a name that is not there", "pairs.csv", pairs("Ana Berg,dye house,1,1\nZoe,Dye house,1,1\n"),
     'pairs.csv, row 2, column "student": there is no "Ana Berg" in students.csv. Did you mean "Anna Berg"?\n'
     'pairs.csv, row 2, column "workshop": there is no "dye house" in workshops.csv. Did you mean "Dye house"?\n'
     f'pairs.csv, row 3, column "student": there is no "Zoe" in students.csv.{END}'),
    ("wrong rows in their order", "pairs.csv", pairs("Anna Berg,Dye house,1,two\nAnna Berg,Dye house,1,1\nBen,Dye house,0,1\n"),
     f'pairs.csv, row 2, column "group from workshop": "two" is there; {RANGE} 1 to 513.\n'
     "pairs.csv, row 3: Anna Berg and Dye house stand in row 2 already.\n"
     'pairs.csv, row 4, column "student": there is no "Ben" in students.csv.\n'
     f'pairs.csv, row 4, column "group from student": "0" is there; {RANGE} 1 to 65.{END}'),
    ("many wrong rows", "students.csv", students("".join(f"S{n},0,1\n" for n in range(25))),
     "".join(f'students.csv, row {n + 2}, column "stage": "0" is there; {RANGE} 1 to 512.\n' for n in range(20)) + f"and 5 more.{END}"),
    ("a pair twice", "pairs.csv", pairs("Anna Berg,Dye house,1,1\nBen Olsen,Dye house,1,1\nAnna Berg,Dye house,2,1\n"),
     f"pairs.csv, row 4: Anna Berg and Dye house stand in row 2 already.{END}"),
    ("a group of 66", "pairs.csv", pairs("Anna Berg,Dye house,66,1\n"),
     f'pairs.csv, row 2, column "group from student": "66" is there; {RANGE} 1 to 65.{END}'),
    ("a group of 514", "pairs.csv", pairs("Anna Berg,Dye house,65,514\n"),
     f'pairs.csv, row 2, column "group from workshop": "514" is there; {RANGE} 1 to 513.{END}'),
    ("a fare of 65536 and of -1", "pairs.csv", FARE_HEAD + "Anna Berg,Dye house,1,1,65536\nAnna Berg,Weaving mill,1,1,-1\n",
     f'pairs.csv, row 2, column "fare": "65536" is there; {FARE}\npairs.csv, row 3, column "fare": "-1" is there; {FARE}{END}'),
    ("fares that are no whole numbers", "pairs.csv",
     FARE_HEAD + "Anna Berg,Dye house,1,1,2.40\nAnna Berg,Weaving mill,1,1,\u00a33\nBen Olsen,Dye house,1,2,never\n",
     f'pairs.csv, row 2, column "fare": "2.40" is there; {FARE}\npairs.csv, row 3, column "fare": "\u00a33" is there; {FARE}\n'
     f'pairs.csv, row 4, column "fare": "never" is there; {FARE}{END}'),
    ("an empty fare", "pairs.csv", FARE_HEAD + "Anna Berg,Dye house,1,1,240\nAnna Berg,Weaving mill,1,1, \nBen Olsen,Dye house,1,2\n",
     f'pairs.csv, row 3, column "fare": the cell is empty; {FARE} Write 0 where there is nothing to pay.\n'
     f'pairs.csv, row 4, column "fare": the cell is empty; {FARE} Write 0 where there is nothing to pay.{END}'),
    ("a fare without its heading", "pairs.csv", pairs("Anna Berg,Dye house,1,1,240\n"),
     f"pairs.csv, row 2: there are more cells than headings. A name with a comma or semicolon in it needs quotation marks around it.{END}"),
    ("the fare twice", "pairs.csv", "student,workshop,fare,group from student,group from workshop,Fare\nAnna Berg,Dye house,1,1,1,1\n",
     'pairs.csv, row 1: the column "fare" is there twice. The headings are student, workshop, fare, group from student, group from workshop, fare; '
     f"needed are {PAIR_HEADINGS}.\n"),
    ("a heading of the pairs missing", "pairs.csv", "student,workshop,group from student,fare\n",
     'pairs.csv, row 1: the column "group from workshop" is missing. The headings are student, workshop, group from student, fare; '
     f"needed are {PAIR_HEADINGS}.\n"),
    ("no headings of the pairs", "pairs.csv", "", f"pairs.csv, row 1: the headings are missing: {PAIR_HEADINGS}.\n"),
    ("a visit without its pair", "pairs.csv", pairs("Anna Berg,Dye house,1,1\n"),
     f"visits.csv, row 3: Anna Berg and Weaving mill have no row in pairs.csv.{END}"),
    ("one mark missing", "visits.csv", VISIT_HEAD + "Anna Berg,Dye house,5,\n",
     f'visits.csv, row 2, column "mark from workshop": {MISSING}{END}'),
    ("a mark of 0", "visits.csv", VISIT_HEAD + "Anna Berg,Dye house,0,3\n",
     f'visits.csv, row 2, column "mark from student": "0" is there; {MARK}{END}'),
    ("a mark of 1001", "visits.csv", VISIT_HEAD + "Anna Berg,Dye house,5,1001\n",
     f'visits.csv, row 2, column "mark from workshop": "1001" is there; {MARK}{END}'),
    ("a mark of -1001", "visits.csv", VISIT_HEAD + "Anna Berg,Dye house,-1001,never\n",
     f'visits.csv, row 2, column "mark from student": "-1001" is there; {MARK}{END}'),
    ("never with a slip", "visits.csv", VISIT_HEAD + "Anna Berg,Dye house,nevr,3\nAnna Berg,Weaving mill,5,never!\n",
     f'visits.csv, row 2, column "mark from student": "nevr" is there; {MARK}\n'
     f'visits.csv, row 3, column "mark from workshop": "never!" is there; {MARK}{END}'),
    ("never as a stage and a line group", "students.csv", students("Anna Berg,never,never\n"),
     f'students.csv, row 2, column "stage": "never" is there; {RANGE} 1 to 512.\n'
     f'students.csv, row 2, column "line group": "never" is there; {RANGE} 1 to 65.{END}'),
    ("never as a quota", "workshops.csv", "workshop,quota,line group\nDye house,never,3\n",
     f'workshops.csv, row 2, column "quota": "never" is there; {RANGE} 0 to 512.{END}'),
    ("never as a group", "pairs.csv", pairs("Anna Berg,Dye house,never,1\nAnna Berg,Weaving mill,1,Never\n"),
     f'pairs.csv, row 2, column "group from student": "never" is there; {RANGE} 1 to 65.\n'
     f'pairs.csv, row 3, column "group from workshop": "Never" is there; {RANGE} 1 to 513.{END}'),
    ("one mark missing beside never", "visits.csv", VISIT_HEAD + "Anna Berg,Dye house,Never,\nAnna Berg,Weaving mill,,-1000\n",
     f'visits.csv, row 2, column "mark from workshop": {MISSING} Beside never, this one may be never too.\n'
     f'visits.csv, row 3, column "mark from student": {MISSING} Beside never, this one may be never too.{END}'),
    ("a visit twice", "visits.csv", VISIT_HEAD + "Anna Berg,Dye house,5,3\n\nAnna Berg,Dye house,,\n",
     f"visits.csv, row 4: Anna Berg and Dye house stand in row 2 already.{END}"),
]

SAME_MARK = "a student gave the same mark twice in one group. Ask her which of the two is better, and change one mark."

# Refusals of the engine: name, visits.csv, the message.
REFUSED = [
    ("a student's mark twice", VISIT_HEAD + "Anna Berg,Dye house,5,3\nAnna Berg,Weaving mill,5,4\n",
     f"visits.csv, row 3: {SAME_MARK}\n" '  Anna Berg gave 5 in row 2 too, column "mark from student".\n'),
    ("a student's mark twice, between others", VISIT_HEAD + "Ben Olsen,Dye house,5,3\n\nAnna Berg,Dye house,5,3\nBen Olsen,Weaving mill,5,3\n",
     f"visits.csv, row 5: {SAME_MARK}\n" '  Ben Olsen gave 5 in row 2 too, column "mark from student".\n'),
    ("a student's mark and a workshop's mark twice", VISIT_HEAD + "Ben Olsen,Dye house,5,3\nCarla Roth,Weaving mill,5,3\nBen Olsen,Weaving mill,5,3\n",
     f"visits.csv, row 4: {SAME_MARK}\n" '  Ben Olsen gave 5 in row 2 too, column "mark from student".\n'),
    ("an equal mark where the earlier visit ended in never", VISIT_HEAD + "Ben Olsen,Dye house,5,never\nBen Olsen,Weaving mill,5,3\n",
     f"visits.csv, row 3: {SAME_MARK}\n" '  Ben Olsen gave 5 in row 2 too, column "mark from student".\n'),
    ("an equal mark beside a never", VISIT_HEAD + "Ben Olsen,Dye house,4,1\nCarla Roth,Weaving mill,4,1\nBen Olsen,Weaving mill,4,never\n",
     f"visits.csv, row 4: {SAME_MARK}\n" '  Ben Olsen gave 4 in row 2 too, column "mark from student".\n'),
    ("-999 twice", VISIT_HEAD + "Anna Berg,Dye house,-999,3\nAnna Berg,Weaving mill,-999,4\n",
     f"visits.csv, row 3: {SAME_MARK}\n" '  Anna Berg gave -999 in row 2 too, column "mark from student".\n'),
]

# Equal marks that are fine: name, visits.csv.
ACCEPTED = [
    ("a workshop's mark twice in one group", VISIT_HEAD + "Carla Roth,Dye house,5,3\n\nBen Olsen,Dye house,1,3\n"),
    ("a workshop's mark three times, in two groups", VISIT_HEAD + "Anna Berg,Dye house,5,3\nCarla Roth,Dye house,5,3\nBen Olsen,Dye house,1,3\n"),
    ("a workshop's mark twice, one visit ended in never", VISIT_HEAD + "Ben Olsen,Dye house,never,3\nCarla Roth,Dye house,5,3\n"),
    ("a workshop's -999 twice", VISIT_HEAD + "Ben Olsen,Dye house,2,-999\nCarla Roth,Dye house,5,-999\n"),
    ("a student's mark twice, in two groups", VISIT_HEAD + "Carla Roth,Dye house,5,3\nCarla Roth,Weaving mill,5,3\n"),
    ("a student's never twice", VISIT_HEAD + "Ben Olsen,Dye house,never,3\nBen Olsen,Weaving mill,never,3\n"),
]

# Refusals that no table leads to, as if the engine gave them: number and place, and the message.
NOT_FROM_TABLES = [
    ((3, 1), "students.csv, row 3: the engine refused it, number 3: A record of the case is out of order, or a pair names nobody."),
    ((5, 4), "workshops.csv, row 3: the engine refused it, number 5: A stage, quota, group or line group in the case is out of range."),
    ((5, 7), "pairs.csv, row 4: the engine refused it, number 5: A stage, quota, group or line group in the case is out of range."),
    ((13, 2), "students.csv, row 4: the engine refused it, number 13: A lot in the case is not from 1 to 512, or an earlier student has it."),
    ((8, 0), "visits.csv, row 2: the engine refused it, number 8: A visit in the book is of two who are no pair of the case."),
    ((4, 0), "The engine refused the tables, number 4: The case has no student, over 512 students, no workshop, or over 64 workshops."),
    ((5, 11), "The engine refused the tables, number 5: A stage, quota, group or line group in the case is out of range."),
    ((8, 1), "The engine refused the tables, number 8: A visit in the book is of two who are no pair of the case."),
    ((99, 0), "The engine refused the tables, number 99: No refusal has this number."),
]


def wrong_input(folder, name, file, content, message):
    add_visits(folder, K_VISITS[:2])
    write(folder, file, content)
    before = read_all(folder)
    status, out, err = desk(folder)
    answers(name, (status, out, err), (1, "", message))
    check(f"{name}: nothing is written", before == read_all(folder))


def wrong_inputs():
    for name, file, content, message in WRONG:
        in_new_folder(lambda folder: wrong_input(folder, name, file, content, message))


def refusals(folder):
    for name, visits, message in REFUSED:
        write(folder, "visits.csv", visits)
        answers(name, desk(folder), (1, "", message))
    for name, visits in ACCEPTED:
        write(folder, "visits.csv", visits)
        status, out, err = desk(folder)
        check(name, status == 0 and out.startswith("Next visit: Anna Berg goes to "), out + err)


def other_refusals(folder):
    add_visits(folder, K_VISITS[:1])
    lgs = InProcess().module.lgs

    def refuses(*_):
        raise lgs.Refused(*refused)

    for refused, message in NOT_FROM_TABLES:
        answers(f"refused {refused}", InProcess().run(folder, lgs=engine(place=refuses)), (1, "", message))


def parts_of_the_desk(folder):
    """desk.py alone, with lgs.py, and with both; beside it, or named. Tables are made and lots are drawn without the library."""
    own, env = os.path.join(folder, "desk.py"), {name: value for name, value in os.environ.items() if name != "LGS_LIBRARY"}
    folder = os.path.realpath(folder)

    def run(*words, **more):
        done = subprocess.run([sys.executable, own, *words], cwd=folder, env={**env, **more}, capture_output=True)
        return done.returncode, done.stdout.decode(), done.stderr.decode()

    def no_engine(why):
        return 1, "", (f"The engine cannot be used: {why}.\ndesk.py, lgs.py and liblgs.so of one version belong in one folder, "
                       "on Linux with an Intel or AMD processor (x86-64).\n")

    shutil.copy(DESK, own)
    answers("desk.py alone", run(), (1, "", "lgs.py is not in the folder of desk.py. Copy it there, with liblgs.so.\n"))
    whole = read(os.path.dirname(DESK), "lgs.py")
    for name, data in (("half of it", whole[:3000]), ("nothing", b""), ("another one", b"def place(case, book): pass\n")):
        write(folder, "lgs.py", data)
        answers(f"{name} as lgs.py", run(), (1, "", "lgs.py, in the folder of desk.py, is not the one that belongs to it, or not whole. "
                                                   "Copy it there again, with liblgs.so.\n"))
    write(folder, "lgs.py", b"import no_such_module\n")
    check("another module is missing", "No module named 'no_such_module'" in run()[2], run()[2])
    write(folder, "lgs.py", whole)
    for words in ((), ("stages",), ("why", "Anna Berg", "Dye house")):
        answers(f"no library {words}", run(*words), no_engine(
            f"{folder}/liblgs.so: No such file or directory (liblgs.so belongs in the folder of lgs.py, or LGS_LIBRARY names it)"))
    check("no library: lots", run("lots")[1].endswith(LOTS_THERE), str(run("lots")))
    check("a library that is named", run(LGS_LIBRARY=LIBRARY)[1].startswith("Next visit: Anna Berg"), str(run(LGS_LIBRARY=LIBRARY)))
    write(folder, "liblgs.so", read("", LIBRARY).replace(b"liblgs.so.1\0", b"liblgs.so.9\0"))
    answers("a library of another version", run(), no_engine(f"{folder}/liblgs.so is no liblgs.so of version 1, which belongs to this lgs.py"))
    shutil.copy(LIBRARY, os.path.join(folder, "liblgs.so"))
    check("the three in one folder", run()[1].startswith("Next visit: Anna Berg"), str(run()))
    check("also for a careful Python", run(PYTHONSAFEPATH="1")[1].startswith("Next visit: Anna Berg"))
    code = f"import runpy, sys; sys.version_info = (3, 7, 16); runpy.run_path({own!r}, run_name='__main__')"
    older = subprocess.run([sys.executable, "-c", code], capture_output=True)
    answers("an older Python", older.stderr, b"desk.py needs Python 3.8 or later, and this is 3.7.\n")
    check("no other files", sorted(os.listdir(folder)) == sorted([*NEW_FILES, "desk.py", "lgs.py", "liblgs.so"]), str(os.listdir(folder)))


def other_folders(folder):
    before = read_all(folder)
    answers("new in a used folder", desk(folder, "new"),
            (1, "", "students.csv and workshops.csv and pairs.csv and visits.csv are in this folder already. Nothing was written.\n"))
    check("new leaves what is there", before == read_all(folder))
    with tempfile.TemporaryDirectory() as other:
        no_files = lambda: resource.setrlimit(resource.RLIMIT_FSIZE, (0, 0))
        check("without room for a file", desk(folder, first=no_files, TMPDIR=other)[1].startswith("Next visit: Anna Berg goes to Dye house.\n"))
        check("nothing is written, here or there", read_all(folder) == before and os.listdir(other) == [], str(os.listdir(other)))
    os.remove(os.path.join(folder, "visits.csv"))
    answers("a file is missing", desk(folder)[2], f"visits.csv is not in this folder ({os.path.realpath(folder)}). "
            "Was it saved under another name, or not as CSV?\n")
    with open("/dev/full", "wb") as full, tempfile.TemporaryDirectory() as empty:
        answers("all files are missing", desk(empty)[2], f"students.csv is not in this folder ({os.path.realpath(empty)}). "
                '"python3 desk.py new" writes an example to start from.\n')
        for words, more in ((("new",), b" The files were written."), ((), b""), (("lots",), b"")):
            done = subprocess.run([sys.executable, DESK, *words], cwd=empty, stdout=full, stderr=subprocess.PIPE)
            answers(f"a full disk {words}", (done.returncode, done.stderr), (1, b"The answer could not be written: No space left on device." + more + b"\n"))


# ---------------------------------------------------------------- stages

WROTE = """
Wrote them in students.csv: {} changed, all else is as it was.
A spreadsheet that still shows students.csv shows the old stages: open the file again there before you change it.
"""
MEANWHILE = "students.csv was changed by somebody else at this moment. Nothing was written. Type the command again."
OPEN = "students.csv is open in a spreadsheet: save and close it there, then type the command again. Nothing was written.\n"
K_STAGES = "Stage 1: Anna Berg\nStage 2: Ben Olsen, Carla Roth\n"
K_HAS_THEM = K_STAGES + "\nstudents.csv has these stages already. Nothing was written.\n"

# The three stages as they are written, and what is said.
TYPED = [
    (("1", "2", "2"), K_HAS_THEM),
    (("+1", " 2 ", "002"), K_HAS_THEM),
    (("", "", ""), K_STAGES + WROTE.format("3 cells")),
    (("", "2", " "), K_STAGES + WROTE.format("2 cells")),
    (("2", "1", "1"), "Stage 1: Anna Berg (was 2)\nStage 2: Ben Olsen (was 1), Carla Roth (was 1)\n" + WROTE.format("3 cells")),
    (("1", "2", "512"), "Stage 1: Anna Berg\nStage 2: Ben Olsen, Carla Roth (was 512)\n" + WROTE.format("1 cell")),
    (("1", "", "3"), "Stage 1: Anna Berg\nStage 2: Ben Olsen, Carla Roth (was 3)\n" + WROTE.format("2 cells")),
]

# Ways to write students.csv, before and after.
KEPT = [
    ("commas", "student,stage,line group,lot\nAnna Berg,,2,3\nBen Olsen,,2,2\nCarla Roth,,2,1\n",
     "student,stage,line group,lot\nAnna Berg,1,2,3\nBen Olsen,2,2,2\nCarla Roth,2,2,1\n"),
    ("semicolons, CRLF, a byte order mark", "\ufeffstudent;stage;line group;lot\r\nAnna Berg;3;2;1\r\nBen Olsen;2;2;2\r\nCarla Roth;1;2;3\r\n",
     "\ufeffstudent;stage;line group;lot\r\nAnna Berg;1;2;1\r\nBen Olsen;2;2;2\r\nCarla Roth;2;2;3\r\n"),
    ("a byte order mark and commas", "\ufeffstudent,stage,line group,lot\nAnna Berg,,2,1\nBen Olsen,2,2,512\nCarla Roth,,2,2",
     "\ufeffstudent,stage,line group,lot\nAnna Berg,1,2,1\nBen Olsen,2,2,512\nCarla Roth,2,2,2"),
    ("tabs, no line feed at the end", "lot\tline group\tstage\tstudent\n1\t2\t\tAnna Berg\n2\t2\t\tBen Olsen\n3\t2\t9\tCarla Roth",
     "lot\tline group\tstage\tstudent\n1\t2\t1\tAnna Berg\n2\t2\t2\tBen Olsen\n3\t2\t2\tCarla Roth"),
    ("quotation marks, other columns, empty rows, other order",
     '"Phone, home";"note";"STAGE";student;"Line group";"Lot"\r\n"0;1";"said ""stage;1"";\r\nnext line";"";"Carla  Roth";"2";"1"\r\n'
     ';;;;\r\n\r\n;1;" 1 "; Ben Olsen ;2; 2\r\n  \u00e4\u2028\u0085 x "y";;"7";"Anna Berg";2;3;;\r\n\r\n\r\n',
     '"Phone, home";"note";"STAGE";student;"Line group";"Lot"\r\n"0;1";"said ""stage;1"";\r\nnext line";"2";"Carla  Roth";"2";"1"\r\n'
     ';;;;\r\n\r\n;1;"2"; Ben Olsen ;2; 2\r\n  \u00e4\u2028\u0085 x "y";;"1";"Anna Berg";2;3;;\r\n\r\n\r\n'),
    ("rows without their last cells", "student,lot,line group,note,stage,more\nAnna Berg,1,2\r\nBen Olsen,2,2,,\nCarla Roth,3,2,x",
     "student,lot,line group,note,stage,more\nAnna Berg,1,2,,1\r\nBen Olsen,2,2,,2\nCarla Roth,3,2,x,2"),
    ("the stage as the first column", "stage,student,line group,lot\n,Anna Berg,2,1\n,Ben Olsen,2,2\n,Carla Roth,2,3\n",
     "stage,student,line group,lot\n1,Anna Berg,2,1\n2,Ben Olsen,2,2\n2,Carla Roth,2,3\n"),
    ("line ends of three kinds, the stage as the last column", "student,lot,line group,stage\nAnna Berg,1,2,\rBen Olsen,2,2,\r\nCarla Roth,3,2,\n",
     "student,lot,line group,stage\nAnna Berg,1,2,1\rBen Olsen,2,2,2\r\nCarla Roth,3,2,2\n"),
    ("letters with their accent as two signs", "student,stage,line group,lot,A\u030a\nAnna Berg,,2,1,A\u030ase\nBen Olsen,,2,2,\u00c5\nCarla Roth,,2,3,\n",
     "student,stage,line group,lot,A\u030a\nAnna Berg,1,2,1,A\u030ase\nBen Olsen,2,2,2,\u00c5\nCarla Roth,2,2,3,\n"),
]

# Stages that are refused: the cell, and the message.
WRONG_STAGES = [
    ("0", f'"0" is there; {RANGE} 1 to 512.'),
    ("513", f'"513" is there; {RANGE} 1 to 512.'),
    ("one", f'"one" is there; {RANGE} 1 to 512.'),
]

NO_STAGES = """No stage numbers agree with the groups of all workshops. Nothing was written.
That is so where workshops put the same students in another order, or in one group here and in two there, directly or through others.{}
See whether such a group was typed wrongly in pairs.csv; if so, correct it and run desk.py stages again.
(A workshop with quota 0 does not count, nor does a student in a group above a workshop's line group.)
If the groups are right, write any stages from 1 to 512 in students.csv, for instance 1 for everybody, and go on.
The placement is as good in any case; only the list of visits may be longer than needed.
"""

# Groups without stages that agree: name, workshops, pairs (of the workshop's group), the lines that say where.
CONTRADICTIONS = [
    ("another order", "Dye house,1,3\nWeaving mill,1,3\n",
     [("Anna Berg", "Dye house", 1), ("Ben Olsen", "Dye house", 2), ("Anna Berg", "Weaving mill", 3), ("Ben Olsen", "Weaving mill", 2)],
     ["Dye house: Anna Berg before Ben Olsen", "Weaving mill: Ben Olsen before Anna Berg"]),
    ("one group and two", "Dye house,1,3\nWeaving mill,1,3\n",
     [("Carla Roth", "Dye house", 3), ("Ben Olsen", "Dye house", 1), ("Carla Roth", "Weaving mill", 2), ("Ben Olsen", "Weaving mill", 2)],
     ["Dye house: Ben Olsen before Carla Roth", "Weaving mill: Carla Roth in the same group as Ben Olsen"]),
    ("through others", "Dye house,1,3\nForge,2,1\nWeaving mill,1,3\n",
     [("Anna Berg", "Dye house", 1), ("Ben Olsen", "Dye house", 2), ("Ben Olsen", "Forge", 1), ("Carla Roth", "Forge", 1),
      ("Carla Roth", "Weaving mill", 1), ("Anna Berg", "Weaving mill", 3)],
     ["Dye house: Anna Berg before Ben Olsen", "Forge: Ben Olsen in the same group as Carla Roth", "Weaving mill: Carla Roth before Anna Berg"]),
]


def stages_of_k(folder):
    """The stage column right, wrong, and without numbers; whatever is in visits.csv, and without it."""
    for visits in ("", VISIT_HEAD + "Nobody,Nowhere,x,y\n", None):
        for typed, said in TYPED:
            write(folder, "students.csv", students("{0},{3},2\n{1},{4},2\n{2},{5},2\n".format("Anna Berg", "Ben Olsen", "Carla Roth", *typed)))
            if visits is None and os.path.exists(os.path.join(folder, "visits.csv")):
                os.remove(os.path.join(folder, "visits.csv"))
            elif visits is not None:
                write(folder, "visits.csv", visits)
            before = read_all(folder)
            if "Wrote" in said:
                rows = zip(("Anna Berg", "Ben Olsen", "Carla Roth"), typed, "122")
                before["students.csv"] = students("".join(f"{name},{cell if cell == stage else stage},2\n" for name, cell, stage in rows)).encode()
            answers(f"stages {typed}", desk(folder, "stages"), (0, said, ""))
            check(f"stages {typed}: what is written", read_all(folder) == before, str(read_all(folder)))


def stages_kept(folder):
    """Nothing but the stage cells changes, and nothing changes the second time."""
    for name, before, after in KEPT:
        write(folder, "students.csv", before)
        status, out, err = desk(folder, "stages")
        check(f"{name}: stages", status == 0 and "Wrote" in out, out + err)
        check(f"{name}: all else is kept", read(folder, "students.csv") == after.encode(), f"{read(folder, 'students.csv')}\nwanted {after.encode()}")
        status, out, err = desk(folder, "stages")
        check(f"{name}: the second time", status == 0 and "Nothing was written" in out and read(folder, "students.csv") == after.encode(), out + err)
        status, out, err = desk(folder)
        check(f"{name}: no note", status == 0 and "Note" not in out, out + err)


def stages_wrong(folder):
    for cell, message in WRONG_STAGES:
        write(folder, "students.csv", students(f"Anna Berg,,2\nBen Olsen,{cell},2\nCarla Roth,,2\n"))
        before = read_all(folder)
        answers(f"a stage {cell}", desk(folder, "stages"), (1, "", f'students.csv, row 3, column "stage": {message}{END}'))
        check(f"a stage {cell}: nothing is written", read_all(folder) == before)
    write(folder, "students.csv", students("Anna Berg,,\nBen Olsen,,2\nCarla Roth,,2\n"))
    answers("a line group is still needed", desk(folder, "stages"),
            (1, "", f'students.csv, row 2, column "line group": the cell is empty; {RANGE} 1 to 65.{END}'))
    write(folder, "students.csv", "student,line group,lot\nAnna Berg,2,1\n")
    check("the stage column is still needed", desk(folder, "stages")[2].startswith('students.csv, row 1: the column "stage" is missing.'))
    os.remove(os.path.join(folder, "students.csv"))
    check("no students.csv", desk(folder, "stages")[2].startswith("students.csv is not in this folder"))


def no_stages(folder):
    """Refusal 12, told with the groups; and what does not count."""
    for name, workshops, couples, lines in CONTRADICTIONS:
        write(folder, "students.csv", students("Anna Berg,,2\nBen Olsen,7,2\nCarla Roth,,2\n"))
        write(folder, "workshops.csv", "workshop,quota,line group\n" + workshops)
        write(folder, "pairs.csv", pairs("".join(f"{s},{w},1,{group}\n" for s, w, group in couples)))
        before = read_all(folder)
        answers(name, desk(folder, "stages"), (1, "", NO_STAGES.format(" Here:" + "".join(f"\n  {line}" for line in lines))))
        check(f"{name}: nothing is written", read_all(folder) == before)
        for what, mill in (("quota 0", "mill,0,3"), ("beyond the line", "mill,1,1")):
            write(folder, "students.csv", before["students.csv"])
            write(folder, "workshops.csv", "workshop,quota,line group\n" + workshops.replace("mill,1,3", mill))
            status, out, err = desk(folder, "stages")
            check(f"{name}, with {what}", status == 0 and "Wrote" in out, out + err)


def changed_meanwhile(folder):
    """Somebody adds a student while the stages are worked out."""
    write(folder, "students.csv", students("Anna Berg,,2\nBen Olsen,,2\nCarla Roth,,2\n"))
    wanted = read(folder, "students.csv") + b"Dora,,2,9\n"

    def stages(case):
        add(folder, "students.csv", "Dora,,2,9\n")
        return [1, 2, 2]

    answers("changed meanwhile", InProcess().run(folder, "stages", lgs=engine(stages=stages)), (1, "", MEANWHILE))
    check("changed meanwhile: kept", read(folder, "students.csv") == wanted)


def writing_stages(folder):
    """Rights, links, a protected file, no room."""
    path, blank = os.path.join(folder, "students.csv"), students("Anna Berg,,2\nBen Olsen,,2\nCarla Roth,,2\n")
    right = students("Anna Berg,1,2\nBen Olsen,2,2\nCarla Roth,2,2\n").encode()
    write(folder, "students.csv", blank)
    os.chmod(path, 0o600)
    desk(folder, "stages")
    check("the rights are kept", stat.S_IMODE(os.stat(path).st_mode) == 0o600 and read(folder, "students.csv") == right)
    os.chmod(path, 0o444)
    answers("nothing to write in a protected file", desk(folder, "stages"), (0, K_HAS_THEM, ""))
    os.remove(path)
    write(folder, "students.csv", blank)
    os.chmod(path, 0o444)
    answers("a protected file", desk(folder, "stages"), (1, "", "students.csv is protected against writing. Nothing was written.\n"))
    check("a protected file is kept", read(folder, "students.csv") == blank.encode())
    os.remove(path)
    with tempfile.TemporaryDirectory() as other:
        write(other, "shared.csv", blank)
        os.symlink(os.path.join(other, "shared.csv"), path)
        desk(folder, "stages")
        check("the file behind a link", os.path.islink(path) and read(other, "shared.csv") == right and os.listdir(other) == ["shared.csv"])
    os.remove(path)
    long = students("Anna Berg,,2\nBen Olsen,,2\nCarla Roth,,2\n").replace("\n", "," + 100 * "x" + "\n")
    write(folder, "students.csv", long)
    before = read_all(folder)
    for limit in (100, 300):
        answers(f"room for {limit} bytes", desk(folder, "stages", first=lambda: resource.setrlimit(resource.RLIMIT_FSIZE, (limit, limit))),
                (1, "", "students.csv cannot be written in this folder: File too large.\n"))
        check(f"room for {limit} bytes: all is kept", read_all(folder) == before, str(os.listdir(folder)))


def open_in_a_spreadsheet(folder):
    """With LibreOffice's lock file nothing is written, beside students.csv and beside the file behind a link; without it, it goes on."""
    blank, right = (students("Anna Berg,{},2\nBen Olsen,{},2\nCarla Roth,{},2\n".format(*stages)) for stages in (("", "", ""), "122"))
    lock, path = ".~lock.students.csv#", os.path.join(folder, "students.csv")
    write(folder, "students.csv", blank)
    for content in (",desk,desk,01.09.2025 10:00,file:///home/desk;", ""):
        write(folder, lock, content)
        before = read_all(folder)
        answers("open in a spreadsheet", desk(folder, "stages"), (1, "", OPEN))
        check("open in a spreadsheet: nothing is written", read_all(folder) == before)
    check("open in a spreadsheet: plain desk.py still reads it", desk(folder)[2].startswith('students.csv, row 2, column "stage": the cell is empty'))
    os.rename(os.path.join(folder, lock), os.path.join(folder, ".~lock.pairs.csv#"))
    answers("closed again", desk(folder, "stages"), (0, K_STAGES + WROTE.format("3 cells"), ""))
    check("closed again: written", read(folder, "students.csv") == right.encode())
    write(folder, lock, "")
    answers("open, and nothing to write", desk(folder, "stages"), (0, K_HAS_THEM, ""))
    os.remove(os.path.join(folder, lock))
    os.remove(path)
    with tempfile.TemporaryDirectory() as other:
        write(other, "shared.csv", blank)
        os.symlink(os.path.join(other, "shared.csv"), path)
        for where, name in ((other, ".~lock.shared.csv#"), (folder, lock)):
            write(where, name, "")
            answers(f"a link, with {name}", desk(folder, "stages"), (1, "", OPEN))
            check(f"a link, with {name}: nothing is written", read(other, "shared.csv") == blank.encode())
            os.remove(os.path.join(where, name))
        answers("a link, closed again", desk(folder, "stages"), (0, K_STAGES + WROTE.format("3 cells"), ""))
        check("a link, closed again: written", os.path.islink(path) and read(other, "shared.csv") == right.encode())


def only_cells():
    """The last check before writing finds any other change."""
    module = InProcess().module
    old, new = b"student,stage,note\nAnna,,x\nBen,2,y\n", b"student,stage,note\nAnna,1,x\nBen,2,y\n"
    check("with cells", module.with_cells(old, "stage", {2: 1}) == new)
    for wrong in (new.replace(b"x", b"z"), new.replace(b"Ben,2", b"Ben,1"), new.replace(b"Anna,1", b"Anna,2"), new + b"\n", new[:-8], old):
        try:
            module.check_only_cells(old, wrong, 1, {2: "1"})
            check("another change", False, str(wrong))
        except module.Stop as stop:
            check("another change", "Nothing was written" in str(stop))


# ---------------------------------------------------------------- stages of made-up years


def smallest_stages(names, tables):
    """The smallest stages from 1 that agree, or None: students who must have one stage are put together, and then counted from the front."""
    same = {name: name for name in names}

    def head(name):
        while same[name] != name:
            name = same[name]
        return name

    levels = [[[s for s in table if table[s] == group] for group in sorted(set(table.values()))] for table in tables]
    for level in (level for table in levels for level in table):
        for s in level:
            same[head(s)] = head(level[0])
    later = {(head(one[0]), head(two[0])) for table in levels for one, two in zip(table, table[1:])}
    stage, left = {}, {head(name) for name in names}
    while left:
        ready = [one for one in left if not any(two == one and before in left for before, two in later)]
        if not ready:
            return None
        for one in ready:
            stage[one] = max((stage[before] + 1 for before, two in later if two == one), default=1)
        left -= set(ready)
    return {name: stage[head(name)] for name in names}


def written_stages(folder):
    rows = list(csv.reader(io.StringIO(read(folder, "students.csv").decode("utf-8-sig"), newline=""), delimiter=";"))
    return {row[0]: int(row[1]) for row in rows[1:]}


def work_out(folder, year):
    """Writes the year without stages, or with wrong ones, and works them out, before it is driven."""
    wanted = smallest_stages(year.stage, year.tables())
    typed = {"none": dict.fromkeys(year.stage, ""), "all 1": dict.fromkeys(year.stage, 1), "backward": {s: 9 - n for s, n in year.stage.items()}}
    for name, stage in typed.items():
        write_students(folder, year, stage)
        status, out, err = desk(folder)
        check(f"a year with stages {name}", ('"python3 desk.py stages" works it out.' in err) if name == "none" else (WORKS_OUT in out), out + err)
        others = {file: data for file, data in read_all(folder).items() if file != "students.csv"}
        status, out, err = desk(folder, "stages")
        check(f"a year with stages {name}: worked out", status == 0 and written_stages(folder) == wanted, out + err)
        check(f"a year with stages {name}: told", [line.split(":")[0] for line in out.split("\n\n")[0].split("\n")]
              == [f"Stage {n}" for n in sorted(set(wanted.values()))], out)
        check(f"a year with stages {name}: other files", {file: data for file, data in read_all(folder).items() if file != "students.csv"} == others)
        status, out, err = desk(folder)
        check(f"a year with stages {name}: no note any more", status == 0 and "Note" not in out, out + err)
    check("the year has several stages", len(set(wanted.values())) > 3, str(wanted))


def is_contradiction(steps, tables):
    """Each student comes, at the workshop named, before the next or with her; the round closes, and some one comes before."""
    closes = all(one[2] == two[1] for one, two in zip(steps, steps[1:] + steps[:1]))
    known = all(w in tables and one in tables[w] and two in tables[w] for w, one, two, _ in steps)
    right = known and all((tables[w][one] < tables[w][two]) if before else (tables[w][one] == tables[w][two]) for w, one, two, before in steps)
    return closes and right and any(step[3] for step in steps)


def has_direct(tables):
    """Two students whom two workshops put in another order, or one workshop in one group and the other not."""
    sign = lambda table, one, two: (table[one] > table[two]) - (table[one] < table[two])
    return any(sign(a, one, two) != sign(b, one, two) for a in tables.values() for b in tables.values() for one in a if one in b for two in a if two in b)


def small_years():
    """Small years, with stages and without: against the count above, and what is told of a contradiction is one."""
    draw, process, met = random.Random(5), InProcess(), {"stages": 0, "direct": 0, "through others": 0}
    names, workshops = [f"S{n}" for n in range(1, 10)], [f"W{n}" for n in range(1, 9)]
    for _ in range(400):
        quota, line = {w: draw.choice((0, 1, 1, 2, 512)) for w in workshops}, {w: draw.randint(3, 6) for w in workshops}
        share, hidden, slips = 0.1 + draw.random() * 0.4, {s: draw.randint(1, 5) for s in names}, draw.choice((0, 0, 0.2, 1))
        group = {(s, w): draw.randint(1, 6) if draw.random() < slips else hidden[s] for s in names for w in workshops if draw.random() < share}
        tables = {w: {s: group[s, w] for s in names if (s, w) in group and group[s, w] <= line[w]} for w in workshops if quota[w]}
        wanted = smallest_stages(names, tables.values())
        with tempfile.TemporaryDirectory() as folder:
            rows = [(s, draw.choice(("", 1, 512)), 1, lot) for lot, s in enumerate(names, 1)]
            write(folder, "students.csv", csv_text([("student", "stage", "line group", "lot")] + rows))
            write(folder, "workshops.csv", csv_text([("workshop", "quota", "line group")] + [(w, quota[w], line[w]) for w in workshops]))
            write(folder, "pairs.csv", pairs("").replace(",", ";") + csv_text([(s, w, 1, n) for (s, w), n in group.items()]))
            before = read_all(folder)
            status, out, err = process.run(folder, "stages")
            if wanted:
                met["stages"] += 1
                check("a small year's stages", status == 0 and written_stages(folder) == wanted, f"{before}\n{out}{err}")
            else:
                steps = told_steps(err)
                met["direct" if len(steps) == 2 else "through others"] += 1
                refused = status == 1 and err.startswith("No stage numbers agree")
                check("a small year without stages", refused and read_all(folder) == before, f"{before}\n{out}{err}")
                check("a small year's contradiction", is_contradiction(steps, tables) and (len(steps) == 2) == has_direct(tables), f"{before}\n{err}")
    check("small years of all kinds", min(met.values()) > 10, str(met))
    print(f"small years: {met}")


def told_steps(err):
    """The lines of a contradiction as workshop, student, next student, and whether before."""
    steps = []
    for line in err.split("\n"):
        if line.startswith("  "):
            workshop, text = line[2:].split(": ")
            one, two = (text.split(" before ") if " before " in text else text.split(" in the same group as "))
            steps.append((workshop, one, two, " before " in text))
    return steps


# ---------------------------------------------------------------- where we stand, and what is told at the end


def standing(out):
    """Of an answer: the stage in hand, the last one, and how many are settled and wait; None for what is not known."""
    found = re.search(r"^Stage in hand: (\d+) \(the last is (\d+)\)\. Students settled for good: (?:(\d+); waiting: (\d+)|not known before the end, because "
                      r"the stages do not agree)\.$", out, re.MULTILINE)
    return found and tuple(number and int(number) for number in found.groups())


def stands(year, held, couple, out):
    """With agreeing stages the one who is asked for is of the stage in hand, and those of earlier stages are settled."""
    stage = year.stage[couple[0]]
    earlier = sum(other < stage for other in year.stage.values())
    return standing(out) == (stage, max(year.stage.values()), earlier, len(year.stage) - earlier) and f"\nVisits so far: {len(held)}.\n" in out


def summary(year, place):
    """What is told of a placement: how many have their first, second, .. group; the seats."""
    own = {s: sorted({year.group[s, w] for w in year.quota if (s, w) in year.group}) for s in year.stage}
    ranks = [own[s].index(year.group[s, w]) for s, w in place.items() if w is not None]
    told = [f"{word} group: {ranks.count(rank)}" for rank, word in enumerate(("first", "second", "third", "fourth")[:max(ranks) + 1])]
    return (f"Students with a workshop of their {', of their '.join(told)}. Students without a place: {len(place) - len(ranks)}.\n"
            f"Seats filled: {len(ranks)} of {sum(year.quota.values())}.\n"
            f"Stage in hand: none, all are done. Students settled for good: {len(place)}; waiting: 0.\n")


def sums(folder):
    """Gaps between the stages, visits that were not called for, seats at a workshop that nobody has, groups with gaps."""
    write(folder, "students.csv", students("Anna Berg,1,2\nBen Olsen,5,2\nCarla Roth,5,2\n"))
    add_visits(folder, [("Carla Roth", "Weaving mill", 4, 6)])
    answers("the stage in hand is of visits called for", standing(desk(folder)[1]), (1, 5, 0, 3))
    write(folder, "workshops.csv", "workshop,quota,line group\nDye house,1,3\nWeaving mill,1,3\nForge,7,3\n")
    add_visits(folder, K_VISITS[:3])
    check("seats that nobody has", "\nSeats filled: 2 of 9.\n" in desk(folder)[1], desk(folder)[1])
    ordinal = InProcess().module.ordinal
    words = "first second third fourth fifth sixth 7th 8th 9th 10th 11th 12th 13th 14th 20th 21st 22nd 23rd 24th 31st 65th".split()
    answers("ordinals", [ordinal(n) for n in (*range(1, 15), *range(20, 25), 31, 65)], words)
    check("no visits to list", desk(folder, "--visits")[1].count("The visits:\n") == 1)
    write(folder, "visits.csv", VISIT_HEAD)
    check("no visits to list yet", "\n\nThe visits: none so far.\n" in desk(folder, "--visits")[1], desk(folder, "--visits")[1])


def no_agreement(folder):
    """Where the stages do not agree nobody is called settled, and a student who was dropped and is asked for is not of the stage in hand."""
    write(folder, "students.csv", students("Anna Berg,2,2\nBen Olsen,1,2\nCarla Roth,1,2\n"))
    answers("no agreement", standing(desk(folder)[1]), (1, 2, None, None))
    write(folder, "pairs.csv", pairs("Anna Berg,Dye house,1,1\nBen Olsen,Dye house,1,2\nBen Olsen,Weaving mill,2,1\n"))
    add_visits(folder, [("Ben Olsen", "Dye house", 5, 3), ("Anna Berg", "Dye house", 5, 3)])
    status, out, err = desk(folder)
    check("dropped and in hand", out.startswith("Next visit: Ben Olsen goes to Weaving mill.\n") and standing(out) == (2, 2, None, None), out + err)


def settled():
    """Small years with stages that agree: after each visit, however the other visits turn out, those of the stages before the one in hand end up in one
    and the same place. Those of the stage in hand do not always."""
    lgs, draw, met = InProcess().module.lgs, random.Random(9), {"settled": 0, "others": 0}
    for _ in range(300):
        names, workshops = range(1, draw.randint(2, 5) + 1), range(1, draw.randint(1, 3) + 1)
        stage, lots = [draw.randint(1, 3) for _ in names], draw.sample(range(1, 513), len(names))
        pairs = [(s, w, draw.randint(1, 2), stage[s - 1]) for s in names for w in workshops if draw.random() < 0.8]
        case = lgs.pack_case([(stage[s - 1], draw.randint(1, 3), lots[s - 1]) for s in names],
                             [(draw.randint(0, 2), draw.randint(1, 4)) for w in workshops], pairs)
        first = {pair[:2]: made_up(draw, pair) for pair in pairs}
        finished, asked = finish(lgs, case, first)
        for at, couple in enumerate(asked):
            other = {pair[:2]: first[pair[:2]] if pair[:2] in asked[:at] else made_up(draw, pair) for pair in pairs}
            places = finish(lgs, case, other)[0]
            same = [one == two for one, two in zip(finished, places)]
            earlier = [s < stage[couple[0] - 1] for s in stage]
            check("settled for good", all(one for one, early in zip(same, earlier) if early), f"{case.hex()} {first} {other} {couple}")
            met["settled"] += sum(earlier)
            met["others"] += same.count(False)
    check("settled and others are met", min(met.values()) > 100, str(met))
    print(f"settled: {met}")


def made_up(draw, pair):
    """Both marks of a visit; those of one student all differ."""
    return [draw.choice((draw.randint(-9, 9) * 10 + pair[1], -1000)) if draw.random() < 0.3 else draw.randint(-9, 9) * 10 + pair[1],
            draw.choice((-1000, -3, -2, 2, 3, 3, 4, 5))]


def finish(lgs, case, marks):
    """The placement that these marks lead to, and the visits asked for."""
    book, answer = [], lgs.place(case)
    while isinstance(answer, lgs.NextVisit):
        couple = (answer.student, answer.workshop)
        book.append((*couple, *marks[couple]))
        answer = lgs.place(case, lgs.pack_book(book))
    return answer.places, [visit[:2] for visit in book]


# Tables that look unfinished: workshops.csv, pairs.csv, the notes.
NO_PAIRS_AT_ALL = "\nNote: pairs.csv has no rows yet, so nobody can be placed.\n"
UNFINISHED = [
    ("no pairs", "Dye house,1,3\n", "", NO_PAIRS_AT_ALL),
    ("no pairs and no seats", "Dye house,0,3\n", "", NO_PAIRS_AT_ALL),
    ("all quotas 0", "Dye house,0,3\n", "Anna Berg,Dye house,1,1\nBen Olsen,Dye house,1,2\nCarla Roth,Dye house,1,2\n",
     "\nNote: every quota in workshops.csv is 0, so nobody can be placed.\n"),
    ("a student without a row", "Dye house,1,3\n", "Anna Berg,Dye house,1,1\nCarla Roth,Dye house,1,2\n",
     "\nNote: no row in pairs.csv has this student: Ben Olsen.\n"),
    ("students and a workshop without rows", "Dye house,1,3\nMill; small,2,3\n", "Anna Berg,Dye house,1,1\n",
     "\nNote: no row in pairs.csv has these students: Ben Olsen, Carla Roth.\nNote: no row in pairs.csv has this workshop: Mill; small.\n"),
    ("many workshops without rows", "Dye house,1,3\n" + "".join(f"W{n},1,3\n" for n in range(9)),
     "Anna Berg,Dye house,1,1\nBen Olsen,Dye house,1,2\nCarla Roth,Dye house,1,2\n",
     "\nNote: no row in pairs.csv has these workshops: W0, W1, W2, W3, W4 and 4 more.\n"),
    ("five workshops without rows", "Dye house,1,3\n" + "".join(f"W{n},0,3\n" for n in range(5)),
     "Anna Berg,Dye house,1,1\nBen Olsen,Dye house,1,2\nCarla Roth,Dye house,1,2\n",
     "\nNote: no row in pairs.csv has these workshops: W0, W1, W2, W3, W4.\n"),
    ("names with a comma", '"Dye, blue",1,3\n"Dye, red",1,3\nMill,1,3\n', "Anna Berg,Mill,1,1\nBen Olsen,Mill,1,2\nCarla Roth,Mill,1,2\n",
     "\nNote: no row in pairs.csv has these workshops: Dye, blue; Dye, red.\n"),
    ("nothing is missing", "Dye house,1,3\n", "Anna Berg,Dye house,1,1\nBen Olsen,Dye house,1,2\nCarla Roth,Dye house,1,2\n", ""),
]


def unfinished(folder):
    for name, workshops, rows, notes in UNFINISHED:
        write(folder, "workshops.csv", "workshop,quota,line group\n" + workshops)
        write(folder, "pairs.csv", pairs(rows))
        status, out, err = desk(folder)
        check(f"unfinished: {name}", status == 0 and out.split(NO_FARES)[1] == notes, out + err)


# ---------------------------------------------------------------- answers as tables

IS_NO_CSV = 'is {} under the name of a CSV file. Open it with your spreadsheet, and save it as "CSV UTF-8".'
NEXT_HEAD, PLACEMENT_HEAD = "student,workshop,mark from student,mark from workshop\r\n", "student,workshop,group from student,group from workshop\r\n"
OUT_DONE = {"next.csv": "\ufeff" + NEXT_HEAD,
            "placement.csv": "\ufeff" + PLACEMENT_HEAD + "Anna Berg,Dye house,1,1\r\nBen Olsen,,,\r\nCarla Roth,Weaving mill,2,2\r\n"}


def tables_in(folder):
    return {name: data.decode() for name, data in read_all(folder).items()}


def as_tables(folder):
    """Before the end and at the end, again and again, in a folder that is made: one of the two tables has only its headings. All is told as without."""
    out, before = os.path.join(folder, "out"), read_all(folder)
    wrote = "\nWrote out/next.csv and out/placement.csv.\n"
    for done in (*range(5), 2, 4):
        write(folder, "visits.csv", before["visits.csv"])
        add_visits(folder, K_VISITS[:done])
        status, said, err = desk(folder, "--csv", "out")
        answers(f"as tables, {done} visits: told", (status, said, err), (0, desk(folder)[1] + wrote, ""))
        going = {"next.csv": f"\ufeff{NEXT_HEAD}{','.join(visit[:2])},,\r\n" for visit in K_VISITS[done:done + 1]}
        answers(f"as tables, {done} visits", tables_in(out), {**going, "placement.csv": "\ufeff" + PLACEMENT_HEAD} if going else OUT_DONE)
    check("as tables: the four are left alone", all(read(folder, name) == data for name, data in before.items() if name != "visits.csv"))
    answers("as tables, here", desk(folder, "--csv", ".", "--visits")[0], 0)
    answers("as tables, here: written", {name: read(folder, name).decode() for name in OUT_DONE}, OUT_DONE)


def as_tables_elsewhere(folder):
    """With semicolons as in students.csv, and names that need quotation marks; read by Python's csv as it is meant."""
    year = HiddenYear(11, share=0, students=14, workshops=5)
    write_year(folder, year)
    add(folder, "visits.csv", csv_text([(*couple, *year.marks(*couple)) for couple in year.couples]))
    with tempfile.TemporaryDirectory() as other:
        status, out, err = desk(folder, "--csv", other)
        place = placed_by(out, year)
        rows = list(csv.reader(io.StringIO(read(other, "placement.csv").decode("utf-8-sig"), newline=""), delimiter=";"))
        wanted = [[s, w, str(year.group[s, w]), str(year.group[w, s])] if w else [s, "", "", ""] for s, w in place.items()]
        check("as tables elsewhere", status == 0 and rows[1:] == wanted and place == year.best_for_students(), f"{rows}\n{wanted}\n{err}")


def finished_out(folder):
    """The folder `out` with the two tables of the finished example."""
    add_visits(folder, K_VISITS)
    desk(folder, "--csv", "out")
    return os.path.join(folder, "out")


def tables_kept(folder, name, message, **how):
    """With this message nothing is written in `out`."""
    out = os.path.join(folder, "out")
    before = read_all(out)
    answers(f"tables kept: {name}", desk(folder, "--csv", "out", **how), (1, "", message + "\n"))
    check(f"tables kept: {name}: nothing is written", read_all(out) == before, str(os.listdir(out)))


OTHERS = "out/{} is there already, and is no table that desk.py wrote. Nothing was written. Name another folder."
MARKS_THERE = "Marks were written in out/next.csv. Nothing was written. Copy that row to visits.csv, delete out/next.csv, and type the command again."

# Tables that are not desk.py's, or in which somebody has written: name, content, the message.
SOMEBODYS = [
    ("next.csv", "student,workshop\nAnna,Dye\n", OTHERS),
    ("next.csv", "", OTHERS),
    ("next.csv", 'a"b,"c"d\n', OTHERS),
    ("next.csv", VISIT_HEAD + "Anna Berg,Dye house,,\nBen Olsen,Dye house,,\n", OTHERS),
    ("next.csv", PLACEMENT_HEAD, OTHERS),
    ("next.csv", VISIT_HEAD + "Anna Berg,Dye house,5,\n", MARKS_THERE),
    ("next.csv", VISIT_HEAD + "Anna Berg,Dye house,,never\n", MARKS_THERE),
    ("placement.csv", "a list\n", OTHERS),
    ("placement.csv", b"PK\x03\x04", OTHERS),
    ("placement.csv", '"abc', OTHERS),
    ("placement.csv", NEXT_HEAD, OTHERS),
]


def tables_of_others(folder):
    """What is not desk.py's stays, and both tables with it; so does what is behind a link."""
    out = finished_out(folder)
    for name, data, message in SOMEBODYS:
        before = read(out, name)
        write(out, name, data)
        tables_kept(folder, f"{name} with {data!r}", message.format(name))
        write(out, name, before)
    link = os.path.join(out, "next.csv")
    for name, rows in (("visits.csv", read(folder, "visits.csv")), ("a year to come.csv", VISIT_HEAD.encode() + b"Anna Berg,Dye house,,\n")):
        os.remove(link)
        os.symlink(f"../{name}", link)
        write(folder, name, rows)
        tables_kept(folder, f"a link to {name}", OTHERS.format("next.csv"))
        check(f"tables kept: {name} behind a link", read(folder, name) == rows)
    os.remove(link)
    write(out, "next.csv", VISIT_HEAD.title())
    check("headings in capitals are desk.py's", desk(folder, "--csv", "out")[0] == 0 and tables_in(out) == OUT_DONE)


def tables_not_written(folder):
    """Tables that are protected or open, and a disk without room: both stay."""
    out = finished_out(folder)
    for name in OUT_DONE:
        os.chmod(os.path.join(out, name), 0o444)
        tables_kept(folder, f"{name} protected", f"out/{name} is protected against writing. Nothing was written.")
        os.chmod(os.path.join(out, name), 0o644)
        write(out, f".~lock.{name}#", "")
        tables_kept(folder, f"{name} open", f"out/{name} is open in a spreadsheet: save and close it there, then type the command again. Nothing was written.")
        os.remove(os.path.join(out, f".~lock.{name}#"))
    tables_kept(folder, "no room", "out/next.csv and out/placement.csv cannot be written in this folder: File too large.",
                first=lambda: resource.setrlimit(resource.RLIMIT_FSIZE, (60, 60)))


def folders_for_tables(folder):
    """A file, no folder, the home folder; and with wrong tables a folder that was made goes again."""
    out = finished_out(folder)
    write(folder, "a file", "")
    answers("a file for the folder", desk(folder, "--csv", "a file"), (1, "", "a file is no folder. Nothing was written.\n"))
    answers("no folder", desk(folder, "--csv", "/proc/out")[2],
            "There is no folder /proc/out, and it cannot be made: No such file or directory. Nothing was written.\n")
    check("the home folder", desk(folder, "--csv=~/mine", HOME=folder)[0] == 0 and tables_in(os.path.join(folder, "mine")) == OUT_DONE, str(os.listdir(folder)))
    write(folder, "pairs.csv", "")
    before = read_all(out)
    check("tables kept: wrong tables", desk(folder, "--csv", "out")[0] == 1 and read_all(out) == before)
    check("a folder for nothing goes again", desk(folder, "--csv", "new")[0] == 1 and not os.path.exists(os.path.join(folder, "new")))


def tables_of_one_answer(folder):
    """The tables are read under the lock; a signal while the one takes its place, or the other, comes when both have; a disk that fails between is told."""
    add_visits(folder, K_VISITS[:3])
    desk(folder, "--csv", "out")
    out = os.path.join(folder, "out")
    with open(os.path.join(out, ".placement.csv.lock"), "wb") as lock:
        fcntl.flock(lock, fcntl.LOCK_EX)
        run = start_desk(folder, OTHER_DESK.format(""), "--csv", "out")
        time.sleep(1)
        add_visits(folder, K_VISITS[3:])
        fcntl.flock(lock, fcntl.LOCK_UN)
    run.communicate()
    answers("read under the lock", tables_in(out), OUT_DONE)
    begun = {"next.csv": f"\ufeff{NEXT_HEAD}Anna Berg,Dye house,,\r\n", "placement.csv": "\ufeff" + PLACEMENT_HEAD}
    for number in (1, 2):
        visits = read(folder, "visits.csv")
        write(folder, "visits.csv", VISIT_HEAD)
        told = other_desk(folder, OTHER_DESK.format(AT_REPLACE.format(number, "os.kill(os.getpid(), signal.SIGTERM)")), "--csv", "out")
        answers(f"a signal at table {number}", (told, tables_in(out)), ((128 + signal.SIGTERM, "", ""), begun))
        write(folder, "visits.csv", visits)
        desk(folder, "--csv", "out")
    told = other_desk(folder, OTHER_DESK.format(AT_REPLACE.format(2, "fail()")), "--csv", "out")
    answers("a disk that fails between", told, (1, "", "out/placement.csv cannot be written in this folder: Input/output error.\n"
                                                       "Only out/next.csv was written. Type the command again.\n"))
    check("a disk that fails between: nothing is left", sorted(os.listdir(out)) == sorted(OUT_DONE), str(os.listdir(out)))


def tables_at_once(folder):
    """Six at once, on a slow disk, while the year goes on: the two tables are of one answer, and of the last. One that does not end is told."""
    add_visits(folder, K_VISITS[:3])
    out = os.path.join(folder, "out")
    runs = [start_desk(folder, SLOW_DISK, "--csv", "out") for _ in range(3)]
    time.sleep(0.5)
    add_visits(folder, K_VISITS[3:])
    runs += [start_desk(folder, SLOW_DISK, "--csv", "out") for _ in range(3)]
    told = [(run.communicate()[1], run.returncode) for run in runs]
    check("tables at once: the last answer stays", tables_in(out) == OUT_DONE, f"{tables_in(out)} {told}")
    waits = b"out/placement.csv is in use: desk.py --csv, typed by "
    check("tables at once: written, or told to wait", all(status == 0 or waits in err for err, status in told), str(told))
    with endless(folder, "--csv", "out") as run:
        told_in_use("tables in use", desk(folder, "--csv", "out"), "out/placement.csv", "--csv", run)
        check("tables in use: lots can be written", desk(folder, "lots")[0] == 0 and desk(folder)[0] == 0)
    check("tables in use: the next one goes on", desk(folder, "--csv", "out")[0] == 0 and tables_in(out) == OUT_DONE, str(os.listdir(out)))


# ---------------------------------------------------------------- files that are no tables, terminals


def no_tables(folder):
    """A pipe, a device, a folder, a huge file: refused at once. Other formats under a .csv name are named."""
    own = "{} is no ordinary file. Save the table under this name, as CSV.\n"
    path = os.path.join(folder, "pairs.csv")
    kinds = (("a pipe", lambda: os.mkfifo(path)), ("a device", lambda: os.symlink("/dev/zero", path)), ("a folder", lambda: os.mkdir(path)))
    for name, make in kinds:
        os.remove(path)
        make()
        for words in ((), ("stages",), ("why", "Anna Berg", "Dye house"), ("--csv", "out")):
            answers(f"{name} as a table {words}", desk(folder, *words), (1, "", own.format("pairs.csv")))
        (os.rmdir if name == "a folder" else os.remove)(path)
        write(folder, "pairs.csv", NEW_FILES["pairs.csv"])
    os.truncate(path, (32 << 20) + 1)
    answers("a huge file", desk(folder), (1, "", "pairs.csv has 33554433 bytes; a table has at most 33554432. Is this the right file?\n"))
    os.truncate(path, 32 << 20)
    check("the largest file is read", "bytes" not in desk(folder)[2], desk(folder)[2][:200])
    write(folder, "pairs.csv", NEW_FILES["pairs.csv"])
    names = {"an .xlsx workbook": b"PK\x03\x04" + bytes(26) + b"[Content_Types].xml", "an .xls workbook": b"\xd0\xcf\x11\xe0\xa1\xb1\x1a\xe1",
             "an .ods workbook": b"PK\x03\x04" + bytes(25) + b"\n" + b"mimetypeapplication/vnd.oasis.opendocument.spreadsheet", "a PDF file": b"%PDF-1.7",
             "a text in UTF-16": "student,stage".encode("utf-16"), "a text in UTF-16 ": b"\xfe\xff" + "student,stage".encode("utf-16-be")}
    for what, data in ((what.strip(), data) for what, data in names.items()):
        write(folder, "students.csv", data)
        for words in ((), ("lots",), ("stages",)):
            answers(f"{what} {words}", desk(folder, *words),
                    (1, "", f"students.csv {IS_NO_CSV.format(what)}\n"))
        check(f"{what}: nothing is written", read(folder, "students.csv") == data)


def first_lines(folder):
    """`sep=;` in the first line is no row, and stays; it says what stands between the cells, whatever there is more of."""
    for lead in ("sep=;\r\n", "\ufeffsep=;\r\n", '"sep=;"\n', "SEP=;\r"):
        text = lead + "stu,dent,s,x,y,z;student;stage;line group;lot\r\n;Anna Berg;;2;1\r\n;Ben Olsen;;2;2\r\n;Carla Roth;;2;\r\n"
        write(folder, "students.csv", text)
        check(f"{lead!r}: lots", drawing([9], folder)[0] == 0 and read(folder, "students.csv").decode() == text.replace("Roth;;2;", "Roth;;2;9"))
        status, out, err = desk(folder, "stages")
        wanted = lead + "stu,dent,s,x,y,z;student;stage;line group;lot\r\n;Anna Berg;1;2;1\r\n;Ben Olsen;2;2;2\r\n;Carla Roth;2;2;9\r\n"
        check(f"{lead!r}: stages", status == 0 and read(folder, "students.csv").decode() == wanted, f"{read(folder, 'students.csv')}{err}")
        check(f"{lead!r}: read", desk(folder)[1].startswith("Next visit: Anna Berg goes to Dye house.\n"), str(desk(folder)))
        write(folder, "students.csv", wanted.encode().replace(b"Ben", b"B\xf6n"))
        check(f"{lead!r}: a letter that is not UTF-8", lead == "SEP=;\r" or desk(folder)[2].startswith("students.csv, row 3: a letter is not"), desk(folder)[2])
        write(folder, "students.csv", wanted.replace("Ben Olsen;2", "Ben Olsen;x"))
        check(f"{lead!r}: the heading is row 1", desk(folder)[2].startswith('students.csv, row 3, column "stage": "x" is there'), desk(folder)[2])
    write(folder, "students.csv", "sep=\t\nstudent\tstage\tline group\tlot\nAnna, Berg\t1\t2\t1\n")
    write(folder, "pairs.csv", 'sep=,\n' + pairs('"Anna, Berg",Dye house,1,1\n'))
    check("tabs", desk(folder)[1].startswith("Next visit: Anna, Berg goes to Dye house.\n"), str(desk(folder)))


def other_terminals(folder):
    """Names can be read where the terminal knows only some letters. A closed pipe is no error."""
    write(folder, "students.csv", students("J\u00f6rg Gro\u00df,1,2\n\u0141\u00f3d\u017a \u00d8rsted,2,2\n\u738b,2,2\n"))
    write(folder, "pairs.csv", pairs("".join(f"{s},Dye house,1,1\n" for s in ("J\u00f6rg Gro\u00df", "\u0141\u00f3d\u017a \u00d8rsted", "\u738b"))))
    for encoding, names in (("utf-8", ("J\u00f6rg Gro\u00df", "\u0141\u00f3d\u017a \u00d8rsted", "\u738b")),
                            ("latin-1", ("J\u00f6rg Gro\u00df", "L\u00f3dz \u00d8rsted", "(U+738B)")),
                            ("ascii", ("Jorg Gross", "Lodz Orsted", "(U+738B)"))):
        env = {**os.environ, "PYTHONIOENCODING": encoding}
        done = subprocess.run([sys.executable, DESK, "lots"], cwd=folder, env=env, capture_output=True)
        told = [line.split("  ")[-1] for line in done.stdout.decode(encoding).split("\n")[1:4]]
        check(f"names in {encoding}", done.returncode == 0 and told == list(names), f"{told}{done.stderr}")
        write(folder, "visits.csv", VISIT_HEAD + "J\u00f6rg,Dye house,1,1\n")
        done = subprocess.run([sys.executable, DESK], cwd=folder, env=env, capture_output=True)
        check(f"messages in {encoding}", f'there is no "{names[0].split()[0]}" in students.csv.' in done.stderr.decode(encoding), str(done.stderr))
        write(folder, "visits.csv", VISIT_HEAD)
    for words in ((), ("lots",), ("why", "jorg gross", "DYE HOUSE")):
        reader, writer = os.pipe()
        os.close(reader)
        done = subprocess.run([sys.executable, DESK, *words], cwd=folder, stdout=writer, stderr=subprocess.PIPE)
        os.close(writer)
        check(f"a closed pipe {words}", (done.returncode, done.stderr) == (0, b""), f"{done.returncode} {done.stderr}")
    for words, wrote in ((("lots",), False), (("--csv", "out"), True)):
        closed = subprocess.run(["sh", "-c", 'exec "$@" >&-', "sh", sys.executable, DESK, *words], cwd=folder, stderr=subprocess.PIPE)
        check(f"no terminal {words}", b"Traceback" not in closed.stderr and os.path.exists(os.path.join(folder, "out")) == wrote, str(closed.stderr))
    for words in (("why",), ("why", "Anna"), ("why", "a", "b", "c"), ("lots", "Anna"), ("nothing",), ("--csv",), ("lots", "--csv", "out"),
                  ("why", "a", "b", "--visits"), ("--semicolon",), ("stages", "--visits")):
        answers(f"a wrong command {words}", desk(folder, *words)[:2], (2, ""))


# ---------------------------------------------------------------- whole colleges


def college(seed, students, workshops, met, most):
    """All visits are held before: one answer, within so many seconds; then the stages; the answer as tables; and a reason for somebody."""
    year = HiddenYear(seed, 0.1, students=students, workshops=workshops, met=met, equal=True)
    with tempfile.TemporaryDirectory() as folder:
        write_year(folder, year)
        took = {"first": timed(folder)}
        add(folder, "visits.csv", csv_text([(*couple, *year.marks(*couple)) for couple in year.couples]))
        took["answer"] = timed(folder, "--csv", "out")
        out = took["answer"][1][1]
        check(f"college {students} x {workshops}: best for the students", placed_by(out, year) == year.best_for_students(), out[:500])
        check(f"college {students} x {workshops}: summary", summary(year, placed_by(out, year)) in out, out[-500:])
        write_students(folder, year, dict.fromkeys(year.stage, ""))
        took["stages"] = timed(folder, "stages")
        check(f"college {students} x {workshops}: stages", written_stages(folder) == smallest_stages(year.stage, year.tables()))
        lost = next(s for s, w in placed_by(out, year).items() if w is None)
        took["why"] = timed(folder, "why", lost, next(w for s, w in year.couples if s == lost))
        took["no stages"] = turned(folder, year)
    for name, (seconds, (status, said, err)) in took.items():
        check(f"college {students} x {workshops}: {name}", status == (name == "no stages") and seconds < most, f"{seconds} s {said[-300:]}{err}")
    print(f"college {students} x {workshops}, {len(year.couples)} pairs: {', '.join(f'{name} {took[name][0]:.1f} s' for name in took)}")


def timed(folder, *words):
    start = time.monotonic()
    told = desk(folder, *words)
    return time.monotonic() - start, told


def turned(folder, year):
    """Two students exchange their groups at the last workshop where both count: then no stages agree, and it is told where."""
    w = [w for w in year.quota if year.quota[w]][-1]
    one, two = (next(s for s in year.stage if (s, w) in year.group and year.stage[s] == n) for n in (1, 2))
    rows = [(s, v, year.group[s, v], year.group[v, {one: two, two: one}.get(s, s) if v == w else s], 0) for s, v in year.couples]
    write(folder, "pairs.csv", FARE_HEAD.replace(",", ";") + csv_text(rows))
    took = timed(folder, "stages")
    check("college: where no stages agree", took[1][2].startswith("No stage numbers agree") and f"\n  {w}: " in took[1][2], took[1][2])
    return took


# ---------------------------------------------------------------- several at once

LOCK = ".students.csv.lock"
IN_USE = "students.csv is in use: {}.\nNothing was written. Type the command again when that has ended.\n"
GUIDE_HOLDER = "desk.py stages, typed by anna on college7, process 4711, since 2026-11-17 14:05:11"
UNLOCKED = "students.csv cannot be written in this folder: {} ({})."
CHANGED = ("students.csv changed again and again while desk.py was reading. Nothing was written.\n"
           "Type the command again when nobody is saving a table in this folder.\n")

# desk.py on a disk that takes its time to write: so much lies between the last look at a table and the new one. With an engine that takes its time. And
# with one that does not end, and makes a file when it begins.
OTHER_DESK = """
import os, runpy, sys, time
sys.dont_write_bytecode = True
sys.argv = sys.argv[1:]
sys.path.insert(0, os.path.dirname(sys.argv[0]))
import lgs
place = lgs.place
{}
runpy.run_path(sys.argv[0], run_name="__main__")
"""
SLOW_DISK = OTHER_DESK.format("os.fsync = lambda file: time.sleep(0.3)")
SLOW_ENGINE = OTHER_DESK.format("lgs.place = lambda *files: (time.sleep(0.2), place(*files))[1]")
AT_REPLACE = """
import errno, signal
real, count = os.replace, []
def fail(): raise OSError(errno.EIO, os.strerror(errno.EIO))
def replace(*names):
    count.append(names)
    if len(count) == {}: {}
    return real(*names)
os.replace = replace
"""
INTERRUPTED = """
import builtins, os, runpy, signal, sys
real = builtins.__import__
builtins.__import__ = lambda name, *rest: (name == "difflib" and os.kill(os.getpid(), signal.SIGINT), real(name, *rest))[1]
sys.argv = sys.argv[1:]
runpy.run_path(sys.argv[0], run_name="__main__")
"""
ENDLESS = OTHER_DESK.format("lgs.place = lgs.stages = lambda *files: (open(os.environ['STARTED'], 'w').close(), time.sleep(60))")

# students.csv with its rows in two orders, and the placement that is told for each. The second is the first with other numbers for the names.
TWO_ORDERS = [K_STUDENTS.format(1, 2, 3), "student,stage,line group,lot\nCarla Roth,2,2,3\nBen Olsen,2,2,2\nAnna Berg,1,2,1\n"]
TWO_PLACED = [K_PLACED, "\n".join(K_PLACED.split("\n")[:2] + K_PLACED.split("\n")[4:1:-1] + K_PLACED.split("\n")[5:])]


def save(folder, name, data):
    """As `write`, but the new file takes the old one's place."""
    with tempfile.NamedTemporaryFile("wb", dir=folder, prefix=".", delete=False) as f:
        f.write(data if isinstance(data, bytes) else data.encode())
    os.replace(f.name, os.path.join(folder, name))


def parallel_loops(folder):
    """Six clerks, each of whom saves students.csv in one of two orders and runs desk.py, again and again, with an engine that takes its time: every
    answer is that of one of the two orders."""
    add_visits(folder, K_VISITS)

    def clerk(number):
        told = []
        for turn in range(6):
            save(folder, "students.csv", TWO_ORDERS[(number + turn) % 2])
            told.append(other_desk(folder, SLOW_ENGINE))
        return told

    with ThreadPoolExecutor(6) as clerks:
        told = [answer for answers_of_one in clerks.map(clerk, range(6)) for answer in answers_of_one]
    for answer in told:
        check("six at once: an answer of one of the two orders", answer in [(0, placed, "") for placed in TWO_PLACED], str(answer))
    check("six at once: nothing is left behind", sorted(os.listdir(folder)) == sorted(NEW_FILES), str(os.listdir(folder)))


def other_desk(folder, code, *words):
    """What another desk.py says."""
    run = start_desk(folder, code, *words)
    out, err = run.communicate()
    return run.returncode, out.decode(), err.decode()


def start_desk(folder, code, *words, **more):
    return subprocess.Popen([sys.executable, "-c", code, DESK, *words], cwd=folder, env={**os.environ, **more}, stdin=subprocess.DEVNULL,
                            stdout=subprocess.PIPE, stderr=subprocess.PIPE, start_new_session=True, preexec_fn=usual_signals)


def usual_signals():
    """Signals that whoever runs the tests may have turned off."""
    for number in (signal.SIGTERM, signal.SIGHUP, signal.SIGINT, signal.SIGQUIT):
        signal.signal(number, signal.SIG_DFL)


def another_run_meanwhile(folder):
    """While the engine is at work for one run students.csv is saved in another order, and another run is made. Each has its own answer."""
    add_visits(folder, K_VISITS)
    write(folder, "students.csv", TWO_ORDERS[0])
    said, lgs = [], InProcess().module.lgs

    def between(*files):
        write(folder, "students.csv", TWO_ORDERS[1])
        said.append(desk(folder))
        return lgs.place(*files)

    answers("another run meanwhile: the first", InProcess().run(folder, lgs=engine(place=between)), (0, TWO_PLACED[0], ""))
    answers("another run meanwhile: the other", said, [(0, TWO_PLACED[1], "")])


def at_once(folder, *words):
    """Six runs that begin together, on a slow disk: the status, the text and the complaint of each."""
    runs = [start_desk(folder, SLOW_DISK, *words) for _ in range(6)]
    told = [(run.communicate(), run.returncode) for run in runs]
    return [(status, out.decode(), err.decode()) for (out, err), status in told]


def draws_at_once(folder):
    """One draws, and the others tell the lots that it drew. So with the stages; and the example is written once."""
    write(folder, "students.csv", K_STUDENTS.format("", "", ""))
    told = at_once(folder, "lots")
    listed = "".join(f"  {lot:3}  {name}\n" for lot, name in sorted(zip(lots_in(folder), K_NAMES)))
    drawn = [(status, out, err) for status, out, err in told if "(drawn)" in out]
    answers("draws at once: one draws", drawn, [(0, "The lots, the lowest first:\n" + listed.replace("\n", " (drawn)\n") + LOTS_WROTE.format("3 cells"), "")])
    check("draws at once: the others tell what was drawn", sorted(told)[:-1] == [(0, "The lots, the lowest first:\n" + listed + LOTS_THERE, "")] * 5, str(told))
    write(folder, "students.csv", students("Anna Berg,,2\nBen Olsen,,2\nCarla Roth,,2\n"))
    told = sorted(at_once(folder, "stages"))
    answers("stages at once", told, sorted([(0, K_STAGES + WROTE.format("3 cells"), "")] + [(0, K_HAS_THEM, "")] * 5))
    check("at once: nothing is left behind", sorted(os.listdir(folder)) == sorted(NEW_FILES), str(os.listdir(folder)))
    for name in NEW_FILES:
        os.remove(os.path.join(folder, name))
    told = sorted(at_once(folder, "new"))
    there = "students.csv and workshops.csv and pairs.csv and visits.csv are in this folder already. Nothing was written.\n"
    answers("new at once", told, [(0, NEW_SAYS, "")] + [(1, "", there)] * 5)


@contextlib.contextmanager
def endless(folder, *words):
    """A desk.py that Anna has typed, with an engine that does not end."""
    with tempfile.TemporaryDirectory() as other:
        started = os.path.join(other, "started")
        run = start_desk(folder, ENDLESS, *words, STARTED=started, LOGNAME="anna")
        try:
            while run.poll() is None and not os.path.exists(started):
                time.sleep(0.01)
            yield run
        finally:
            with contextlib.suppress(ProcessLookupError):
                os.killpg(run.pid, signal.SIGKILL)
            run.communicate()


def in_use(folder):
    """Where a run does not end, another one that would write says who it is, after a moment; one that only reads is not held up. When the first is
    killed its lock is left behind, and stops nobody; nor does the one that it found."""
    blank = K_STUDENTS.format("", 2, 3)
    write(folder, LOCK, 300 * "x")
    with endless(folder, "stages") as run:
        check("in use: desk.py answers", desk(folder)[1].startswith("Next visit: "), str(desk(folder)))
        write(folder, "students.csv", blank)
        told_in_use("in use", desk(folder, "lots"), "students.csv", "stages", run)
        check("in use: nothing is written", read(folder, "students.csv") == blank.encode())
        run.kill()
        run.wait()
        check("killed: its lock is left", os.path.exists(os.path.join(folder, LOCK)))
        status, out, err = desk(folder, "lots")
        check("killed: the next one goes on", status == 0 and "Anna Berg (drawn)\n" in out, out + err)
        check("killed: its lock is gone", sorted(os.listdir(folder)) == sorted(NEW_FILES), str(os.listdir(folder)))


def told_in_use(name, told, table, command, run):
    """Who has the table is told."""
    status, out, err = told
    who = f"desk.py {command}, typed by anna on {os.uname().nodename}, process {run.pid}, since "
    when = re.escape(IN_USE.replace("students.csv", table).format(who + "WHEN")).replace("WHEN", "[-0-9]{10} [:0-9]{8}")
    check(name, (status, out) == (1, "") and re.fullmatch(when, err), out + err)


def locked(path, text, run):
    """What a run says while this file is locked, with this text in it."""
    with open(path, "wb", buffering=0) as lock:
        fcntl.flock(lock, fcntl.LOCK_EX)
        lock.write(text)
        try:
            return run()
        finally:
            os.remove(path)


def ended_by_signals(folder):
    """`kill`, a closed terminal and Ctrl-C end a run without a word, and nothing is left behind."""
    for words in (("stages",), (), ("--csv", ".")):
        for number in (signal.SIGTERM, signal.SIGHUP, signal.SIGINT, signal.SIGQUIT):
            with endless(folder, *words) as run:
                run.send_signal(number)
                answers("ended by a signal", (*run.communicate(), run.returncode), (b"", b"", 128 + number))
                check("ended by a signal: nothing is left", sorted(os.listdir(folder)) == sorted(NEW_FILES), str(os.listdir(folder)))
    answers("Ctrl-C while it starts", other_desk(folder, INTERRUPTED), (-signal.SIGINT, "", ""))


def locks(folder):
    """The lock's text is told as far as it can be printed. Its file stands beside the file behind a link, is everybody's, and is no link itself; one that
    was removed locks nothing; and without locks nothing is written."""
    blank, path, process = K_STUDENTS.format("", 2, 3), os.path.join(folder, LOCK), InProcess()
    short = lambda: process.run(folder, "lots", MOMENT=0.1)
    write(folder, "students.csv", blank)
    for text, told in ((b"", "another desk.py"), (b"\x1b[2Jdesk\xff\n", "[2Jdesk\ufffd")):
        answers(f"a lock with {text}", locked(path, text, short), (1, "", IN_USE.format(told)[:-1]))
    with tempfile.TemporaryDirectory() as other:
        behind = os.path.join(os.path.realpath(other), ".shared.csv.lock")
        write(other, "shared.csv", blank)
        os.remove(os.path.join(folder, "students.csv"))
        os.symlink(os.path.join(other, "shared.csv"), os.path.join(folder, "students.csv"))
        answers("a lock behind a link", locked(behind, b"desk.py", short), (1, "", IN_USE.format("desk.py")[:-1]))
        os.symlink(os.path.join(folder, "visits.csv"), behind)
        before = read_all(folder)
        answers("a link as the lock", short(), (1, "", UNLOCKED.format(os.strerror(errno.ELOOP), behind)))
        os.remove(behind)
        no_locks = {"fcntl": SimpleNamespace(flock=fails(errno.ENOLCK), LOCK_EX=0, LOCK_NB=0)}
        answers("a disk without locks", process.run(folder, "lots", **no_locks), (1, "", UNLOCKED.format(os.strerror(errno.ENOLCK), behind)))
        check("without a lock: nothing is written", read_all(folder) == before)
        check("behind a link: lots", desk(folder, "lots")[0] == 0 and os.listdir(other) == ["shared.csv"], str(os.listdir(other)))
        check("a disk without locks: lots that are there", process.run(folder, "lots", **no_locks)[1].endswith(LOTS_THERE))
        check("an empty disk quota: lots that are there",
              desk(folder, "lots", first=lambda: resource.setrlimit(resource.RLIMIT_FSIZE, (0, 0)))[1].endswith(LOTS_THERE))
    with process.module.open_lock(path) as one, process.module.open_lock(path) as two:
        check("a lock is everybody's", stat.S_IMODE(os.stat(path).st_mode) == 0o666)
        check("a lock is taken once", process.module.is_taken(path, one) and not process.module.is_taken(path, two))
        os.remove(path)
        one.close()
        check("a removed lock is none", not process.module.is_taken(path, two))


def fails(number):
    def what(*_):
        raise OSError(number, os.strerror(number))
    return what


def held_to_the_end(folder):
    """Nobody else can take the lock while its file is removed; and rights of new files are as they were."""
    write(folder, "students.csv", K_STUDENTS.format("", 2, 3))
    process, remove, taken = InProcess(), os.remove, []

    def removing(path):
        if os.path.basename(path) == LOCK:
            with open(path, "rb") as other:
                taken.append(process.module.is_taken(path, other))
        remove(path)

    os.remove = removing
    try:
        status, out, err = process.run(folder, "lots")
    finally:
        os.remove = remove
    check("held to the end", status == 0 and taken == [False], f"{out}{err}{taken}")
    with tempfile.TemporaryDirectory() as other:
        desk(other, "new", first=lambda: os.umask(0o027))
        check("rights of new files", {stat.S_IMODE(os.stat(os.path.join(other, name)).st_mode) for name in NEW_FILES} == {0o640})


# Locks that somebody else left: rights of the folder, whose students.csv is, and rights of the lock; whether lots can be written.
LEFT = [
    (0o555, 0, 0o666, False),
    (0o555, 0, 0o644, False),
    (0o777, 0, 0o666, True),
    (0o777, 0, 0o644, True),
    (0o777, 0, 0o600, False),
    (0o1777, 54321, 0o666, True),
    (0o1777, 54321, 0o644, True),
]


def left_by_others(folder):
    """A lock that somebody else left stops nobody who can read it, nor does a folder in which nothing can be written: lots that are there are told, and
    where students.csv can be written, lots are drawn. (Only root can be somebody else.)"""
    path, listed = os.path.join(folder, "students.csv"), "".join(f"  {lot:3}  {name}\n" for lot, name in enumerate(K_NAMES, 1))
    for rights, owner, rights_of_lock, written in LEFT if os.getuid() == 0 else []:
        name = f"a lock {rights_of_lock:o} in a folder {rights:o}"
        for first in ("1", ""):
            write(folder, "students.csv", K_STUDENTS.format(first, 2, 3))
            write(folder, LOCK, "desk.py")
            os.chown(path, owner, -1)
            for file, its in ((path, 0o666), (os.path.join(folder, LOCK), rights_of_lock), (folder, rights)):
                os.chmod(file, its)
            status, out, err = as_user(54321, folder, "lots")
            if first:
                answers(f"{name}: lots that are there", (status, out, err), (0, "The lots, the lowest first:\n" + listed + LOTS_THERE, ""))
            elif written:
                check(f"{name}: lots are drawn", status == 0 and "Anna Berg (drawn)" in out and are_lots(lots_in(folder), 3), out + err)
            else:
                check(f"{name}: lots are not drawn", (status, lots_in(folder)) == (1, [None, 2, 3])
                      and err.startswith("students.csv cannot be written in this folder: Permission denied"), out + err)
            os.chmod(folder, 0o700)


def signed_by_others(folder):
    """A lock that somebody else left, and that one may not write, is made anew, so that it says who has it. (Only root can be somebody else.)"""
    if os.getuid():
        return
    process = InProcess()

    def told(*_):
        raise process.module.Stop(read(folder, LOCK).decode())

    write(folder, "students.csv", K_STUDENTS.format("", 2, 3))
    write(folder, LOCK, "desk.py stages, typed by anna")
    for path, rights in ((os.path.join(folder, "students.csv"), 0o666), (os.path.join(folder, LOCK), 0o644), (folder, 0o777)):
        os.chmod(path, rights)
    status, out, err = as_user(54321, folder, "lots", draw_lots=told)
    check("a lock made anew", status == 1 and err.startswith("desk.py lots, typed by user 54321 "), out + err)


def as_user(number, folder, command, **settings):
    """What the command says to a user who has no name, and no rights but everybody's."""
    reader, writer = os.pipe()
    child = os.fork()
    if not child:
        try:
            os.chdir("/")
            for name in ("LOGNAME", "USER", "LNAME", "USERNAME"):
                os.environ.pop(name, None)
            os.setgroups([])
            os.setgid(number)
            os.setuid(number)
            os.write(writer, json.dumps(InProcess().run(folder, command, **settings)).encode())
        finally:
            os._exit(0)
    os.close(writer)
    os.waitpid(child, 0)
    with open(reader, "rb") as f:
        return tuple(json.loads(f.read() or b'[2, "", "it failed"]'))


def saved_while_written(folder):
    """Somebody saves students.csv while the new one goes to the disk: it is not written over, and no lot is told."""
    blank, saved, fsync = K_STUDENTS.format("", 2, 3), K_STUDENTS.format("", 2, 4), os.fsync
    write(folder, "students.csv", blank)
    os.fsync = lambda file: save(folder, "students.csv", saved)
    try:
        told = InProcess().run(folder, "lots")
    finally:
        os.fsync = fsync
    answers("saved while it is written", told, (1, "", MEANWHILE))
    check("saved while it is written: kept", read(folder, "students.csv") == saved.encode() and sorted(os.listdir(folder)) == sorted(NEW_FILES))
    for name in NEW_FILES:
        os.remove(os.path.join(folder, name))
    os.fsync = lambda file: write(folder, "visits.csv", "mine")
    try:
        told = InProcess().run(folder, "new")
    finally:
        os.fsync = fsync
    answers("saved while the example is written", told, (1, "", "visits.csv is in this folder already. Nothing was written."))
    check("saved while the example is written: kept", read_all(folder) == {"visits.csv": b"mine"}, str(os.listdir(folder)))


def watched(before):
    """An `open` for desk.py that first calls this with the file's name, and with how often it was opened by then."""
    count = {}

    def opening(name, *rest, **more):
        count[name] = count.get(name, 0) + 1
        before(name, count[name])
        return open(name, *rest, **more)

    return opening


def replaced_while_read(folder):
    """Lots are exchanged and a visit is added while the four tables are read. Of the old lots and the new visit, which are never there together, another
    placement would come."""
    visits = [VISIT_HEAD + "".join(f"{s},{w},{a},{b}\n" for s, w, a, b in EQUAL_VISITS[:held]) for held in (3, 4)]
    lots = [K_STUDENTS.format(31, 250, 7), K_STUDENTS.format(31, 7, 250)]

    def put(state):
        """The old tables, or the new ones; the students are changed first and changed back last."""
        for name, contents in [("students.csv", lots), ("visits.csv", visits)][::1 if state else -1]:
            save(folder, name, contents[state])

    def put_and_rest(state):
        put(state)
        time.sleep(0.06)

    def answer(before):
        put_and_rest(0)
        return InProcess().run(folder, open=watched(before), AT_REST=0.05)

    for file, number in [(file, number) for file in NEW_FILES for number in (1, 2)]:
        name = f"replaced before {file} is opened, {number}"
        answers(name, answer(lambda *opened: opened == (file, number) and put_and_rest(1)), (0, BEN_PLACED, ""))
    to_and_fro = {("workshops.csv", 1): 1, ("students.csv", 2): 0, ("workshops.csv", 2): 1}
    answers("replaced to and fro", answer(lambda *opened: opened in to_and_fro and put_and_rest(to_and_fro[opened])), (0, BEN_PLACED, ""))
    save(folder, "students.csv", lots[0])
    answers("what is never there together", desk(folder), (0, K_PLACED, ""))
    pauses = []

    def change(name, number):
        if name == "visits.csv":
            save(folder, "students.csv", K_STUDENTS.format(31, 250, 7 + number))

    clock = SimpleNamespace(sleep=pauses.append, time=time.time, monotonic=lambda: sum(pauses))
    answers("replaced again and again", InProcess().run(folder, open=watched(change), time=clock), (1, "", CHANGED[:-1]))
    check("replaced again and again: read again, for a while", len(pauses) > 3 and 2.9 < sum(pauses) < 3.2, str(pauses))


def rewritten_while_read(folder):
    """When half of visits.csv is read, both marks of the mill are changed there. Carla is placed before and after; of the first mark of before and the
    second one of after it would be Ben."""
    old, new = (VISIT_HEAD + "".join(f"{s},{w},{a},{b}\n" for s, w, a, b in K_VISITS[:2])
                + f"Ben Olsen,Weaving mill,-1,{ben}\nCarla Roth,Weaving mill,4,{carla}\n" for ben, carla in ((5, 9), (1, 3)))
    for content in (new, old):
        write(folder, "visits.csv", content)
        answers("before and after", desk(folder), (0, K_PLACED, ""))
    left = [True]

    class Halves(io.FileIO):
        """A file that is written when half of it is read, once."""

        def read(self):
            if not (self.name == "visits.csv" and left and left.pop()):
                return super().read()
            first = super().read(old.index("Carla"))
            with open("visits.csv", "r+b") as f:
                f.write(new.encode())
            return first + super().read()

    answers("rewritten while it is read", InProcess().run(folder, open=lambda name, mode, **more: Halves(name)
            if "r" in mode and not more else open(name, mode, **more)), (0, K_PLACED, ""))
    check("rewritten while it is read: it was", read(folder, "visits.csv") == new.encode() and not left)


def rewritten_to_and_fro(folder):
    """Lots and a mark are changed in the files, to and fro, and the times of the last change set back. The new lots and the old mark are read, twice, but
    are never there together; Ben would be placed by them."""
    old = {"students.csv": K_STUDENTS.format(31, 250, 7), "visits.csv": VISIT_HEAD + "".join("{},{},{},{}\n".format(*visit) for visit in EQUAL_VISITS)}
    new = {"students.csv": K_STUDENTS.format(31, 7, 250), "visits.csv": old["visits.csv"].replace("mill,4,1", "mill,4,6")}

    def put(contents, *names):
        for path in (os.path.join(folder, name) for name in names):
            times = os.stat(path)
            with open(path, "r+b") as f:
                f.write(contents[os.path.basename(path)].encode())
            os.utime(path, ns=(times.st_atime_ns, times.st_mtime_ns))
        time.sleep(0.06)

    def before(*opened):
        if opened in (("workshops.csv", 1), ("workshops.csv", 2)):
            put(old, "students.csv", "visits.csv")
        elif opened == ("students.csv", 2):
            put(new, "visits.csv", "students.csv")

    for name in new:
        write(folder, name, new[name])
    time.sleep(0.06)
    answers("rewritten to and fro", InProcess().run(folder, open=watched(before), AT_REST=0.05), (0, K_PLACED, ""))
    write(folder, "students.csv", new["students.csv"])
    answers("rewritten to and fro: what is never there together", desk(folder), (0, BEN_PLACED, ""))


def half_saved(folder):
    """workshops.csv is being saved: of the quota 10 the first digit is there. The rest comes while desk.py waits, as it does 0.03 s after a change, whatever
    time the file has and however long it takes to read. So with a student of whose name two letters are there."""
    process, whole, names = InProcess(), "workshop,line group,quota\nDye house,3,1\nWeaving mill,3,10\n", "student,lot\nAnna Berg,1\nBen Olsen,\n"
    rest = getattr(process.module, "AT_REST", 0)

    def waiting(command, name, part, content):
        write(folder, name, part)
        os.utime(os.path.join(folder, name), (0, 0))
        now = [os.stat(os.path.join(folder, name)).st_ctime + 0.03]

        def sleep(seconds):
            write(folder, name, content)
            now[0] += 100

        class Slow(io.FileIO):
            def read(self):
                now[0] += 100
                return super().read()

        opening = lambda file, mode, **more: Slow(file) if (file, mode) == (name, "rb") else open(file, mode, **more)
        clock = SimpleNamespace(sleep=sleep, time=lambda: now[0], monotonic=lambda: 0, strftime=time.strftime)
        return process.run(folder, command, AT_REST=rest, time=clock, open=opening)

    add_visits(folder, K_VISITS)
    status, out, err = waiting("answer", "workshops.csv", whole[:-2], whole)
    check("half saved", status == 0 and "\nWeaving mill, 2 of 10: Ben Olsen, Carla Roth\n" in out, out + err)
    status, out, err = waiting("lots", "students.csv", names[:-9], names)
    check("half saved: lots", status == 0 and "  Ben Olsen (drawn)\n" in out and "  1  Anna Berg\n" in out, out + err)


def gone_for_a_moment(folder):
    """A table is removed, and made again while desk.py waits. One that stays away is told."""
    pauses = []

    def back(seconds):
        pauses.append(seconds)
        write(folder, "pairs.csv", NEW_FILES["pairs.csv"])

    def remove(*opened):
        if opened == ("pairs.csv", 1):
            os.remove("pairs.csv")

    clock = lambda sleep: SimpleNamespace(sleep=sleep, time=time.time, monotonic=lambda: sum(pauses))
    status, out, err = InProcess().run(folder, open=watched(remove), time=clock(back))
    check("gone for a moment", status == 0 and out.startswith("Next visit: ") and len(pauses) == 1, out + err)
    status, out, err = InProcess().run(folder, open=watched(remove), time=clock(pauses.append))
    check("gone", (status, out) == (1, "") and err.startswith("pairs.csv is not in this folder ") and sum(pauses) < 1, f"{out}{err}{pauses}")


def stages_while_saved(folder):
    """The mill's quota becomes 0 and the dye house's groups change while `stages` reads. With the old quota and the new groups no stages would agree."""
    write(folder, "students.csv", students("Anna Berg,,2\nBen Olsen,,2\nCarla Roth,,2\n"))
    groups = lambda *dye: pairs("".join(f"{s},Dye house,1,{one}\n{s},Weaving mill,1,{two}\n" for s, one, two in zip(K_NAMES, dye, (1, 2, 2))))
    write(folder, "pairs.csv", groups(1, 2, 2))

    def change(name, number):
        if (name, number) == ("pairs.csv", 1):
            save(folder, "workshops.csv", "workshop,quota,line group\nDye house,1,3\nWeaving mill,0,3\n")
            save(folder, "pairs.csv", groups(2, 1, 1))

    status, out, err = InProcess().run(folder, "stages", open=watched(change))
    check("stages while tables are saved", status == 0 and out.startswith("Stage 1: Ben Olsen, Carla Roth\nStage 2: Anna Berg\n"), out + err)
    check("stages while tables are saved: written", read(folder, "students.csv") == students("Anna Berg,2,2\nBen Olsen,1,2\nCarla Roth,1,2\n").encode())


def try_out(test, *words, **more):
    """One that breaks off is one that failed; the others go on."""
    try:
        test(*words, **more)
    except Exception:
        check(f"{test.__name__} {words}", False, traceback.format_exc())


def main():
    NEW_FILES.update(new_files()[0])
    for test in (example_k, guide, never, ends_of_a_visit, nevers_of_a_workshop, lots_drawn, lots_of_many, lots_kept, wrong_lots,
                 writing_lots, equal_marks, fares, fares_column, other_spellings, accents, planned_row, unused_visit, stages_note,
                 withdrawal, refusals, other_refusals, parts_of_the_desk, other_folders, stages_of_k, stages_kept, stages_wrong, no_stages,
                 changed_meanwhile, writing_stages, open_in_a_spreadsheet, parallel_loops, another_run_meanwhile, draws_at_once,
                 in_use, ended_by_signals, locks, held_to_the_end, left_by_others, signed_by_others, saved_while_written, replaced_while_read,
                 rewritten_while_read, rewritten_to_and_fro, half_saved, gone_for_a_moment, stages_while_saved, no_agreement, unfinished, as_tables,
                 as_tables_elsewhere, tables_of_others, tables_not_written, folders_for_tables, tables_of_one_answer, tables_at_once, no_tables,
                 first_lines, other_terminals, sums):
        try_out(in_new_folder, test)
    for test in (wrong_inputs, lots_of_new, draws, only_cells, small_years, settled):
        try_out(test)
    try_out(whole_year, 1, share=0, most_fare=None)
    try_out(whole_year, 2, share=0.3)
    try_out(whole_year, 3, share=0.3, prepare=work_out, stages=6, met=0.25)
    try_out(whole_year, 4, share=0, equal=True, most_fare=65535)
    try_out(whole_year, 5, share=0.3, equal=True)
    try_out(whole_year, 6, share=0.1, students=40, workshops=8)
    try_out(college, 7, 400, 20, 0.5, most=15)
    try_out(college, 8, 512, 64, 1, most=30)
    print(f"{tally['passed']} passed, {tally['failed']} failed")
    return 1 if tally["failed"] else 0


if __name__ == "__main__":
    sys.exit(main())
