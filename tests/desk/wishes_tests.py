"""Tests of `desk.py wishes`: the guide's example to the byte, every message, lines that are damaged at random, made-up years written and read, all else in the
tables kept, what stands in the way of writing, several at once, a whole college.

    LGS_LIBRARY=LIBLGS.SO python3 wishes_tests.py DESK.PY
"""
import collections
import csv
import errno
import io
import os
import random
import re
import resource
import subprocess
import sys
import tempfile
import time

from desk_tests import (AT_REPLACE, DESK, K_NAMES, K_PLACED, K_VISITS, NEW_FILES, OTHER_DESK, RANGE, SLOW_DISK, VISIT_HEAD, InProcess, add_visits, answers,
                        check, csv_text, desk, engine, fails, in_new_folder, new_files, other_desk, pairs, read, read_all, shows, start_desk, students, tally,
                        told_in_use, try_out, write)

K_LINES = "1: {1,2},-\n2: {1,2},-\n3: 1,{-,2}\n"
NEW_LINES = "1: {1,2},-\n2: 2,1,-\n3: {2,1,-}\n"    # the guide's
NUMBERS = """
Students:
    1  Anna Berg
    2  Ben Olsen
    3  Carla Roth
Workshops:
    1  Dye house
    2  Weaving mill
    -  none
"""
WROTE_LINES = "Wrote wishes.txt: the wishes of 3 students, a line for each.\n" + NUMBERS
HAS_LINES = "wishes.txt has these lines already. Nothing was written.\n" + NUMBERS
READ = "Lines read from wishes.txt: 3. Students whose wishes changed: {}.\n"
WROTE = ("\nWrote them in {0}: {1} changed, all else is as it was.\n"
         "A spreadsheet that still shows {2} shows the old wishes: open the file again there before you change it.\n")
BOTH = ("students.csv and pairs.csv", "{}", "students.csv or pairs.csv")
HAVE_THEM = "students.csv and pairs.csv have these wishes already. Nothing was written.\n"
NEW_SAID = READ.format(2) + "    2  Ben Olsen\n    3  Carla Roth\n" + WROTE.format(*BOTH).format("4 cells")
NOTE = "\nNote: visits.csv has marks already. They stay good, but with other wishes desk.py may ask for other visits and find another placement.\n"
END = "\nNothing was written. Correct this and type the command again.\n"
SED = "  sed -i 's/^\\xef\\xbb\\xbf//; s/\\r$//' "


def read_in(folder, file="wishes.txt", **settings):
    """`desk.py wishes FILE`, in this process."""
    return InProcess().run(folder, lambda module: module.wishes([file], None), **settings)


def write_in(folder, file="wishes.txt", **settings):
    """`desk.py wishes --write FILE`, in this process."""
    return InProcess().run(folder, lambda module: module.wishes([], file), **settings)


# ---------------------------------------------------------------- the guide's example


def after_reading():
    """The example's tables with the guide's new lines."""
    tables = dict(NEW_FILES)
    tables["students.csv"] = tables["students.csv"].replace(b"Ben Olsen,2,2,", b"Ben Olsen,2,3,").replace(b"Carla Roth,2,2,", b"Carla Roth,2,1,")
    tables["pairs.csv"] = tables["pairs.csv"].replace(b"Ben Olsen,Dye house,1,", b"Ben Olsen,Dye house,2,").replace(
        b"Carla Roth,Weaving mill,2,", b"Carla Roth,Weaving mill,1,")
    return tables


def guide_text():
    with open(os.path.join(os.path.dirname(DESK), "..", "docs", "GUIDE.md"), encoding="utf-8") as f:
        return f.read()


def example(folder):
    """The guide's example, as it is typed; and what the guide shows."""
    text = guide_text()
    steps = [(("wishes", "--write", "wishes.txt"), None, WROTE_LINES), (("wishes", "--write", "wishes.txt"), None, HAS_LINES),
             (("wishes", "wishes.txt"), NEW_LINES, NEW_SAID), (("wishes", "wishes.txt"), None, READ.format(0) + HAVE_THEM)]
    for words, lines, said in steps:
        if lines:
            check("the lines that were written", read(folder, "wishes.txt") == K_LINES.encode(), str(read(folder, "wishes.txt")))
            check("only the lines were written", read_all(folder) == {**NEW_FILES, "wishes.txt": K_LINES.encode()}, str(os.listdir(folder)))
            write(folder, "wishes.txt", lines)
        answers(f"the guide: {words}", desk(folder, *words), (0, said, ""))
        if words[1] != "--write" or said == WROTE_LINES:
            shows(text, said)
    check("the guide: tables", read_all(folder) == {**after_reading(), "wishes.txt": NEW_LINES.encode()}, str(read_all(folder)))
    for lines in (K_LINES, NEW_LINES):
        shows(text, lines)
    answers("the guide: the new lines are written, as they are ordered", desk(folder, "wishes", "--write", "more.txt")[0], 0)
    check("the guide: as they are ordered", read(folder, "more.txt") == b"1: {1,2},-\n2: 2,1,-\n3: {-,1,2}\n", str(read(folder, "more.txt")))
    check("the guide: the next visit", desk(folder)[1].startswith("Next visit: Anna Berg goes to Dye house.\n"))
    write(folder, "wishes.txt", K_LINES)
    add_visits(folder, K_VISITS[:1])
    said = desk(folder, "wishes", "wishes.txt")
    check("the guide: the note", said[0] == 0 and said[1].endswith(NOTE), str(said))
    shows(text, NOTE.strip("\n"))
    add_visits(folder, K_VISITS[1:])
    answers("the guide: with the old lines it is the example", desk(folder), (0, K_PLACED, ""))


# ---------------------------------------------------------------- what is wrong with a line

ONE_BLANK = "The only blank in a line follows the colon."
BEGIN = "A line begins with the student's number, a colon and a blank."
SIGNS = "After the colon there are only numbers, commas, braces and the plain dash -."
HERE = "Here the line of student 2 must stand: there is one for each student, from 1 up."

# Ben's line, which is the second: as it is written, what is told, and how the guide shows it where it does not show the line.
WRONG_LINES = [
    ("", ": the line is empty. Write the student's wishes there, or delete the line if it is one too many.", "nothing"),
    ("2 2,1,-", f": there is no colon. {BEGIN}"),
    ("Ben: 2,1,-", f', sign 1: "B" is there, before the colon. {BEGIN}'),
    (": 2,1,-", f": there is no number before the colon. {BEGIN}"),
    ("02: 2,1,-", ", sign 1: the student's number begins with 0. Numbers begin with 1 to 9."),
    ("2:2,1,-", f", sign 2: the blank after this colon is missing. {BEGIN}"),
    ("2: 2, 1,-", f", sign 6: a blank is there, or something like one. {ONE_BLANK}"),
    ("2: 2,\t1,-", f", sign 6: a tab is there. {ONE_BLANK}", "a tab after a comma"),
    ("2: 2,1\r,-", ': a carriage return (CR) is in it. Save the file with the line ends LF ("Unix").', "a carriage return in it"),
    ("3: 2,1,-", f": it is the line of student 3 (Carla Roth). {HERE}"),
    ("9: 2,1,-", f": it begins with 9, which is no student's number. {HERE}"),
    ("2: ", ": there is nothing after the colon. At least - must stand there, for none.", "`2:` and a blank"),
    ("2: 2;1,-", f', sign 5: ";" is there. {SIGNS}'),
    ("2: 2,1,\u2013", f', sign 8: "\u2013" is there. {SIGNS}'),
    ("2: {2,{1,-}}", ", sign 7: a brace is opened inside braces."),
    ("2: {2,1,-", ", sign 4: this brace is opened and not closed."),
    ("2: 2,1},-", ", sign 7: this brace is closed and was not opened."),
    ("2: {},2,1,-", ", sign 4: there is nothing in these braces."),
    ("2: 2,,1,-", ", sign 6: there is nothing before this comma, or nothing after it."),
    ("2: 2,-,1,-", ", sign 10: this is the second dash. None, which is -, stands in a line exactly once."),
    ("2: {2,1}-", ', sign 9: a comma is missing before "-".'),
    ("2: 2,01,-", ', sign 6: the number "01" begins with 0. Numbers begin with 1 to 9.'),
    ("2: {2},1,-", ", sign 4: these braces are around one item. Write it without them."),
    ("2: 2,1", ": none is missing: - stands in a line exactly once."),
    ("2: 2,1,2,-", ": workshop 2 (Weaving mill) is named twice."),
    ("2: 2,-", ": workshop 1 (Dye house) is missing."),
    ("2: 2,1,-,3", ": there is no workshop 3. workshops.csv has 2."),
]

# More of them, which the guide does not show.
MORE_WRONG_LINES = [
    (" 2: 2,1,-", f", sign 1: a blank is there, or something like one. {ONE_BLANK}"),
    ("2 : 2,1,-", f", sign 2: a blank is there, or something like one. {ONE_BLANK}"),
    ("2:  2,1,-", f", sign 4: a blank is there, or something like one. {ONE_BLANK}"),
    ("2:\u00a02,1,-", f", sign 3: a blank is there, or something like one. {ONE_BLANK}"),
    ("2: 2,1,- ", f", sign 9: a blank is there, or something like one. {ONE_BLANK}"),
    ("2:\t2,1,-", f", sign 3: a tab is there. {ONE_BLANK}"),
    ("2:", f", sign 2: the blank after this colon is missing. {BEGIN}"),
    ("0: 2,1,-", ", sign 1: the student's number begins with 0. Numbers begin with 1 to 9."),
    ("2x: 2,1,-", f', sign 2: "x" is there, before the colon. {BEGIN}'),
    ("\ufeff2: 2,1,-", f', sign 1: "(U+FEFF)" is there, before the colon. {BEGIN}'),
    (30 * "7" + ": 2,1,-", f": it begins with {20 * '7'}.., which is no student's number. {HERE}"),
    ("1: {1,2},-", f": it is the line of student 1 (Anna Berg). {HERE}"),
    ("2: 2,1:-", f', sign 7: ":" is there. {SIGNS}'),
    ("2: (2,1),-", f', sign 4: "(" is there. {SIGNS}'),
    ("2: 2,1,-\0", f', sign 9: "(U+0000)" is there. {SIGNS}'),
    ("2: 2,1,\u2212", f', sign 8: "\u2212" is there. {SIGNS}'),
    ("2: 2,1,-{", ", sign 9: this brace is opened and not closed."),
    ("2: {2,1}},-", ", sign 9: this brace is closed and was not opened."),
    ("2: ,2,1,-", ", sign 4: there is nothing before this comma, or nothing after it."),
    ("2: 2,1,-,", ", sign 9: there is nothing before this comma, or nothing after it."),
    ("2: {,2},1,-", ", sign 5: there is nothing before this comma, or nothing after it."),
    ("2: {2,1,},-", ", sign 8: there is nothing before this comma, or nothing after it."),
    ("2: ,", ", sign 4: there is nothing before this comma, or nothing after it."),
    ("2: 2,1,--", ", sign 9: this is the second dash. None, which is -, stands in a line exactly once."),
    ("2: {-,2},{1,-}", ", sign 13: this is the second dash. None, which is -, stands in a line exactly once."),
    ("2: 2{1,-}", ', sign 5: a comma is missing before "{".'),
    ("2: {2,1}{-,3}", ', sign 9: a comma is missing before "{".'),
    ("2: {2,-}1", ', sign 9: a comma is missing before "1".'),
    ("2: 2,1-", ', sign 7: a comma is missing before "-".'),
    ("2: -2,1", ', sign 5: a comma is missing before "2".'),
    ("2: 2,1,-,0", ', sign 10: the number "0" begins with 0. Numbers begin with 1 to 9.'),
    ("2: 2,1,-,0" + 30 * "1", f', sign 10: the number "0{19 * "1"}.." begins with 0. Numbers begin with 1 to 9.'),
    ("2: 2,1,{-}", ", sign 8: these braces are around one item. Write it without them."),
    ("2: {2,1}", ": none is missing: - stands in a line exactly once."),
    ("2: 2,2,1,2,-", ": workshop 2 (Weaving mill) is named 3 times."),
    ("2: {2,2},-,1", ": workshop 2 (Weaving mill) is named twice."),
    ("2: -," + 5000 * "8", f": there is no workshop {20 * '8'}... workshops.csv has 2.", ": workshop 1 (Dye house) is missing.",
     ": workshop 2 (Weaving mill) is missing."),
    ("2: 1,1,-,7", ": workshop 1 (Dye house) is named twice.", ": there is no workshop 7. workshops.csv has 2.", ": workshop 2 (Weaving mill) is missing."),
    ("2: 3,4,5,6,7,8,9,-", *(f": there is no workshop {n}. workshops.csv has 2." for n in range(3, 8)), ": and 4 more such faults."),
]

# Whole files: what they are, their bytes, and what is told.
WRONG_FILES = [
    ("an editor on Windows saved it", K_LINES.replace("\n", "\r\n").encode(),
     "line 1 (Anna Berg): it ends with CR LF, as editors on Windows save it. Save the file with the line ends LF (\"Unix\"), or type\n" + SED + "wishes.txt"),
    ("a byte order mark at its start", b"\xef\xbb\xbf" + K_LINES.encode(),
     'line 1 (Anna Berg): the file begins with a byte order mark. Save it as "UTF-8", not as "UTF-8 with BOM", or type\n' + SED + "wishes.txt"),
    ("a document, or a text in UTF-16", K_LINES.encode("utf-16"),
     "line 1 (Anna Berg): this is no plain text. Save the lines as plain text in UTF-8, and not as a document or in UTF-16."),
    ("no line feed after the last line", K_LINES[:-1].encode(),
     "line 3 (Carla Roth): the line feed at its end is missing. Press Enter at the end of the last line, and save."),
    ("Carla's line is missing", K_LINES[:22].encode(), "line 3 (Carla Roth): this line is missing. The file has 2 lines, and students.csv has 3 students."),
    ("a line more", K_LINES.encode() + b"4: -\n", "line 4: there is more than a line for each of the 3 students in students.csv. Delete what is left over."),
    ("an empty line at the end", K_LINES.encode() + b"\n",
     "line 4: there is more than a line for each of the 3 students in students.csv. Delete the empty line."),
]
MORE_WRONG_FILES = [
    ("empty", b"", "line 1 (Anna Berg): this line is missing. The file has 0 lines, and students.csv has 3 students."),
    ("a workbook", b"PK\x03\x04" + bytes(40), WRONG_FILES[2][2]),
    ("a table", b"student,stage,line group,lot\nAnna Berg,1,2,1\n", f"line 1 (Anna Berg): there is no colon. {BEGIN}"),
    ("a table as spreadsheets write it", b"\xef\xbb\xbfstudent,stage,line group,lot\r\nAnna Berg,1,2,1\r\n", f"line 1 (Anna Berg): there is no colon. {BEGIN}"),
    ("a byte order mark, CR LF and a blank", b"\xef\xbb\xbf1: {1,2}, -\r\n",
     f"line 1 (Anna Berg), sign 10: a blank is there, or something like one. {ONE_BLANK}"),
    ("an empty line with CR LF", K_LINES.encode().replace(b"2: {1,2},-", b"\r"), "line 2 (Ben Olsen)" + WRONG_LINES[0][1]),
    ("line ends of old computers", K_LINES.replace("\n", "\r").encode(),
     'line 1 (Anna Berg): a carriage return (CR) is in it. Save the file with the line ends LF ("Unix").'),
    ("CR LF from the second line on", K_LINES.replace("-\n2", "-\r\n2").replace("-\r\n", "-\n", 1).replace("-\n3", "-\r\n3").encode(),
     WRONG_FILES[0][2].replace("line 1 (Anna Berg)", "line 2 (Ben Olsen)")),
    ("CR and the end", (K_LINES[:-1] + "\r").encode(), 'line 3 (Carla Roth): a carriage return (CR) is in it. Save the file with the line ends LF ("Unix").'),
    ("Ben's line is missing", K_LINES.replace("2: {1,2},-\n", "").encode(), f"line 2 (Ben Olsen): it is the line of student 3 (Carla Roth). {HERE}"),
    ("empty lines and blanks at the end", K_LINES.encode() + b" \n\n", WRONG_FILES[6][2]),
    ("a letter left over", K_LINES.encode() + b"x", WRONG_FILES[5][2]),
    ("not UTF-8", K_LINES.encode().replace(b"2: {", b"2: \xff{"), f'line 2 (Ben Olsen), sign 4: "\ufffd" is there. {SIGNS}'),
    ("14 in one line and 15 in another", b"1: 2,-\n2: 2,1,-,\n3: 1,{-,2}\n", "line 1 (Anna Berg): workshop 1 (Dye house) is missing."),
    ("14 and 15 in one line", b"1: {1,2},-\n2: 2,,2\n3: 1,{-,2}\n",
     "line 2 (Ben Olsen), sign 6: there is nothing before this comma, or nothing after it."),
]


def refused(folder, name, data, message, run=read_in):
    """With this file, this is told and nothing is written."""
    write(folder, "wishes.txt", data)
    before = read_all(folder)
    status, out, err = run(folder)
    answers(f"refused: {name}", (status, out, err.rstrip("\n") + "\n"), (1, "", message + END))
    check(f"refused: {name}: nothing is written", read_all(folder) == before, str(os.listdir(folder)))


def wrong_lines(folder):
    """Every message, and the guide's tables of them."""
    text, by_command = guide_text(), lambda folder: desk(folder, "wishes", "wishes.txt")
    for line, said, *shown in WRONG_LINES:
        refused(folder, repr(line), f"1: {{1,2}},-\n{line}\n3: 1,{{-,2}}\n".encode(), f"wishes.txt, line 2 (Ben Olsen){said}")
        row = f"\n| {shown[0] if shown else f'`{line}`'} | {said.lstrip(',: ')} |\n"
        check("the guide shows the fault", row in text, row)
    for line, *said in MORE_WRONG_LINES:
        refused(folder, repr(line[:40]), f"1: {{1,2}},-\n{line}\n3: 1,{{-,2}}\n".encode(), "\n".join(f"wishes.txt, line 2 (Ben Olsen){one}" for one in said))
    for name, data, said in WRONG_FILES + MORE_WRONG_FILES:
        refused(folder, name, data, f"wishes.txt, {said}", by_command if "Windows" in name or "feed" in name else read_in)
    for name, _, said in WRONG_FILES:
        row = f"\n| {name} | {said.split(chr(10))[0]}{' a command' * (chr(10) in said)} |\n"
        check("the guide shows what is told of the file", row in text, row)
    for line in (6, 0):
        write(folder, "wishes.txt", f"1: {{1,2}},-\n{WRONG_LINES[line][0]}\n3: 1,{{-,2}}\n" if line else K_LINES.replace("\n", "\r\n"))
        shows(text, desk(folder, "wishes", "wishes.txt")[2])
    rows = NEW_FILES["pairs.csv"].decode().replace("Ben Olsen,Dye house,1,2,180\r\n", "")
    write(folder, "pairs.csv", rows)
    no_row = "workshop 1 (Dye house) is named, and pairs.csv has no row with the two."
    refused(folder, "no row in pairs.csv", b"1: {1,2},-\n2: 2,1,-\n3: 1,{-,2}\n", f"wishes.txt, line 2 (Ben Olsen): {no_row}")
    refused(folder, "one is missing, and one has no row", b"1: {1,2},-\n2: -\n3: 1,{-,2}\n",
            "wishes.txt, line 2 (Ben Olsen): workshop 2 (Weaving mill) is missing.")
    check("the guide shows a workshop without a row", f"\n| `2: 2,1,-`, without his row for the dye house in pairs.csv | {no_row} |\n" in text)


def repaired(folder):
    """The command that a message shows puts the lines right, whatever the file is called and whatever letters the terminal knows."""
    for name in ("wishes.txt", "Anna's wishes (new).txt"):
        for lead, language in ((b"", "C"), (b"\xef\xbb\xbf", "C"), (b"\xef\xbb\xbf", "C.UTF-8")):
            write(folder, name, lead + NEW_LINES.replace("\n", "\r\n").encode())
            said = desk(folder, "wishes", name)
            command = said[2].split("\n")[1]
            done = subprocess.run(["sh", "-c", command], cwd=folder, env={**os.environ, "LC_ALL": language})
            check(f"repaired {name} {lead} {language}", done.returncode == 0 and read(folder, name) == NEW_LINES.encode(), f"{said}{read(folder, name)}")


def other_refusals(folder):
    """What the engine refuses and desk.py cannot explain is told in the engine's words; and a refusal of another kind as elsewhere."""
    lgs = InProcess().module.lgs

    def refusing(*refusal):
        def what(*_):
            raise lgs.Refused(*refusal)
        return {"lgs": engine(read_wishes=what, write_wishes=what)}

    for number in (14, 15):
        for place, whose in ((0, " (Anna Berg)"), (2, " (Carla Roth)")):
            write(folder, "wishes.txt", K_LINES)
            text = lgs.Refused(number, place).text
            answers(f"not explained {number} {place}", read_in(folder, **refusing(number, place)),
                    (1, "", f"wishes.txt, line {place + 1}{whose}: {text}{END}"[:-1]))
    status, out, err = read_in(folder, **refusing(14, 70))
    check("a line far beyond", (status, out) == (1, "") and err.startswith("wishes.txt, line 71: there is more than a line"), err)
    text = lgs.Refused(5, 0).text
    os.remove(os.path.join(folder, "wishes.txt"))
    answers("another refusal", write_in(folder, **refusing(5, 6)), (1, "", f"pairs.csv, row 3: the engine refused it, number 5: {text}"))
    write(folder, "wishes.txt", K_LINES)
    answers("another refusal, reading", read_in(folder, **refusing(5, 4)), (1, "", f"workshops.csv, row 3: the engine refused it, number 5: {text}"))
    older = engine(read_wishes=fails(errno.ENOENT))
    status, out, err = read_in(folder, lgs=older)
    check("no engine", (status, out) == (1, "") and err.startswith("The engine cannot be used: "), err)


# ---------------------------------------------------------------- lines that are damaged at random

# What each sentence says, of the line and of what follows ": " in it; by its first words.
CLAIMS = {
    "the line is empty": lambda line, tail: line in ("", "\r"),
    "it ends with CR LF": lambda line, tail: line.endswith("\r"),
    "a carriage return": lambda line, tail: "\r" in line,
    "there is no colon": lambda line, tail: ":" not in line,
    "a tab": lambda line, tail: "\t" in line,
    "a blank": lambda line, tail: line.split(": ", 1) != [part for part in line.split(": ", 1) if " " not in part],
    "there is no number": lambda line, tail: line.startswith(":"),
    "the student's number": lambda line, tail: line.startswith("0"),
    "the blank after": lambda line, tail: not re.match("[0-9]+: ", line),
    "it is the line": lambda line, tail: re.match("[123]:", line),
    "it begins with": lambda line, tail: re.match("[0-9]+:", line) and line[:2] not in ("1:", "2:", "3:"),
    "there is nothing after": lambda line, tail: tail == "",
    "a brace is opened inside": lambda line, tail: max(depths(tail)) > 1,
    "this brace is opened": lambda line, tail: tail.rfind("{") > tail.rfind("}"),
    "this brace is closed": lambda line, tail: min(depths(tail)) < 0 or "}}" in tail,
    "there is nothing in": lambda line, tail: "{}" in tail,
    "there is nothing before": lambda line, tail: re.search("[,{],|,[,}]", f",{tail},"),
    "this is the second dash": lambda line, tail: tail.count("-") > 1,
    "a comma is missing": lambda line, tail: re.search(r"[0-9}-](?=[{-])|[}-](?=[0-9{-])", tail),
    "the number": lambda line, tail: any(re.fullmatch("0[0-9]*", item) for item in re.findall("[0-9]+", tail)),
    "these braces are": lambda line, tail: re.search(r"\{[^,]*\}", tail),
    "none is missing": lambda line, tail: "-" not in tail,
    "the line feed": lambda line, tail: re.fullmatch("[0-9]+: [0-9,{}-]+", line),
    "this line is missing": lambda line, tail: line == "",
    "there is no workshop": lambda line, tail: any(len(item) > 1 or item not in "12" for item in re.findall("[0-9]+", tail)),
    "workshop": lambda line, tail: sorted(re.findall("[0-9]+", tail)) != ["1", "2"],
}


def depths(tail):
    """How many braces are open, sign by sign."""
    return [tail[:end].count("{") - tail[:end].count("}") for end in range(len(tail) + 1)]


ITEM = "(?:-|[1-9][0-9]*)"
LINE = re.compile(rf"([1-9][0-9]*): ((?:{ITEM}|\{{{ITEM}(?:,{ITEM})+\}})(?:,(?:{ITEM}|\{{{ITEM}(?:,{ITEM})+\}}))*)")


def fault_of(text):
    """The number and the place of the refusal of such lines for the example's case, by the paper's words; None if they are right."""
    lines = text.split("\n")
    for place in range(3):
        line = LINE.fullmatch(lines[place]) if place < len(lines) - 1 else None
        if not line or line[1] != str(place + 1) or line[2].count("-") != 1:
            return 14, place
        if sorted(re.findall("[0-9]+", line[2])) != ["1", "2"]:
            return 15, place
    return None if lines[3:] == [""] else (14, 3)


def judged(text, err, fault):
    """What is wrong with what is told of these lines, whose fault is this; and the first words of it."""
    first = err.split("\n")[0]
    form = re.fullmatch(r"wishes\.txt, line (\d+)(?: \((.*?)\))?(?:, sign (\d+))?: (.*)", first, re.DOTALL)
    if not form or int(form[1]) != fault[1] + 1 or form[2] != [*K_NAMES, None][fault[1]]:
        return first, "another line"
    if fault[1] == 3:
        return "left over", "" if form[4].startswith("there is more than a line for each") else "another fault"
    line = text.split("\n")[fault[1]]
    tail = line.partition(": ")[2]
    if form[3] and not 1 <= int(form[3]) <= len(line):
        return first, "a sign beyond the line"
    shown = re.match('"(.*)" is there', form[4])
    if shown:
        return "a sign", "" if form[3] and line[int(form[3]) - 1] == shown[1] and not re.match("[0-9]", shown[1]) else "the sign is not there"
    words = next((words for words in CLAIMS if form[4].startswith(words)), None)
    is_names = bool(words) and words.startswith(("workshop", "there is no workshop"))
    if words is None or is_names != (fault[0] == 15):
        return first, "no such sentence"
    return words, "" if CLAIMS[words](line, tail) else "it is not so"


def damaged(draw):
    """Lines that fit the example, with up to three signs of them taken away, exchanged or added."""
    groups = [draw.choice(["{1,2},-", "2,1,-", "1,{-,2}", "{2,1,-}", "-,1,2", "-,{2,1}", "1,-,2"]) for _ in range(3)]
    signs = list("".join(f"{number}: {line}\n" for number, line in enumerate(groups, 1)))
    for _ in range(draw.choice([0, 1, 1, 1, 2, 2, 3])):
        at = draw.randrange(len(signs) + 1)
        signs[at:at + draw.randint(0, 2)] = draw.choices("0123459,,{}--: \t\r\n\nx;", k=draw.choice([0, 0, 1, 1, 1, 2]))
    text = "".join(signs)
    return text if draw.random() < 0.95 else text[:text.rfind("\n", 0, -1) + 1]


def damage(folder):
    """What the library refuses, and where, is as the paper says, and what is told of it is so. Nothing is written."""
    draw, met, before = random.Random(6), collections.Counter(), read_all(folder)
    wrong = []
    for _ in range(2500):
        text = damaged(draw)
        write(folder, "wishes.txt", text)
        status, out, err = read_in(folder, write_cells=lambda *_: None)
        fault = fault_of(text)
        words, what = ("taken", "" if status == 0 else "it was refused") if fault is None else (
            ("refused", "it was taken") if status == 0 else judged(text, err, fault))
        met[words] += 1
        wrong += [f"{text!r}: {what}\n{out}{err}"] if what else []
    check("damaged lines", not wrong, "\n".join(wrong[:3]) + f"\n{len(wrong)} in all")
    check("damaged lines: nothing is written", {**before, "wishes.txt": text.encode()} == read_all(folder))
    print("damaged lines:", dict(met))
    missed = [words for words in [*CLAIMS, "taken", "left over", "a sign"] if not met[words] and words not in ("there is nothing in",)]
    check("damaged lines: all sentences were met", not missed, str(missed))


# ---------------------------------------------------------------- made-up years


class Wishes:
    """A year in which each student has groups for some workshops and a line group, with gaps. Its tables have semicolons, odd names, and rows in any order."""

    def __init__(self, seed, students=12, workshops=7):
        self.draw = draw = random.Random(seed)
        self.students = [draw.choice(["{} Berg", "Å{}", "{}, the younger", 'Jo "{}" Ek', "{}; Ben"]).format(n) for n in range(1, students + 1)]
        self.workshops = [f"Mill {n}, east" if n % 3 else f"Färberei {n}" for n in range(1, workshops + 1)]
        share = draw.choice([0.1, 0.5, 1])
        self.pairs = [(s, w) for s in range(1, students + 1) for w in range(1, workshops + 1) if draw.random() < share]
        self.line, self.group = {}, {}
        self.turn()

    def turn(self):
        """Other wishes."""
        groups = self.draw.sample(range(1, 66), self.draw.randint(1, 8))
        self.line = {s: self.draw.choice(groups) for s in range(1, len(self.students) + 1)}
        self.group = {pair: self.draw.choice(groups) for pair in self.pairs}

    def lines(self, shuffled=False):
        """The lines, as the paper writes them; or with the items in braces in any order."""
        text = ""
        for s, line in self.line.items():
            items = collections.defaultdict(list, {line: ["-"]})
            for w in range(1, len(self.workshops) + 1):
                if (s, w) in self.group:
                    items[self.group[s, w]].append(str(w))
            groups = [self.draw.sample(group, len(group)) if shuffled else group for _, group in sorted(items.items())]
            text += f"{s}: " + ",".join("{%s}" % ",".join(group) if len(group) > 1 else group[0] for group in groups) + "\n"
        return text

    def counted(self):
        """The line groups and the groups, counted from 1."""
        line, group = {}, {}
        for s in self.line:
            there = sorted({self.line[s], *(self.group[pair] for pair in self.pairs if pair[0] == s)})
            line[s] = there.index(self.line[s]) + 1
            group.update({pair: there.index(self.group[pair]) + 1 for pair in self.pairs if pair[0] == s})
        return line, group

    def write(self, folder, wishes=True):
        """The tables; without the wishes where they are to come."""
        people = [(f"note {s}", name, s % 5, self.line[s] if wishes else "", "x") for s, name in enumerate(self.students, 1)]
        couples = [(self.group[pair] if wishes else "", self.workshops[pair[1] - 1], "9", self.students[pair[0] - 1]) for pair in self.pairs]
        self.draw.shuffle(couples)
        write(folder, "students.csv", csv_text([("note", "student", "stage", "line group", "lot"), *people]))
        write(folder, "workshops.csv", csv_text([("workshop", "quota"), *((name, "") for name in self.workshops)]))
        write(folder, "pairs.csv", csv_text([("group from student", "workshop", "group from workshop", "student"), *couples]))

    def rows(self, folder, file):
        return list(csv.DictReader(io.StringIO(read(folder, file).decode("utf-8-sig"), newline=""), delimiter=";"))

    def wishes_in(self, folder):
        """What the tables have."""
        people, works = ({name: n for n, name in enumerate(names, 1)} for names in (self.students, self.workshops))
        line = {people[row["student"]]: int(row["line group"]) for row in self.rows(folder, "students.csv")}
        return line, {(people[row["student"]], works[row["workshop"]]): int(row["group from student"]) for row in self.rows(folder, "pairs.csv")}

    def others_in(self, folder):
        """All cells but the wishes."""
        return [[{**row, "line group": "", "group from student": ""} for row in self.rows(folder, file)] for file in ("students.csv", "pairs.csv")]


def made_up_years(folder):
    """Written as the paper says; read into tables that had no wishes, and over others; all other cells stay, and what is written then is the same."""
    for seed in range(40):
        year, name = Wishes(seed), f"year {seed}"
        for file in ("wishes.txt", "again.txt"):
            if os.path.exists(os.path.join(folder, file)):
                os.remove(os.path.join(folder, file))
        year.write(folder)
        status, out, err = write_in(folder)
        check(f"{name}: written", status == 0 and read(folder, "wishes.txt") == year.lines().encode(), f"{out}{err}{read_all(folder).get('wishes.txt')}")
        for turn in range(2):
            year.write(folder, wishes=turn)
            year.turn()
            others = year.others_in(folder)
            write(folder, "wishes.txt", year.lines(shuffled=True))
            status, out, err = read_in(folder)
            check(f"{name}: read {turn}", status == 0 and year.wishes_in(folder) == year.counted(), out + err)
            check(f"{name}: read {turn}: who is new", (out.count(" (new)\n") == len(year.students)) == (turn == 0), out)
            check(f"{name}: read {turn}: all else stays", year.others_in(folder) == others)
        status, out, err = write_in(folder, "again.txt")
        check(f"{name}: written again", status == 0 and read(folder, "again.txt") == year.lines().encode(), out + err)
        status, out, err = read_in(folder, "again.txt")
        check(f"{name}: read again", status == 0 and "Students whose wishes changed: 0.\n" in out and out.endswith(HAVE_THEM), out + err)


def renumbered(folder):
    """Gaps are closed: of the one the order changes, of another only numbers, of the third nothing. The note is only for other orders."""
    add_visits(folder, K_VISITS[:1])
    write(folder, "students.csv", students("Anna Berg,1,9\nBen Olsen,2,7\nCarla Roth,2,2\n"))
    write(folder, "pairs.csv", pairs("Anna Berg,Dye house,3,1\nAnna Berg,Weaving mill,3,1\nBen Olsen,Dye house,1,2\nBen Olsen,Weaving mill,1,2\n"
                                     "Carla Roth,Dye house,1,2\nCarla Roth,Weaving mill,2,2\n"))
    write(folder, "wishes.txt", "1: {1,2},-\n2: 1,2,-\n3: 1,{2,-}\n")
    said = "    1  Anna Berg (the same order, in other numbers)\n"
    answers("renumbered", read_in(folder), (0, READ.format(1) + said + "    2  Ben Olsen\n" + WROTE.format(*BOTH).format("5 cells") + NOTE, ""))
    check("renumbered: students", read(folder, "students.csv") == students("Anna Berg,1,2\nBen Olsen,2,3\nCarla Roth,2,2\n").encode())
    write(folder, "students.csv", students("Anna Berg,1,9\nBen Olsen,2,3\nCarla Roth,2,2\n"))
    only = WROTE.format("students.csv", "1 cell", "students.csv")
    answers("renumbered: one table, no note", read_in(folder), (0, READ.format(0) + said + only, ""))
    write(folder, "wishes.txt", "1: {1,2},-\n2: 2,1,-\n3: 1,{2,-}\n")
    only = WROTE.format("pairs.csv", "2 cells", "pairs.csv")
    answers("the other table", read_in(folder), (0, READ.format(1) + "    2  Ben Olsen\n" + only + NOTE, ""))
    write(folder, "pairs.csv", read(folder, "pairs.csv").replace(b"Ben Olsen,Dye house,2", b"Ben Olsen,Dye house,"))
    only = WROTE.format("pairs.csv", "1 cell", "pairs.csv")
    answers("one cell was empty", read_in(folder), (0, READ.format(1) + "    2  Ben Olsen\n" + only + NOTE, ""))


def notes(folder):
    """The note is for marks; visits.csv need not be there, nor be right."""
    for visits, noted in ((VISIT_HEAD, False), (VISIT_HEAD + "Anna Berg,Dye house,,\n", False), (VISIT_HEAD + "Anna Berg,Dye house,5,3\n", True),
                          (VISIT_HEAD + "Nobody,Nowhere,x,\n", True), ("", False), (b"PK\x03\x04", False), (VISIT_HEAD + '"', False), (None, False)):
        for name, data in NEW_FILES.items():
            write(folder, name, data)
        os.remove(os.path.join(folder, "visits.csv"))
        if visits is not None:
            write(folder, "visits.csv", visits)
        write(folder, "wishes.txt", NEW_LINES)
        answers(f"the note with {visits}", read_in(folder), (0, NEW_SAID + NOTE * noted, ""))


# Ways to write the two tables, and how they are with the guide's lines: name, students.csv before and after, pairs.csv before and after.
KEPT = [
    ("nothing but names", "student\nAnna Berg\nBen Olsen\nCarla Roth\n", "student;line group\nAnna Berg;2\nBen Olsen;3\nCarla Roth;1\n",
     "student,workshop\nCarla Roth,Dye house\nCarla Roth,Weaving mill\nAnna Berg,Weaving mill\nAnna Berg,Dye house\n"
     "Ben Olsen,Dye house\nBen Olsen,Weaving mill\n",
     "student,workshop,group from student\nCarla Roth,Dye house,1\nCarla Roth,Weaving mill,1\nAnna Berg,Weaving mill,1\nAnna Berg,Dye house,1\n"
     "Ben Olsen,Dye house,2\nBen Olsen,Weaving mill,1\n"),
    ("semicolons, byte order marks, quotation marks, empty rows, other columns",
     '\ufeff"Line group";"note; x";student;STAGE\r\n"";"a ""b""\r\nc";"Anna Berg";zwei\r\n\r\n " 9" ;;  Ben  Olsen ;\r\n;;;\r\n+1;;Carla Roth;0;;\r\n',
     '\ufeff"Line group";"note; x";student;STAGE\r\n"2";"a ""b""\r\nc";"Anna Berg";zwei\r\n\r\n3;;  Ben  Olsen ;\r\n;;;\r\n+1;;Carla Roth;0;;\r\n',
     'sep=;\r\nworkshop;student;group from student;fare\r\n"Dye house";Anna Berg;"x";y\r\nWeaving mill;Anna Berg;01;\r\n'
     "Dye house;Ben Olsen;;\r\nWeaving mill;Ben Olsen\r\n;\r\nDye house;Carla Roth;99999999999;1\r\nWeaving mill;Carla Roth;0;-",
     'sep=;\r\nworkshop;student;group from student;fare\r\n"Dye house";Anna Berg;"1";y\r\nWeaving mill;Anna Berg;01;\r\n'
     "Dye house;Ben Olsen;2;\r\nWeaving mill;Ben Olsen;1\r\n;\r\nDye house;Carla Roth;1;1\r\nWeaving mill;Carla Roth;1;-"),
    ("tabs, line ends of three kinds, rows without their last cells, lots twice",
     "student\tlot\tstage\tx\tline group\nAnna Berg\t1\r\nBen Olsen\t1\t2\t\t7\rCarla Roth\t1", "student\tlot\tstage\tx\tline group\nAnna Berg\t1\t\t\t2\r\n"
     "Ben Olsen\t1\t2\t\t3\rCarla Roth\t1\t\t\t1",
     "group from student\tstudent\tworkshop\n\tAnna Berg\tDye house\n\tAnna Berg\tWeaving mill\n\tBen Olsen\tDye house\n\tBen Olsen\tWeaving mill\n"
     "1\tCarla Roth\tDye house\n1\tCarla Roth\tWeaving mill\n",
     "group from student\tstudent\tworkshop\n1\tAnna Berg\tDye house\n1\tAnna Berg\tWeaving mill\n2\tBen Olsen\tDye house\n1\tBen Olsen\tWeaving mill\n"
     "1\tCarla Roth\tDye house\n1\tCarla Roth\tWeaving mill\n"),
]


def kept(folder):
    """All else stays, byte for byte; and nothing changes the second time."""
    write(folder, "workshops.csv", "workshop\nDye house\nWeaving mill\n")
    write(folder, "wishes.txt", NEW_LINES)
    for name, old_students, new_students, old_pairs, new_pairs in KEPT:
        write(folder, "students.csv", old_students)
        write(folder, "pairs.csv", old_pairs)
        status, out, err = desk(folder, "wishes", "wishes.txt")
        check(f"{name}: read", status == 0 and "\nWrote them in students.csv and pairs.csv: " in out, out + err)
        for file, wanted in (("students.csv", new_students), ("pairs.csv", new_pairs)):
            check(f"{name}: {file}", read(folder, file) == wanted.encode(), f"{read(folder, file)}\nwanted {wanted.encode()}")
        added = 'the column "line group" was added, the column "group from student" was added, 9 cells changed' in out
        check(f"{name}: columns that were added", added == (name == "nothing but names"), out)
        before = read_all(folder)
        answers(f"{name}: the second time", desk(folder, "wishes", "wishes.txt"), (0, READ.format(0) + HAVE_THEM, ""))
        check(f"{name}: the second time nothing is written", read_all(folder) == before)


def no_pairs(folder):
    """Nobody has a pair: each has a line with none alone."""
    write(folder, "pairs.csv", pairs(""))
    check("no pairs: written", write_in(folder)[0] == 0 and read(folder, "wishes.txt") == b"1: -\n2: -\n3: -\n")
    status, out, err = read_in(folder)
    check("no pairs: read", status == 0 and out.startswith(READ.format(0) + "    1  Anna Berg (the same order, in other numbers)\n"), out + err)


# ---------------------------------------------------------------- tables and files that are not as they should be


def wrong_tables(folder):
    """Names must be right for both; wishes only where they are written as lines."""
    write(folder, "wishes.txt", K_LINES)
    end = "\nNothing was written. Correct this and run desk.py again."
    cases = [
        ("students.csv", students("Anna Berg,1,2\nAnna Berg,1,2\n"), 'students.csv, row 3, column "student": "Anna Berg" stands in row 2 already. '
         "Two of the same name need something to tell them apart.", True),
        ("workshops.csv", "workshop,quota,line group\n",
         'workshops.csv, row 2, column "workshop": there is nobody. At least one row is needed below the headings.', True),
        ("pairs.csv", pairs("Ana Berg,Dye house,1,1\n"),
         'pairs.csv, row 2, column "student": there is no "Ana Berg" in students.csv. Did you mean "Anna Berg"?', True),
        ("pairs.csv", pairs("Anna Berg,Dye house,1,1\nAnna Berg,Dye house,1,1\n"), "pairs.csv, row 3: Anna Berg and Dye house stand in row 2 already.", True),
        ("students.csv", students("Anna Berg,1,\nBen Olsen,1,66\nCarla Roth,x,2\n"),
         f'students.csv, row 2, column "line group": the cell is empty; {RANGE} 1 to 65.\n'
         f'students.csv, row 3, column "line group": "66" is there; {RANGE} 1 to 65.', False),
        ("pairs.csv", pairs("Anna Berg,Dye house,,x\nBen Olsen,Dye house,0,\n"),
         f'pairs.csv, row 2, column "group from student": the cell is empty; {RANGE} 1 to 65.\n'
         f'pairs.csv, row 3, column "group from student": "0" is there; {RANGE} 1 to 65.', False),
    ]
    for file, content, message, both in cases:
        write(folder, file, content)
        before = read_all(folder)
        answers(f"wrong tables: {message}", write_in(folder, "new.txt"), (1, "", message + end))
        if both:
            answers(f"wrong tables, reading: {message}", read_in(folder), (1, "", message + end))
        check(f"wrong tables: {message}: nothing is written", read_all(folder) == before)
        write(folder, file, NEW_FILES[file])
    for file, heading in (("students.csv", "line group"), ("pairs.csv", "group from student")):
        write(folder, file, NEW_FILES[file].decode().replace(heading, "other"))
        status, out, err = write_in(folder, "new.txt")
        check(f"no column {heading}", status == 1 and err.startswith(f'{file}, row 1: the column "{heading}" is missing.'), err)
        write(folder, file, NEW_FILES[file])
    os.remove(os.path.join(folder, "pairs.csv"))
    for run in (read_in, lambda folder: write_in(folder, "new.txt")):
        check("no pairs.csv", run(folder)[2].startswith("pairs.csv is not in this folder"), str(run(folder)))


def wrong_files(folder):
    """A file that is not there, a folder, a pipe, one that is too large, one that may not be read, one of the four tables."""
    path, here = os.path.join(folder, "wishes.txt"), os.path.realpath(folder)
    before = read_all(folder)
    answers("no file", desk(folder, "wishes", "wishes.txt"), (1, "", f"There is no file {here}/wishes.txt. Nothing was written.\n"))
    answers("no file elsewhere", desk(folder, "wishes", "/none/wishes.txt"), (1, "", "There is no file /none/wishes.txt. Nothing was written.\n"))
    answers("a dash", desk(folder, "wishes", "-"), (1, "", f"There is no file {here}/-. Nothing was written.\n"))
    answers("in a file", desk(folder, "wishes", "pairs.csv/x"), (1, "", "pairs.csv/x cannot be read: Not a directory.\n"))
    for name, make, remove in (("a folder", os.mkdir, os.rmdir), ("a pipe", os.mkfifo, os.remove)):
        make(path)
        answers(name, desk(folder, "wishes", "wishes.txt"), (1, "", "wishes.txt is no ordinary file. Name the file with the wish lines.\n"))
        remove(path)
    write(folder, "wishes.txt", b"1: 1," * 100)
    os.truncate(path, (32 << 20) + 1)
    answers("a huge file", desk(folder, "wishes", "wishes.txt"),
            (1, "", "wishes.txt has 33554433 bytes; a file of lines has at most 33554432. Is this the right file?\n"))
    for data in (b"1: " + b"{" * (1 << 22), b"1: " + b"{1,2}," * (1 << 20), b"\n" * (1 << 22), b"1: -," + b"1" * (1 << 22) + b"\n", b"x" * (1 << 22)):
        write(folder, "wishes.txt", data)
        start = time.monotonic()
        status, out, err = read_in(folder)
        check(f"a large file {data[:9]}", (status, out) == (1, "") and len(err) < 600 and time.monotonic() - start < 5, err[:700])
    os.remove(path)
    status, out, err = desk(folder, "wishes", "pairs.csv")
    check("a table as lines", (status, out) == (1, "") and err.startswith("pairs.csv has the name of a table. Nothing was written."), err)
    check("wrong files: nothing is written", read_all(folder) == before, str(os.listdir(folder)))
    write(folder, "mine.txt", K_LINES)
    check("the home folder", desk(folder, "wishes", "~/mine.txt", HOME=folder)[0] == 0)
    if os.getuid():
        os.chmod(os.path.join(folder, "mine.txt"), 0)
        answers("a file that may not be read", desk(folder, "wishes", "mine.txt"), (1, "", "mine.txt cannot be read: Permission denied.\n"))
    with tempfile.TemporaryDirectory() as other:
        os.symlink(os.path.join(other, "lines"), os.path.join(folder, "link.txt"))
        write(other, "lines", K_LINES)
        answers("lines behind a link", desk(folder, "wishes", "link.txt"), (0, READ.format(0).replace("wishes.txt", "link.txt") + HAVE_THEM, ""))


def files_to_write(folder):
    """What is there stays: other lines, a table, a folder, a link. No folder, no rights, no room."""
    path = os.path.join(folder, "wishes.txt")
    there = "{} is there already. Nothing was written. Delete it, or name another file."
    for data in (b"", NEW_LINES.encode(), K_LINES.encode() + b"\n"):
        write(folder, "wishes.txt", data)
        answers(f"other lines there {data}", write_in(folder), (1, "", there.format("wishes.txt")))
        check(f"other lines there {data}: they stay", read(folder, "wishes.txt") == data)
    os.remove(path)
    os.symlink("nowhere", path)
    answers("a link to nowhere", write_in(folder), (1, "", there.format("wishes.txt")))
    os.remove(path)
    before = read_all(folder)
    answers("a folder there", write_in(folder, "."), (1, "", there.format(".")))
    answers("a table's name", write_in(folder, "./visits.csv"), (1, "", "./visits.csv has the name of a table. Nothing was written. "
                                                                       "Name a file for wish lines, for instance wishes.txt."))
    answers("no such folder", write_in(folder, "out/wishes.txt"), (1, "", f"There is no folder {os.path.realpath(folder)}/out. Nothing was written."))
    answers("no room", desk(folder, "wishes", "--write", "wishes.txt", first=lambda: resource.setrlimit(resource.RLIMIT_FSIZE, (20, 20))),
            (1, "", "wishes.txt cannot be written in this folder: File too large.\n"))
    check("not written: nothing is there", read_all(folder) == before, str(os.listdir(folder)))
    status, out, err = write_in(folder, "/proc/wishes.txt")
    check("a folder in which nothing is written", status == 1 and err.startswith("/proc/wishes.txt cannot be written in this folder: "), err)
    answers("elsewhere", desk(folder, "wishes", "--write", "~/mine.txt", HOME=folder)[1], WROTE_LINES.replace("wishes.txt", f"{folder}/mine.txt"))
    check("elsewhere: the lines", read(folder, "mine.txt") == K_LINES.encode())


def written_meanwhile(folder):
    """A file that comes at the last moment stays; and so do tables or lines that are saved while the lines are read."""
    real = os.fsync
    os.fsync = lambda file: write(folder, "wishes.txt", "mine")
    try:
        told = write_in(folder)
    finally:
        os.fsync = real
    answers("a file at the last moment", told, (1, "", "wishes.txt is there already. Nothing was written. Delete it, or name another file."))
    check("a file at the last moment: it stays", read_all(folder) == {**NEW_FILES, "wishes.txt": b"mine"}, str(os.listdir(folder)))
    for name in ("students.csv", "workshops.csv", "pairs.csv", "wishes.txt"):
        write(folder, "wishes.txt", NEW_LINES)
        saved = read(folder, name) + b"\n"
        os.fsync = lambda file: write(folder, name, saved)
        try:
            told = read_in(folder)
        finally:
            os.fsync = real
        answers(f"{name} saved meanwhile", told, (1, "", f"{name} was changed by somebody else at this moment. Nothing was written. Type the command again."))
        check(f"{name} saved meanwhile: it stays", read_all(folder) == {**NEW_FILES, "wishes.txt": NEW_LINES.encode(), name: saved})
        write(folder, name, NEW_FILES.get(name, b""))


def in_the_way(folder):
    """One of the two tables is protected or open, or there is no room: neither is written. A table that does not change may be so."""
    write(folder, "wishes.txt", NEW_LINES)
    before = read_all(folder)
    for name in ("students.csv", "pairs.csv"):
        for way, message in (("protected", "{} is protected against writing. Nothing was written.\n"),
                             ("open", "{} is open in a spreadsheet: save and close it there, then type the command again. Nothing was written.\n")):
            path = os.path.join(folder, name if way == "protected" else f".~lock.{name}#")
            if way == "open":
                write(folder, f".~lock.{name}#", "")
            os.chmod(path, 0o444)
            answers(f"{name} {way}", desk(folder, "wishes", "wishes.txt"), (1, "", message.format(name)))
            write(folder, "wishes.txt", K_LINES)
            answers(f"{name} {way}, nothing to write", desk(folder, "wishes", "wishes.txt"), (0, READ.format(0) + HAVE_THEM, ""))
            write(folder, "wishes.txt", NEW_LINES)
            os.chmod(path, 0o644)
            if way == "open":
                os.remove(path)
            check(f"{name} {way}: nothing is written", read_all(folder) == before)
    for limit in (90, 120):
        answers(f"room for {limit} bytes", desk(folder, "wishes", "wishes.txt", first=lambda: resource.setrlimit(resource.RLIMIT_FSIZE, (limit, limit))),
                (1, "", "students.csv and pairs.csv cannot be written in this folder: File too large.\n"))
        check(f"room for {limit} bytes: nothing is written", read_all(folder) == before, str(os.listdir(folder)))
    closed = subprocess.run([sys.executable, DESK, "wishes", "wishes.txt"], cwd=folder, stdout=open("/dev/full", "wb"), stderr=subprocess.PIPE)
    answers("a full disk for the answer", (closed.returncode, closed.stderr),
            (1, b"The answer could not be written: No space left on device. The files were written.\n"))
    check("a full disk for the answer: the tables", read_all(folder) == {**after_reading(), "wishes.txt": NEW_LINES.encode()})


def together(folder):
    """A signal while the one table takes its place, or the other, comes when both have; a disk that fails between is told, and the next run goes on."""
    for number in (1, 2):
        for name, data in {**NEW_FILES, "wishes.txt": NEW_LINES.encode()}.items():
            write(folder, name, data)
        told = other_desk(folder, OTHER_DESK.format(AT_REPLACE.format(number, "os.kill(os.getpid(), signal.SIGTERM)")), "wishes", "wishes.txt")
        check(f"a signal at table {number}", told == (143, "", "") and read_all(folder) == {**after_reading(), "wishes.txt": NEW_LINES.encode()}, str(told))
    for name, data in NEW_FILES.items():
        write(folder, name, data)
    told = other_desk(folder, OTHER_DESK.format(AT_REPLACE.format(2, "fail()")), "wishes", "wishes.txt")
    answers("a disk that fails between", told, (1, "", "pairs.csv cannot be written in this folder: Input/output error.\n"
                                                       "Only students.csv was written. Type the command again.\n"))
    check("a disk that fails between: the next run", desk(folder, "wishes", "wishes.txt")[0] == 0
          and read_all(folder) == {**after_reading(), "wishes.txt": NEW_LINES.encode()}, str(os.listdir(folder)))


ENDLESS = OTHER_DESK.format("lgs.read_wishes = lgs.write_wishes = lambda *files: (open(os.environ['STARTED'], 'w').close(), time.sleep(60))")


def at_once(folder):
    """Who reads lines has the lock of the tables, and who writes them that of the file; six at once write once; who is in the way is told."""
    write(folder, "wishes.txt", NEW_LINES)
    runs = [start_desk(folder, SLOW_DISK, "wishes", "wishes.txt") for _ in range(6)]
    told = sorted(run.communicate()[0].decode() for run in runs)
    answers("six at once", told, sorted([NEW_SAID] + [READ.format(0) + HAVE_THEM] * 5))
    runs = [start_desk(folder, SLOW_DISK, "wishes", "--write", "new.txt") for _ in range(6)]
    told = sorted(run.communicate()[0].decode().split(":")[0].split(".")[0] for run in runs)
    answers("six at once write lines", told, ["Wrote new"] + ["new"] * 5)
    check("six at once: nothing is left", sorted(os.listdir(folder)) == sorted([*NEW_FILES, "wishes.txt", "new.txt"]), str(os.listdir(folder)))
    with tempfile.TemporaryDirectory() as other:
        for words, table, others in ((("wishes", "wishes.txt"), "students.csv", ("lots",)),
                                     (("wishes", "--write", "x.txt"), "x.txt", ("wishes", "--write", "x.txt"))):
            started = os.path.join(other, table)
            run = start_desk(folder, ENDLESS, *words, STARTED=started, LOGNAME="anna")
            while run.poll() is None and not os.path.exists(started):
                time.sleep(0.01)
            command = "wishes" if words[1] == "wishes.txt" else "wishes --write"
            told_in_use(f"in use: {words}", desk(folder, *others), table, command, run)
            check(f"in use: {words}: desk.py answers", desk(folder)[0] == 0)
            run.terminate()
            check(f"ended: {words}", run.communicate() == (b"", b"") and sorted(os.listdir(folder)) == sorted([*NEW_FILES, "wishes.txt", "new.txt"]))


def wrong_commands(folder):
    for words in (("wishes",), ("wishes", "a.txt", "b.txt"), ("wishes", "--write"), ("wishes", "--write", "a.txt", "b.txt"), ("wishes", ""),
                  ("wishes", "--write", ""), ("--write", "a.txt"), ("lots", "--write", "a.txt"), ("wishes", "a.txt", "--visits"),
                  ("wishes", "a.txt", "--csv", "out")):
        status, out, err = desk(folder, *words)
        check(f"a wrong command {words}", (status, out) == (2, "") and err.startswith("usage: "), out + err)
    check("a wrong command: what it takes", desk(folder, "wishes")[2].endswith(
        "wishes takes one file: desk.py wishes wishes.txt, or desk.py wishes --write wishes.txt\n"))
    said = desk(folder, "--help")[1]
    check("help", "python3 desk.py wishes FILE\n" in said and "python3 desk.py wishes --write FILE\n" in said, said)
    check("nothing is written", read_all(folder) == NEW_FILES)


def college(folder):
    """512 students and 64 workshops, with every pair: written and read in a moment."""
    year = Wishes(1, students=512, workshops=64)
    year.pairs = [(s, w) for s in range(1, 513) for w in range(1, 65)]
    year.turn()
    year.write(folder)
    took = []
    for words in (("wishes", "--write", "wishes.txt"), ("wishes", "wishes.txt"), ("wishes", "wishes.txt")):
        start = time.monotonic()
        status, out, err = desk(folder, *words)
        took.append(time.monotonic() - start)
        check(f"college: {words}", status == 0 and took[-1] < 10, out[-300:] + err)
    check("college: the lines", read(folder, "wishes.txt") == year.lines().encode())
    check("college: the tables", year.wishes_in(folder) == year.counted() and out.endswith(HAVE_THEM))
    print("college 512 x 64, {} bytes of lines: write {:.1f} s, read {:.1f} s, again {:.1f} s".format(len(year.lines()), *took))


def main():
    NEW_FILES.update(new_files()[0])
    for test in (example, wrong_lines, repaired, other_refusals, damage, made_up_years, renumbered, notes, kept, no_pairs, wrong_tables, wrong_files,
                 files_to_write, written_meanwhile, in_the_way, together, at_once, wrong_commands, college):
        try_out(in_new_folder, test)
    print(f"{tally['passed']} passed, {tally['failed']} failed")
    return 1 if tally["failed"] else 0


if __name__ == "__main__":
    sys.exit(main())
