#!/usr/bin/env python3
"""The college desk's tool around the placing engine.

    python3 desk.py new       writes students.csv, workshops.csv, pairs.csv and visits.csv with a small example
    python3 desk.py lots      draws a lot for each student in students.csv who has none, and writes it there
    python3 desk.py stages    works the students' stages out from the first three files, and writes them in students.csv
    python3 desk.py           checks the four files and says whom to send where next, or who goes where, and what the visits cost
    python3 desk.py --csv DIR the same, and writes it as tables in the folder DIR: next.csv, placement.csv
    python3 desk.py why STUDENT WORKSHOP
                              says why the student is not placed at the workshop
    python3 desk.py wishes FILE
                              reads wish lines from FILE, and writes the students' groups in pairs.csv and their line groups in students.csv
    python3 desk.py wishes --write FILE
                              writes the students' wishes as lines in a new file FILE, and says who has which number

It works in the current folder. Of the four files it writes only what is said above, and reads the rest. Several may work in one folder at the same time:
an answer is of the four files as they were at one moment, and a table is written by one run at a time.
Beside desk.py are lgs.py and liblgs.so, the engine.
Exit status: 0 for an answer, 1 where something is to be corrected, 2 for a wrong command.
Python 3.8 or later, no other packages.
"""
import signal
import sys

if __name__ == "__main__" and signal.getsignal(signal.SIGINT) == signal.default_int_handler:
    signal.signal(signal.SIGINT, signal.SIG_DFL)    # Ctrl-C ends quietly, from the first moment
if sys.version_info < (3, 8):
    sys.exit("desk.py needs Python 3.8 or later, and this is %d.%d." % sys.version_info[:2])

import argparse
import bisect
import codecs
import collections
import contextlib
import csv
import difflib
import fcntl
import getpass
import io
import os
import re
import secrets
import shlex
import stat
import struct
import time
import unicodedata
from dataclasses import dataclass, field

sys.dont_write_bytecode = True    # the desk's folder stays as it is
sys.path.insert(0, os.path.dirname(os.path.abspath(__file__)))
try:
    import lgs
    # all that is used below is there
    lgs.Cause, lgs.NextVisit, lgs.Placement, lgs.Refused, lgs.pack_book, lgs.pack_case, lgs.place, lgs.read_wishes, lgs.stages, lgs.write_wishes
except ModuleNotFoundError as missing:
    if missing.name != "lgs":
        raise
    sys.exit("lgs.py is not in the folder of desk.py. Copy it there, with liblgs.so.")
except (SyntaxError, AttributeError):
    sys.exit("lgs.py, in the folder of desk.py, is not the one that belongs to it, or not whole. Copy it there again, with liblgs.so.")

# ---------------------------------------------------------------- the columns


@dataclass
class Name:
    """A column with a name. `of` is the file that must have this name, if another one."""
    heading: str
    of: str = ""


@dataclass
class Number:
    """A column with a whole number. `word`, where there is one, stands for the lowest. `unit` says what is counted. `help` says what to do about an
    empty cell, and `help_column` about a missing column. One that is `optional` may be left out: then it is 0 in every row."""
    heading: str
    low: int
    high: int
    zero: bool = True
    optional: bool = False
    word: str = ""
    unit: str = ""
    help: str = ""
    help_column: str = ""


NEVER = -1000    # the mark which says that the two cannot be placed together
STUDENTS, WORKSHOPS, PAIRS, VISITS = "students.csv", "workshops.csv", "pairs.csv", "visits.csv"
STAGE = Number("stage", 1, 512, help=' "python3 desk.py stages" works it out.')
LOT = Number("lot", 1, 512, help=' "python3 desk.py lots" draws it.', help_column='\n"python3 desk.py lots" adds it and draws a lot for each student.')
LINE_GROUP, GROUP = Number("line group", 1, 65), Number("group from student", 1, 65)    # a student's
FARE = Number("fare", 0, 65535, optional=True, unit=" of pence", help=" Write 0 where there is nothing to pay.")

# Each file's columns. Their order is that of the fields in lgs.py; in the files the columns may stand in any order.
COLUMNS = {
    STUDENTS: [Name("student"), STAGE, LINE_GROUP, LOT],
    WORKSHOPS: [Name("workshop"), Number("quota", 0, 512), Number("line group", 1, 513)],
    PAIRS: [Name("student", STUDENTS), Name("workshop", WORKSHOPS),
            GROUP, Number("group from workshop", 1, 513), FARE],
    VISITS: [Name("student", STUDENTS), Name("workshop", WORKSHOPS),
             Number("mark from student", NEVER, 1000, zero=False, word="never"),
             Number("mark from workshop", NEVER, 1000, zero=False, word="never")],
}
WISHES = {STUDENTS: LINE_GROUP, PAIRS: GROUP}    # the columns that wish lines are about
MOST = {STUDENTS: 512, WORKSHOPS: 64}
MOST_BYTES = 32 << 20    # of a table: 1,024 bytes for each of 32,768 pairs; and of any other file
ENDS = {signal.SIGINT, signal.SIGHUP, signal.SIGTERM, signal.SIGQUIT}    # what ends a run
# Seconds: how long a run waits for others in the same folder, with which pauses, and for how long after a change a table may be half written still.
MOMENT, PAUSE, AT_REST = 3.0, 0.05, 0.05

# What `desk.py new` writes: example K of document 01, with fares. The lots are drawn.
EXAMPLE = {
    STUDENTS: [("Anna Berg", 1, 2), ("Ben Olsen", 2, 2), ("Carla Roth", 2, 2)],
    WORKSHOPS: [("Dye house", 1, 3), ("Weaving mill", 1, 3)],
    PAIRS: [("Anna Berg", "Dye house", 1, 1, 240), ("Anna Berg", "Weaving mill", 1, 1, 310),
            ("Ben Olsen", "Dye house", 1, 2, 180), ("Ben Olsen", "Weaving mill", 1, 2, 420),
            ("Carla Roth", "Dye house", 1, 2, 0), ("Carla Roth", "Weaving mill", 2, 2, 365)],
    VISITS: [],
}

# What `desk.py --csv` writes: the next visit, with the headings of visits.csv, and everybody's place.
NEXT_TABLE, PLACEMENT_TABLE = "next.csv", "placement.csv"
OUT = {
    NEXT_TABLE: [column.heading for column in COLUMNS[VISITS]],
    PLACEMENT_TABLE: ["student", "workshop", "group from student", "group from workshop"],
}

# ---------------------------------------------------------------- what is wrong


class Stop(Exception):
    """Something is to be corrected; the text says what."""


class Missing(Stop):
    """A table is not there."""


@dataclass
class Problems:
    """Wrong rows, told together."""
    found: list = field(default_factory=list)    # file, row, text

    def add(self, file, row, heading, text):
        where = f"{file}, row {row}" + (f', column "{heading}"' if heading else "")
        self.found.append((file, row, f"{where}: {text}"))

    def has(self, file):
        return any(problem[0] == file for problem in self.found)

    def stop_if_any(self):
        if self.found:
            self.found.sort(key=lambda problem: (list(COLUMNS).index(problem[0]), problem[1]))
            lines = [problem[2] for problem in self.found[:20]]
            rest = [f"and {len(self.found) - 20} more."] if len(self.found) > 20 else []
            raise Stop("\n".join(lines + rest + ["Nothing was written. Correct this and run desk.py again."]))


# ---------------------------------------------------------------- reading the four files


@dataclass
class Row:
    """A row of a file: its number as the spreadsheet counts (the heading is row 1), and its cells by heading."""
    at: int
    cells: dict


def clean(text):
    """Without blanks around it, and with one blank where there are several."""
    return " ".join(unicodedata.normalize("NFC", text).split())


@dataclass
class Reading:
    """What was read of a file: its bytes, what changes whenever they do, and how many seconds before that was, by a clock that may be another computer's."""
    data: bytes
    state: tuple
    age: float = field(compare=False)


def read_file(file):
    try:
        check_kind(file, os.stat(file))
        with open(file, "rb") as f:
            there = os.fstat(f.fileno())
            age = abs(time.time() - there.st_ctime)    # before it is read, which may take long
            state = there.st_dev, there.st_ino, there.st_size, there.st_mtime_ns, there.st_ctime_ns
            return Reading(f.read(), state, age)
    except FileNotFoundError:
        raise Missing(explain_missing(file))
    except OSError as e:
        raise Stop(f"{file} cannot be read: {e.strerror}.")


def explain_missing(file):
    if file not in COLUMNS:
        return f"There is no file {os.path.abspath(file)}. Nothing was written."
    return f"{file} is not in this folder ({os.getcwd()}). " + ("Was it saved under another name, or not as CSV?" if any(map(os.path.exists, COLUMNS))
                                                                else '"python3 desk.py new" writes an example to start from.')


def check_kind(file, there):
    """A table is an ordinary file, and not endless; so are wish lines."""
    what, help_there = ("a table", "Save the table under this name, as CSV.") if file in COLUMNS else ("a file of lines", "Name the file with the wish lines.")
    if not stat.S_ISREG(there.st_mode):
        raise Stop(f"{file} is no ordinary file. {help_there}")
    if there.st_size > MOST_BYTES:
        raise Stop(f"{file} has {there.st_size} bytes; {what} has at most {MOST_BYTES}. Is this the right file?")


def read_tables(files):
    """The bytes of these files as they were at one moment: each is read, then each once more, and nothing has changed. Where something has, or did so
    just before and may be half written, all of them are read again; and so where one is missing, which may be about to come back."""
    end, missing = time.monotonic() + MOMENT, 0
    while True:
        try:
            first, second = ({file: read_file(file) for file in files} for _ in range(2))
        except Missing:
            missing += 1
            if missing == 5:
                raise
        else:
            missing, changed = 0, [file for file in files if first[file] != second[file] or first[file].age < AT_REST]
            if not changed:
                return {file: reading.data for file, reading in first.items()}
            if time.monotonic() > end:
                raise Stop(f"{' and '.join(changed)} changed again and again while desk.py was reading. Nothing was written.\n"
                           "Type the command again when nobody is saving a table in this folder.")
        time.sleep(PAUSE)


# How files begin that are no text, and what they are.
NO_TEXT = [(rb"PK\x03\x04.{26}mimetypeapplication/vnd\.oasis", "an .ods workbook"), (rb"PK\x03\x04", "an .xlsx workbook"),
           (rb"\xd0\xcf\x11\xe0", "an .xls workbook"), (rb"%PDF", "a PDF file"), (rb"\xff\xfe|\xfe\xff", "a text in UTF-16")]


def text_of(file, data):
    """The text of a file as spreadsheets write it."""
    for form, what in NO_TEXT:
        if re.match(form, data, re.DOTALL):
            raise Stop(f'{file} is {what} under the name of a CSV file. Open it with your spreadsheet, and save it as "CSV UTF-8".')
    try:
        return data.decode("utf-8-sig")
    except UnicodeDecodeError as e:
        before = e.object[:e.start].decode()    # without the byte order mark
        row = before[len(lead_of(before)):].count("\n") + 1
        raise Stop(f'{file}, row {row}: a letter is not stored as UTF-8. Save the file again as "CSV UTF-8".')


def lead_of(text):
    """The line `sep=;` that some spreadsheets write and read before the headings; it is no row. Mostly there is none."""
    return re.match(r'("?sep=[;,\t]"?(\r\n|\r|\n))?', text, re.IGNORECASE)[0]


def delimiter_of(text):
    """Semicolon, comma or tab: the one that the first line names, else the one that the heading row has most of."""
    heading = (lead_of(text) or text).split("\n", 1)[0]
    return max(";,\t", key=heading.count)


def split_rows(text):
    """The rows, each as the list of its cells."""
    return csv.reader(io.StringIO(text[len(lead_of(text)):], newline=""), delimiter=delimiter_of(text), strict=True)


def read_cells(file, data):
    """All rows as lists of cells, with their row numbers; rows without any text are left out."""
    lines = split_rows(text_of(file, data))
    rows, at = [], 0
    while True:
        at += 1
        try:
            cells = [clean(cell) for cell in next(lines)]
        except StopIteration:
            return rows
        except csv.Error:
            raise Stop(f"{file}, row {at}: a quotation mark is opened and not closed, or stands inside a cell.")
        if any(cells):
            rows.append((at, cells))


def read_headings(file, rows, may_miss=()):
    """At which place of a row each column stands; those of `may_miss`, and optional ones, need not be there. Columns that are not ours are left alone."""
    if not rows or rows[0][0] != 1:
        raise Stop(f"{file}, row 1: the headings are missing: {headings_of(file)}.")
    found = [cell.lower() for cell in rows[0][1]]
    places = {}
    for column in COLUMNS[file]:
        count = found.count(column.heading)
        if count > 1 or (count == 0 and column.heading not in may_miss and not is_optional(column)):
            raise Stop(wrong_heading(file, column, found))
        if count:
            places[column.heading] = found.index(column.heading)
    return places, len(found)


def wrong_heading(file, column, found):
    how, help_there = ("there twice", "") if column.heading in found else ("missing", getattr(column, "help_column", ""))
    seen = ", ".join(cell for cell in found if cell)
    return f'{file}, row 1: the column "{column.heading}" is {how}. The headings are {seen}; needed are {headings_of(file)}.{help_there}'


def is_optional(column):
    return isinstance(column, Number) and column.optional


def headings_of(file):
    return ", ".join(column.heading + (" (may be left out)" if is_optional(column) else "") for column in COLUMNS[file])


def read_rows(file, tables, problems, may_miss=()):
    """The rows below the headings, each with the text of our columns that are there."""
    rows = read_cells(file, tables[file])
    places, width = read_headings(file, rows, may_miss)
    result = []
    for at, cells in rows[1:]:
        if any(cells[width:]):
            problems.add(file, at, "", "there are more cells than headings. A name with a comma or semicolon in it needs quotation marks around it.")
            continue
        cells = cells + [""] * (width - len(cells))
        result.append(Row(at, {heading: cells[place] for heading, place in places.items()}))
    return result


# ---------------------------------------------------------------- checking the rows


def number_in(row, column):
    """The number that the cell's text says, whether in range or not; None if it says none."""
    digits = row.cells[column.heading].replace("\u2212", "-")    # a minus sign as some spreadsheets write it
    if column.word and digits.lower() == column.word:
        return column.low
    return int(digits) if re.fullmatch(r"[+-]?[0-9]{1,9}", digits) else None


def check_number(file, row, column, problems):
    """Turns the cell's text into its number."""
    text, number = row.cells[column.heading], number_in(row, column)
    if number is None or not column.low <= number <= column.high or (number == 0 and not column.zero):
        but = "" if column.zero else ", and not 0"
        word = f", or the word {column.word}" if column.word else ""
        what = f'"{text}" is there' if text else "the cell is empty"
        help_there = "" if text else column.help
        problems.add(file, row.at, column.heading, f"{what}; it must be a whole number{column.unit} from {column.low} to {column.high}{but}{word}.{help_there}")
    row.cells[column.heading] = number


def check_numbers(file, rows, problems, may_be_empty=""):
    """All numbers of these rows. In the column `may_be_empty` an empty cell becomes None."""
    for row in rows:
        for column in [column for column in COLUMNS[file] if column.heading in row.cells]:
            if column.heading == may_be_empty and not row.cells[column.heading]:
                row.cells[column.heading] = None
            elif isinstance(column, Number):
                check_number(file, row, column, problems)


def check_people(file, rows, problems):
    """Students or workshops: each has a name, and no two have the same. Gives each name its number, from 1."""
    heading = COLUMNS[file][0].heading
    first = {}
    for row in rows:
        name = row.cells[heading]
        if not name:
            problems.add(file, row.at, heading, "the name is missing.")
        elif name in first:
            problems.add(file, row.at, heading, f'"{name}" stands in row {first[name]} already. Two of the same name need something to tell them apart.')
        else:
            first[name] = row.at
    if not rows and not problems.has(file):
        problems.add(file, 2, heading, "there is nobody. At least one row is needed below the headings.")
    if len(rows) > MOST[file]:
        problems.add(file, rows[MOST[file]].at, "", f"there are {len(rows)} rows; {MOST[file]} is the most.")
    return {name: number for number, name in enumerate(first, 1)}


def check_lots(rows, problems):
    """All lots are different. Those that are missing or out of range are told elsewhere."""
    first = {}
    for row in rows:
        name, lot = row.cells["student"], row.cells["lot"]
        if lot in first:
            early = first[lot]
            problems.add(STUDENTS, row.at, "lot", f"{name} has the lot {lot}, and so has {early.cells['student']} in row {early.at}. "
                         'Empty the wrong cell; "python3 desk.py lots" draws another.')
        elif lot is not None and LOT.low <= lot <= LOT.high:
            first[lot] = row


def check_name(file, row, column, names, problems):
    name = row.cells[column.heading]
    if name in names[column.of]:
        return True
    text = f'there is no "{name}" in {column.of}.' if name else "the name is missing."
    problems.add(file, row.at, column.heading, text + hint(name, names[column.of], problems))
    return False


def hint(name, names, problems):
    """A name that looks like this one; not where so much is wrong that nobody reads it."""
    by_small = {other.lower(): other for other in names}
    near = difflib.get_close_matches(name.lower(), by_small, 1) if len(problems.found) < 20 else []
    return f' Did you mean "{by_small[near[0]]}"?' if near else ""


def check_couples(file, rows, names, problems):
    """Pairs or visits: both names are known, and no two stand together twice. The rows by student and workshop."""
    columns = [column for column in COLUMNS[file] if isinstance(column, Name)]
    found = {}
    for row in rows:
        if not all([check_name(file, row, column, names, problems) for column in columns]):
            continue
        couple = couple_of(row)
        if couple in found:
            problems.add(file, row.at, "", f"{couple[0]} and {couple[1]} stand in row {found[couple].at} already.")
        else:
            found[couple] = row
    return found


def couple_of(row):
    return row.cells["student"], row.cells["workshop"]


def is_held(row, problems):
    """A visit with both marks was held; one without marks is still to be held."""
    marks = [column for column in COLUMNS[VISITS] if isinstance(column, Number)]
    empty = [column for column in marks if not row.cells[column.heading]]
    if len(empty) == 1:
        never = " Beside never, this one may be never too." if NEVER in [number_in(row, column) for column in marks] else ""
        problems.add(VISITS, row.at, empty[0].heading,
                     f"this mark is missing and the other is there. Fill in both, or none while the visit is not held.{never}")
    return not empty


# ---------------------------------------------------------------- the year: all four files, checked


@dataclass
class Year:
    students: list      # rows, the number of a student is her place in this list, from 1
    workshops: list
    pairs: list         # rising by student and workshop
    visits: list        # those held
    planned: dict       # those without marks, by student and workshop
    names: dict         # by file: the number of each name
    comma: str = ","    # what stands between the cells of students.csv

    def __post_init__(self):
        self.pair_of = {couple_of(row): row for row in self.pairs}
        self.visit_of = {couple_of(row): row for row in self.visits}
        self.pairs_at = {row.cells["workshop"]: [] for row in self.workshops}
        for row in self.pairs:
            self.pairs_at[row.cells["workshop"]].append(row)

    def student(self, number):
        return self.students[number - 1].cells["student"]

    def workshop(self, number):
        return self.workshops[number - 1].cells["workshop"]


def read_people(tables, problems, may_be_empty):
    people, names = {}, {}
    for file in (STUDENTS, WORKSHOPS):
        people[file] = read_rows(file, tables, problems)
        names[file] = check_people(file, people[file], problems)
        check_numbers(file, people[file], problems, may_be_empty)
    check_lots(people[STUDENTS], problems)
    problems.stop_if_any()
    return people[STUDENTS], people[WORKSHOPS], names


def read_pairs(tables, names, problems):
    rows = read_rows(PAIRS, tables, problems)
    pairs = check_couples(PAIRS, rows, names, problems)
    check_numbers(PAIRS, rows, problems)
    problems.stop_if_any()
    return pairs


def read_visits(tables, names, pairs, problems):
    rows = read_rows(VISITS, tables, problems)
    visits = check_couples(VISITS, rows, names, problems)
    for couple, row in visits.items():
        if couple not in pairs:
            problems.add(VISITS, row.at, "", f"{couple[0]} and {couple[1]} have no row in {PAIRS}.")
    held, planned = [], {}
    for row in rows:
        if is_held(row, problems):
            held.append(row)
        else:
            planned[couple_of(row)] = row
    check_numbers(VISITS, held, problems)
    problems.stop_if_any()
    return held, planned


def read_year(tables, for_stages=False):
    """The year. For the stages the visits are not needed, and a stage that is missing is None."""
    problems = Problems()
    students, workshops, names = read_people(tables, problems, "stage" if for_stages else "")
    by_couple = read_pairs(tables, names, problems)
    visits, planned = ([], {}) if for_stages else read_visits(tables, names, by_couple, problems)
    pairs = sorted(by_couple.values(), key=lambda row: numbers_of(row, PAIRS, names)[:2])
    return Year(students, workshops, pairs, visits, planned, names, delimiter_of(text_of(STUDENTS, tables[STUDENTS])))


def read_wishes(tables, needed):
    """The year as far as wish lines are about it: the names in three tables, and the wishes, which must be there where they are `needed`. No other number
    is looked at."""
    problems = Problems()
    students, workshops = (read_named(file, tables, problems, needed) for file in (STUDENTS, WORKSHOPS))
    names = {file: check_people(file, rows, problems) for file, rows in ((STUDENTS, students), (WORKSHOPS, workshops))}
    problems.stop_if_any()
    by_couple = check_couples(PAIRS, read_named(PAIRS, tables, problems, needed), names, problems)
    problems.stop_if_any()
    pairs = sorted(by_couple.values(), key=lambda row: numbers_of(row, PAIRS, names)[:2])
    return Year(students, workshops, pairs, [], {}, names)


def read_named(file, tables, problems, needed):
    """The rows of a table, each with its wish, if it has one: None where there is no number."""
    wish = WISHES.get(file)
    others = [column.heading for column in COLUMNS[file] if isinstance(column, Number) and not (needed and column is wish)]
    rows = read_rows(file, tables, problems, may_miss=others)
    for row in rows if wish else []:
        row.cells.setdefault(wish.heading, "")
        if needed:
            check_number(file, row, wish, problems)
        else:
            row.cells[wish.heading] = number_in(row, wish)
    return rows


# ---------------------------------------------------------------- asking the engine


def numbers_of(row, file, names):
    """The fields of a row in the order of the columns; a name becomes its number, and a column that was left out 0."""
    return [names[column.of or file][row.cells[column.heading]] if isinstance(column, Name) else row.cells.get(column.heading, 0)
            for column in COLUMNS[file]]


def case_bytes(year):
    students = [numbers_of(row, STUDENTS, year.names)[1:] for row in year.students]
    workshops = [numbers_of(row, WORKSHOPS, year.names)[1:] for row in year.workshops]
    return lgs.pack_case(students, workshops, [numbers_of(row, PAIRS, year.names) for row in year.pairs])


def book_bytes(year):
    return lgs.pack_book(numbers_of(row, VISITS, year.names) for row in year.visits)


def ask(year, function, *files, explain=None):
    """What a function of lgs.py says of these bytes. `explain` is for refusals that are not about the tables."""
    try:
        return function(*files)
    except lgs.Refused as refused:
        raise Stop((explain or explain_refusal)(year, refused))
    except OSError as e:
        raise Stop(f"The engine cannot be used: {f'{e.filename}: {e.strerror}' if e.filename else e}.\n"
                   "desk.py, lgs.py and liblgs.so of one version belong in one folder, on Linux with an Intel or AMD processor (x86-64).")


def find_answer(year):
    """The next visit, or the placement."""
    return ask(year, lgs.place, case_bytes(year), book_bytes(year))


def wish_rows(year):
    """The rows that have a wish, with their table: the students, whose line group it is, and the pairs."""
    return [(STUDENTS, row) for row in year.students] + [(PAIRS, row) for row in year.pairs]


def wishes_of(year):
    """The wishes of these rows, in this order."""
    return [row.cells[WISHES[file].heading] for file, row in wish_rows(year)]


def wish_case(year, wishes):
    """A case with these wishes, in this order. Wish lines are about nothing else in it: there it has any numbers that will do."""
    lines, groups = wishes[:len(year.students)], wishes[len(year.students):]
    couples = [numbers_of(row, PAIRS, year.names)[:2] for row in year.pairs]
    return lgs.pack_case([(1, line, number) for number, line in enumerate(lines, 1)], [(0, 1)] * len(year.workshops),
                         [(*couple, group, 1) for couple, group in zip(couples, groups)])


def wishes_in(case):
    """The wishes in a case, in this order: bytes 6 and 7 of the records of students and pairs."""
    return [wish for kind, wish in struct.iter_unpack("<B5xH8x", case) if kind != 2]


# ---------------------------------------------------------------- writing, one run at a time


@dataclass
class Lock:
    """What this run needs in order to write: a file that it has locked. Where it could not have that, the reason."""
    file: object = None
    reason: str = ""
    wrote: bool = False    # whether it has written


LOCK = Lock()


@contextlib.contextmanager
def one_at_a_time(command, table=STUDENTS):
    """Of all runs that write this table only one at a time is in here; a second one waits a moment, and then says who is. Without a lock one may read.
    The operating system locks a file beside the table, and frees it when the run ends, in whatever way: a file that was left there stops nobody."""
    folder, name = os.path.split(os.path.realpath(table))
    path = os.path.join(folder, f".{name}.lock")
    try:
        LOCK.file = take_lock(path, table)
    except OSError as e:
        LOCK.reason = f"{e.strerror} ({path})"
    try:
        if LOCK.file:
            sign_lock(LOCK.file, command)
        yield
    finally:
        if LOCK.file:
            remove_lock(path, LOCK.file)
            LOCK.file.close()
            LOCK.file = None


def take_lock(path, table):
    """The file, locked. One that this run may not write in, left by somebody else, is made anew where that is allowed."""
    end = time.monotonic() + MOMENT
    while True:
        lock = open_lock(path)
        if is_taken(path, lock) and (lock.writable() or not remove_lock(path, lock)):
            return lock
        holder = holder_of(lock)
        lock.close()
        if time.monotonic() > end:
            raise Stop(f"{table} is in use: {holder}.\nNothing was written. Type the command again when that has ended.")
        time.sleep(PAUSE)


def open_lock(path):
    """Everybody has rights to the file, so that whoever may write here can lock. One that was left with fewer rights can be locked if it can be read."""
    before = os.umask(0)
    try:
        return open(os.open(path, os.O_RDWR | os.O_CREAT | os.O_NOFOLLOW, 0o666), "r+b", buffering=0)
    except PermissionError:
        with contextlib.suppress(OSError):
            return open(os.open(path, os.O_RDONLY | os.O_NOFOLLOW), "rb", buffering=0)
        raise
    finally:
        os.umask(before)


def is_taken(path, lock):
    """Whether this run has the lock now. A file that was removed after it was opened locks nothing."""
    try:
        fcntl.flock(lock, fcntl.LOCK_EX | fcntl.LOCK_NB)
        return is_at(path, lock)
    except (BlockingIOError, FileNotFoundError):
        return False


def is_at(path, lock):
    return os.path.samestat(os.stat(path), os.fstat(lock.fileno()))


def remove_lock(path, lock):
    """Removes the file, which this run has locked. Whether that was allowed."""
    try:
        if is_at(path, lock):
            os.remove(path)
        return True
    except OSError:
        return False


def sign_lock(lock, command):
    """Writes in it who has it. Where that cannot be written the others are not told."""
    try:
        user = getpass.getuser()
    except (ImportError, KeyError, OSError):    # has no name
        user = f"user {os.getuid()}"
    text = f"desk.py {command}, typed by {user} on {os.uname().nodename}, process {os.getpid()}, since {time.strftime('%Y-%m-%d %H:%M:%S')}"
    with contextlib.suppress(OSError):
        lock.truncate()
        lock.write(text.encode("utf-8", "replace"))


def holder_of(lock):
    text = ""
    with contextlib.suppress(OSError):
        text = lock.read(400).decode("utf-8", "replace")
    return "".join(sign for sign in text if sign.isprintable()) or "another desk.py"


def write_files(contents, last_look=lambda: None):
    """Writes all files beside their places first, so that none is ever half written; after a last look they take their places. Where a name is a link,
    the file behind it is written."""
    if not LOCK.file:
        raise Stop(f"{' and '.join(contents)} cannot be written in this folder: {LOCK.reason}.")
    paths = {name: os.path.realpath(name) for name in contents}
    parts = {name: os.path.join(os.path.dirname(path), f".{os.path.basename(path)}.{os.getpid()}") for name, path in paths.items()}
    done = []
    try:
        for name, part in parts.items():
            with open(part, "wb") as f:
                keep_rights(paths[name], part)
                f.write(contents[name])
                f.flush()
                os.fsync(f.fileno())
        last_look()
        with undisturbed():
            for name, part in parts.items():
                os.replace(part, paths[name])
                done.append(name)
                LOCK.wrote = True
    except OSError as e:
        others = f"\nOnly {' and '.join(done)} {'was' if len(done) == 1 else 'were'} written. Type the command again." if done else ""
        raise Stop(f"{' and '.join(name for name in contents if name not in done)} cannot be written in this folder: {e.strerror}.{others}")
    finally:
        for part in parts.values():
            if os.path.exists(part):
                os.remove(part)


@contextlib.contextmanager
def undisturbed():
    """A signal that comes in here is heeded afterwards, when all files have taken their places."""
    before = signal.pthread_sigmask(signal.SIG_BLOCK, ENDS)
    try:
        yield
    finally:
        signal.pthread_sigmask(signal.SIG_SETMASK, before)


def keep_rights(path, part):
    """Who may read and write the file at this path may read and write the new one."""
    if os.path.isfile(path):
        there = os.stat(path)
        for change in (lambda: os.chown(part, -1, there.st_gid), lambda: os.chown(part, there.st_uid, -1),
                       lambda: os.chmod(part, stat.S_IMODE(there.st_mode))):
            with contextlib.suppress(OSError):    # not ours to give, or the disk does not know it
                change()


# ---------------------------------------------------------------- stages, lots and wishes in the tables


def first_row(text):
    """The headings, those of other columns too."""
    return [clean(cell).lower() for cell in next(split_rows(text))]


def with_cells(data, heading, numbers, file=STUDENTS):
    """The bytes of a table with these numbers in one column, by row number. The column is added where it is missing. All else is as it was,
    byte for byte."""
    text = data.decode("utf-8-sig")
    lead = lead_of(text)
    mark = data[:len(data) - len(text.encode())] + lead.encode()    # the byte order mark and the line `sep=;`, or nothing
    delimiter, headings = delimiter_of(text), first_row(text)
    place = (headings + [heading]).index(heading)
    added = {} if heading in headings else {1: heading}
    texts = {**added, **{at: str(number) for at, number in numbers.items()}}
    cell = re.compile(rf'("[^"]*(?:""[^"]*)*"|[^{delimiter}\r\n]*)({delimiter}|\r\n|\r|\n|\Z)')
    parts, at, column = [], 1, 0
    for found in cell.finditer(text[len(lead):]):
        inside, end = found.groups()
        if at in texts and column == place:
            inside = f'"{texts[at]}"' if inside.startswith('"') else texts[at]
        elif at in texts and column < place and end != delimiter:    # the row ends before this column
            inside += delimiter * (place - column) + texts[at]
        parts += [inside, end]
        at, column = (at, column + 1) if end == delimiter else (at + 1, 0)
    new = mark + "".join(parts).encode()
    check_only_cells(data, new, place, texts, file)
    return new


def check_only_cells(old, new, place, texts, file=STUDENTS):
    """Reads both contents of a table again: they differ in these cells of one column, and in nothing else."""
    rows, new_rows = ([list(row) for row in split_rows(data.decode("utf-8-sig"))] for data in (old, new))
    for at, text in texts.items():
        row = rows[at - 1]
        row += [""] * (place + 1 - len(row))
        row[place] = text
    if rows != new_rows:
        raise Stop(f"desk.py cannot write in {file} without changing other cells. Nothing was written.\n"
                   "Save the table again with your spreadsheet, as CSV, and type the command again.")


def check_free(name):
    """The table, if there is one, is not open in LibreOffice, and may be written."""
    if is_open(name):
        raise Stop(f"{name} is open in a spreadsheet: save and close it there, then type the command again. Nothing was written.")
    if os.path.exists(name) and not (os.access(name, os.W_OK) and os.stat(name).st_mode & 0o222):
        raise Stop(f"{name} is protected against writing. Nothing was written.")


def is_open(name):
    """LibreOffice has its lock file beside this file, or beside the one behind it where the name is a link."""
    return any(os.path.lexists(os.path.join(folder, f".~lock.{file}#")) for folder, file in map(os.path.split, (name, os.path.realpath(name))))


def write_cells(files, changes):
    """Writes numbers in one column of each table in `changes`, which has a heading and the numbers by row, if it is not open in LibreOffice, and if `files`,
    from which they come, still have these bytes."""
    contents = {file: with_cells(files[file], heading, numbers, file) for file, (heading, numbers) in changes.items()}
    for file in contents:
        check_free(file)

    def last_look():
        for file, data in files.items():
            if read_file(file).data != data:
                raise Stop(f"{file} was changed by somebody else at this moment. Nothing was written. Type the command again.")

    write_files(contents, last_look)


# ---------------------------------------------------------------- telling the answer


def tell_answer(year, answer):
    return tell_next(year, answer) if isinstance(answer, lgs.NextVisit) else tell_placement(year, answer)


def tell_next(year, answer):
    student, workshop = year.student(answer.student), year.workshop(answer.workshop)
    planned = year.planned.get((student, workshop))
    where = f"in {VISITS}, row {planned.at}" if planned else f"in a new row of {VISITS}"
    return [f"Next visit: {student} goes to {workshop}.",
            f"When it was held, write both marks {where}, save, and run desk.py again.",
            tell_standing(year, answer),
            f"Visits so far: {len(answer.visits)}."] + tell_fares(year, answer) + tell_unused(year, answer)


def tell_standing(year, answer):
    """Which stage is in hand, and who is settled: with stages that agree, those of earlier stages. Who is dropped by a workshop is in hand next, also from
    an earlier stage, so the stage in hand is the last one of which somebody was asked for a visit."""
    stages = [row.cells["stage"] for row in year.students]
    hand = max(stages[s - 1] for s, _ in [*answer.visits, answer[:2]])
    settled = sum(stage < hand for stage in stages)
    known = (f"{settled}; waiting: {len(stages) - settled}." if not disagreements(year)
             else "not known before the end, because the stages do not agree.")
    return f"Stage in hand: {hand} (the last is {max(stages)}). Students settled for good: {known}"


def tell_fares(year, answer):
    """What the visits just counted cost together. Without the column nobody has said that they cost nothing."""
    if not any(FARE.heading in row.cells for row in year.pairs):
        return [f'Fares of these visits: not known, {PAIRS} has none below the heading "{FARE.heading}".']
    return [f"Fares of these visits: {answer.fares} pence ({answer.fares // 100}.{answer.fares % 100:02} pounds)."]


def tell_unused(year, answer):
    unused = len(year.visits) - len(answer.visits)
    return [f"Other visits in {VISITS}, not called for so far: {unused}."] if unused else []


def tell_placement(year, answer):
    goes = {year.student(s): year.workshop(w) if w else "no place" for s, w in enumerate(answer.places, 1)}
    width = max(len(name) for name in goes)
    lines = ["The placement is finished.", ""] + [f"  {name:{width}}  {place}" for name, place in goes.items()] + [""]
    for number, row in enumerate(year.workshops, 1):
        taken = [student for student, place in zip(goes, answer.places) if place == number]
        lines.append(f"{row.cells['workshop']}, {len(taken)} of {row.cells['quota']}: {listed(taken) or 'nobody'}")
    return (lines + ["", tell_groups(year, answer), tell_seats(year, answer),
                     f"Stage in hand: none, all are done. Students settled for good: {len(goes)}; waiting: 0.",
                     f"Visits held for it: {len(answer.visits)}."] + tell_fares(year, answer) + tell_unused(year, answer))


def listed(names):
    """Names, one after the other; those with a comma in them can be told apart."""
    return ("; " if any("," in name for name in names) else ", ").join(names)


def tell_groups(year, answer):
    """How many students have a workshop of their first, second, .. group. Numbers may be left out: the first is the best one that the student has."""
    own = {row.cells["student"]: set() for row in year.students}
    for row in year.pairs:
        own[row.cells["student"]].add(row.cells["group from student"])
    ranks = []
    for number, place in enumerate(answer.places, 1):
        if place:
            student = year.student(number)
            ranks.append(sorted(own[student]).index(year.pair_of[student, year.workshop(place)].cells["group from student"]) + 1)
    counts = [f"{'' if rank == 1 else 'of their '}{ordinal(rank)} group: {ranks.count(rank)}" for rank in range(1, max(ranks, default=0) + 1)]
    placed = [f"Students with a workshop of their {', '.join(counts)}."] if counts else []
    return " ".join(placed + [f"Students without a place: {answer.places.count(0)}."])


def ordinal(number):
    words = ["first", "second", "third", "fourth", "fifth", "sixth"]
    ends = {1: "st", 2: "nd", 3: "rd"}
    return words[number - 1] if number <= len(words) else f"{number}{'th' if number in (11, 12, 13) else ends.get(number % 10, 'th')}"


def tell_seats(year, answer):
    seats, taken = sum(row.cells["quota"] for row in year.workshops), sum(place > 0 for place in answer.places)
    return f"Seats filled: {taken} of {seats}."


def tell_visits(year, answer):
    """The visits that the rule called for, in that order, and which of them ended in never."""
    never = {couple_of(row) for row in year.visits if NEVER in row.cells.values()}
    couples = [(year.student(s), year.workshop(w)) for s, w in answer.visits]
    return ["", "The visits:" if couples else "The visits: none so far."] + [f"  {s} at {w}" + (" (never)" if (s, w) in never else "") for s, w in couples]


def groups_that_count(year, workshop):
    """The workshop's groups of its students, by name, without those above its line group; none if its quota is 0."""
    there = {row.cells["student"]: row.cells["group from workshop"] for row in year.pairs_at[workshop.cells["workshop"]]}
    return {name: group for name, group in there.items() if workshop.cells["quota"] and group <= workshop.cells["line group"]}


def disagreements(year):
    """The workshops with whose groups the stages do not agree, each with two students there."""
    stage = {row.cells["student"]: row.cells["stage"] for row in year.students}
    found = []
    for row in year.workshops:
        seen = sorted((group, stage[name], name) for name, group in groups_that_count(year, row).items())
        two = next(((one[2], two[2]) for one, two in zip(seen, seen[1:]) if (one[0] < two[0]) != (one[1] < two[1])), None)
        found += [(row.cells["workshop"], *two)] if two else []
    return found


def tell_stages(year):
    """A note where the list of visits may be longer than needed."""
    lines = [f"  {name}: {one} and {two}" for name, one, two in disagreements(year)]
    if len(lines) > 3:
        lines = lines[:3] + [f"  and {len(lines) - 3} more workshops"]
    if not lines:
        return []
    return (["", "Note: at these workshops the stages do not agree with the groups, so more visits may be asked for than needed:"] + lines
            + ['"python3 desk.py stages" works out stages that agree, if there are any.'])


def tell_unfinished(year):
    """Notes on tables that look as if rows were still to come."""
    if not year.pairs:
        return ["", f"Note: {PAIRS} has no rows yet, so nobody can be placed."]
    notes = [] if any(row.cells["quota"] for row in year.workshops) else [f"Note: every quota in {WORKSHOPS} is 0, so nobody can be placed."]
    for rows, heading in ((year.students, "student"), (year.workshops, "workshop")):
        there = {row.cells[heading] for row in year.pairs}
        missing = [row.cells[heading] for row in rows if row.cells[heading] not in there]
        if missing:
            more = f" and {len(missing) - 5} more" if len(missing) > 5 else ""
            notes.append(f"Note: no row in {PAIRS} has {'this' if len(missing) == 1 else 'these'} {heading}{'s' * (len(missing) > 1)}: "
                         f"{listed(missing[:5])}{more}.")
    return [""] + notes if notes else []


def tell_worked_out(year, stages, before):
    """Who is in which stage, and what stood there before."""
    was = {row.cells["student"]: f" (was {old})" if old not in (None, new) else "" for row, old, new in zip(year.students, before, stages)}
    lines = []
    for stage in sorted(set(stages)):
        names = [name for name, its in zip(was, stages) if its == stage]
        lines.append(f"Stage {stage}: {listed([name + was[name] for name in names])}")
    return lines


def tell_written(tables, changes, what):
    """In which tables how many cells changed, and which columns were not there before."""
    added = "".join(f'the column "{heading}" was added, ' for file, (heading, _) in changes.items() if heading not in first_row(text_of(file, tables[file])))
    count = sum(len(numbers) for _, numbers in changes.values())
    return [f"Wrote them in {' and '.join(changes)}: {added}{count} {'cell' if count == 1 else 'cells'} changed, all else is as it was.",
            f"A spreadsheet that still shows {' or '.join(changes)} shows the old {what}: open the file again there before you change it."]


def tell_lots(rows, drawn):
    """Everybody's lot, the lowest first, and which were drawn in this run."""
    lots = sorted((drawn.get(row.at, row.cells["lot"]), row.cells["student"], " (drawn)" if row.at in drawn else "") for row in rows)
    return ["The lots, the lowest first:"] + [f"  {lot:3}  {name}{said}" for lot, name, said in lots]


def explain_no_stages(year):
    """In plain words, with the groups that contradict each other."""
    found = [f"  {workshop}: {one} {'before' if before else 'in the same group as'} {two}" for workshop, one, two, before in contradiction(year)]
    return "\n".join(
        ["No stage numbers agree with the groups of all workshops. Nothing was written.",
         "That is so where workshops put the same students in another order, or in one group here and in two there, directly or through others."
         + (" Here:" if found else "")]
        + found
        + [f"See whether such a group was typed wrongly in {PAIRS}; if so, correct it and run desk.py stages again.",
           "(A workshop with quota 0 does not count, nor does a student in a group above a workshop's line group.)",
           f"If the groups are right, write any stages from 1 to 512 in {STUDENTS}, for instance 1 for everybody, and go on.",
           "The placement is as good in any case; only the list of visits may be longer than needed."])


def contradiction(year):
    """The shortest round of students in which each, by one workshop's groups, comes before the next or with her, and some one before:
    then no stages agree. As workshop, student, next student, and whether before."""
    counts = {row.cells["workshop"]: groups_that_count(year, row) for row in year.workshops}
    orders = {workshop: sorted((group, name) for name, group in there.items()) for workshop, there in counts.items()}
    best = []
    for row in year.students:
        steps = way_back(counts, orders, row.cells["student"])
        if steps and (not best or len(steps) < len(best)):
            best = steps
        if len(best) == 2:
            break
    return [(workshop, one, two, counts[workshop][one] < counts[workshop][two]) for workshop, one, two in best]


def way_back(counts, orders, start):
    """The shortest such round that begins with this student, who comes before the second one; empty if there is none."""
    came, reached, hand = {}, {}, [start]
    for one in hand:
        for workshop in [workshop for workshop, there in counts.items() if one in there]:
            order = orders[workshop]
            low = bisect.bisect_left(order, (counts[workshop][one] + (one == start), ""))
            for _, two in order[low:reached.get(workshop, len(order))]:
                if two not in came:
                    came[two] = workshop, one
                    hand.append(two)
            reached[workshop] = min(low, reached.get(workshop, low))
        if start in came:
            break
    steps, two = [], start
    while two in came and (not steps or two != start):
        workshop, one = came[two]
        steps.insert(0, (workshop, one, two))
        two = one
    return steps if start in came else []


RENUMBERED = "the same order, in other numbers"


def changed_wishes(year, before, after):
    """The students whose wishes were other numbers before, with what is to be said of them."""
    hers = {row.cells["student"]: [] for row in year.students}
    for (_, row), old, new in zip(wish_rows(year), before, after):
        hers[row.cells["student"]].append((old, new))
    return {name: how_changed(*map(list, zip(*wishes))) for name, wishes in hers.items() if any(old != new for old, new in wishes)}


def how_changed(old, new):
    """Of a student's line group and groups, as they were, None where there was no number, and as they are now, counted from 1."""
    if None in old:
        return "new" if set(old) == {None} else ""
    return RENUMBERED if [sorted(set(old)).index(number) + 1 for number in old] == new else ""


def tell_wishes(year, file, changed):
    """How many lines were read, and whose wishes changed by them."""
    count = sum(how != RENUMBERED for how in changed.values())
    return ([f"Lines read from {file}: {len(year.students)}. Students whose wishes changed: {count}."]
            + [f"  {year.names[STUDENTS][name]:3}  {name}" + (f" ({how})" if how else "") for name, how in changed.items()])


def tell_marks(changed):
    """A note where wishes changed and visits were held. visits.csv need not be there or right for it: that is told when it counts."""
    marks = [column.heading for column in COLUMNS[VISITS] if isinstance(column, Number)]
    try:
        rows = read_rows(VISITS, {VISITS: read_file(VISITS).data}, Problems())
    except Stop:
        return []
    if set(changed.values()) <= {RENUMBERED} or not any(row.cells[mark] for row in rows for mark in marks):
        return []
    return ["", f"Note: {VISITS} has marks already. They stay good, but with other wishes desk.py may ask for other visits and find another placement."]


def tell_numbers(year):
    """Who has which number in wish lines."""
    return (["Students:"] + [f"  {number:3}  {name}" for name, number in year.names[STUDENTS].items()]
            + ["Workshops:"] + [f"  {number:3}  {name}" for name, number in year.names[WORKSHOPS].items()] + ["    -  none"])


def explain_refusal(year, refused):
    """What was refused, with the row that it points to."""
    if refused.number == lgs.Cause.NO_STAGES:
        return explain_no_stages(year)
    file, row = row_at(year, refused)
    if row is None:
        return f"The engine refused the tables, number {refused.number}: {refused.text}"
    if refused.number == lgs.Cause.BOOK_TIE:
        return "\n".join([f"{file}, row {row.at}: a student gave the same mark twice in one group. Ask her which of the two is better, and change one mark."]
                         + equal_marks(year, row))
    return f"{file}, row {row.at}: the engine refused it, number {refused.number}: {refused.text}"


def row_at(year, refused):
    """The row from which the record was made that a refusal names, if it names one."""
    case, book = [(STUDENTS, year.students), (WORKSHOPS, year.workshops), (PAIRS, year.pairs)], [(VISITS, year.visits)]
    lists, place = {2: case, 3: case, 5: case, 13: case, 8: book, 9: book, 10: book, 11: book}.get(refused.number, []), refused.place
    for file, rows in lists:
        if place < len(rows):
            return file, rows[place]
        place -= len(rows)
    return "", None


def equal_marks(year, row):
    """The earlier visits in which the same student gave the same mark in the same group."""
    groups = {couple: pair.cells["group from student"] for couple, pair in year.pair_of.items()}
    student, mark = row.cells["student"], row.cells["mark from student"]
    same = [early for early in year.visits[:year.visits.index(row)] if early.cells["student"] == student
            and early.cells["mark from student"] == mark and groups[couple_of(early)] == groups[couple_of(row)]]
    return [f'  {student} gave {mark} in row {early.at} too, column "mark from student".' for early in same]


# ---------------------------------------------------------------- what is wrong with wish lines

# What departs from the form of a line, and what to say; the first one that is found is told. A pattern's group, if it has one, marks where it is, and stands
# for %s. First of the line, then of what follows the colon and its blank.
ONE_BLANK = "The only blank in a line follows the colon."
BEGIN = "A line begins with the student's number, a colon and a blank."
LINE_FAULTS = [
    (r"\A\Z", "the line is empty. Write the student's wishes there, or delete the line if it is one too many."),
    (r"\r", 'a carriage return (CR) is in it. Save the file with the line ends LF ("Unix").'),
    (r"\A[^:]*\Z", f"there is no colon. {BEGIN}"),
    (r"\A[^:]*?([^0-9:\s])", f'"%s" is there, before the colon. {BEGIN}'),
    (r"(\t)", f"a tab is there. {ONE_BLANK}"),
    (r"((?<!:) |[^\S ])", f"a blank is there, or something like one. {ONE_BLANK}"),
    (r"\A:", f"there is no number before the colon. {BEGIN}"),
    (r"\A(0)", "the student's number begins with 0. Numbers begin with 1 to 9."),
    (r"\A[0-9]+(:)(?! )", f"the blank after this colon is missing. {BEGIN}"),
]
WISH_FAULTS = [
    (r"\A\Z", "there is nothing after the colon. At least - must stand there, for none."),
    (r"([^0-9,{}-])", '"%s" is there. After the colon there are only numbers, commas, braces and the plain dash -.'),
    (r"\{[^}]*?(\{)", "a brace is opened inside braces."),
    (r"(\{)[^}]*\Z", "this brace is opened and not closed."),
    (r"(?:\A|\})[^{}]*(\})", "this brace is closed and was not opened."),
    (r"(\{)\}", "there is nothing in these braces."),
    (r"(?:\A|(?<=[,{]))(,)|(,)(?=\}|\Z)", "there is nothing before this comma, or nothing after it."),
    (r"-[^-]*(-)", "this is the second dash. None, which is -, stands in a line exactly once."),
    (r"(?<=[^,{])(\{)|(?<=\})([^,])|(?<=[0-9])(-)|(?<=-)([0-9])", 'a comma is missing before "%s".'),
    (r"(?<![0-9])(0[0-9]*)", 'the number "%s" begins with 0. Numbers begin with 1 to 9.'),
    (r"(\{)[^,}]*\}", "these braces are around one item. Write it without them."),
    (r"\A[^-]*\Z", "none is missing: - stands in a line exactly once."),
]


def explain_lines(year, file, text, refused):
    """Which line was refused, and what is wrong with it. The engine has decided that; here it is only looked for, and where nothing is found its own words
    stand."""
    if refused.number not in (lgs.Cause.WISH_FORM, lgs.Cause.WISH_NAMES):
        return explain_refusal(year, refused)
    number, (line, *rest) = refused.place + 1, text.split(b"\n", refused.place + 1)[refused.place:] or [b""]
    if refused.number == lgs.Cause.WISH_NAMES:
        faults = wrong_names(year, number, line.decode("utf-8", "replace"))
    elif number > len(year.students):
        faults = [("", f"there is more than a line for each of the {len(year.students)} students in {STUDENTS}. "
                       + ("Delete what is left over." if (line + b"".join(rest)).strip() else "Delete the empty line."))]
    else:
        faults = wrong_form(year, file, number, line, rest)
    whose = f" ({year.student(number)})" if number <= len(year.students) else ""
    return "\n".join([f"{file}, line {number}{whose}{at}: {fault}" for at, fault in faults or [("", refused.text)]]
                     + ["Nothing was written. Correct this and type the command again."])


def wrong_form(year, file, number, line, rest):
    """Where a line departs from the form, and how. `rest` is what follows its line feed, if there is one."""
    if number == 1 and any(re.match(form, line, re.DOTALL) for form, _ in NO_TEXT):
        return [("", "this is no plain text. Save the lines as plain text in UTF-8, and not as a document or in UTF-16.")]
    if not line and not rest:
        return [("", f"this line is missing. The file has {number - 1} lines, and {STUDENTS} has {len(year.students)} students.")]
    has_mark, has_return = number == 1 and line.startswith(codecs.BOM_UTF8), bool(rest) and line.endswith(b"\r")
    line = line[3 * has_mark:len(line) - has_return].decode("utf-8", "replace")
    head, _, wishes = line.partition(": ")
    return (first_fault(LINE_FAULTS, line) or saved_otherwise(file, has_mark, has_return) or wrong_student(year, number, head)
            or first_fault(WISH_FAULTS, wishes, len(head) + 2)
            or ([] if rest else [("", "the line feed at its end is missing. Press Enter at the end of the last line, and save.")]))


def saved_otherwise(file, has_mark, has_return):
    """What editors add that is no part of lines, and a command that takes it away."""
    repair = f"or type\n  sed -i 's/^\\xef\\xbb\\xbf//; s/\\r$//' {shlex.quote(file)}"
    if has_mark:
        return [("", f'the file begins with a byte order mark. Save it as "UTF-8", not as "UTF-8 with BOM", {repair}')]
    if has_return:
        return [("", f'it ends with CR LF, as editors on Windows save it. Save the file with the line ends LF ("Unix"), {repair}')]
    return []


def first_fault(faults, text, before=0):
    """The first one that is in this text, which stands after so many signs of the line."""
    for pattern, fault in faults:
        found = re.search(pattern, text)
        if found and found.lastindex:
            sign = found[found.lastindex]
            return [(f", sign {before + found.start(found.lastindex) + 1}", fault.replace("%s", short(sign)))]
        if found:
            return [("", fault)]
    return []


def short(text):
    """What is shown of something that may be long, or cannot be shown."""
    return "".join(sign if sign.isprintable() else f"(U+{ord(sign):04X})" for sign in text[:20]) + ".." * (len(text) > 20)


def wrong_student(year, number, head):
    if head == str(number):
        return []
    name = next((name for name, other in year.names[STUDENTS].items() if head == str(other)), "")
    whose = f"it is the line of student {head} ({name})" if name else f"it begins with {short(head)}, which is no student's number"
    return [("", f"{whose}. Here the line of student {number} must stand: there is one for each student, from 1 up.")]


def wrong_names(year, number, line):
    """Which workshops are named wrongly, and which are missing."""
    named, name_of = collections.Counter(re.findall("[0-9]+", line.partition(":")[2])), {str(n): name for name, n in year.names[WORKSHOPS].items()}
    hers, faults = {w for s, w in year.pair_of if s == year.student(number)}, []
    for item, count in named.items():
        if item not in name_of:
            faults.append(f"there is no workshop {short(item)}. {WORKSHOPS} has {len(name_of)}.")
        elif name_of[item] not in hers:
            faults.append(f"workshop {item} ({name_of[item]}) is named, and {PAIRS} has no row with the two.")
        elif count > 1:
            faults.append(f"workshop {item} ({name_of[item]}) is named {'twice' if count == 2 else f'{count} times'}.")
    faults += [f"workshop {item} ({name}) is missing." for item, name in name_of.items() if name in hers and item not in named]
    return [("", fault) for fault in faults[:5]] + ([("", f"and {len(faults) - 5} more such faults.")] if len(faults) > 5 else [])


# ---------------------------------------------------------------- why a student is not at a workshop


@dataclass
class Side:
    """A pair as one of the two sees it: its group, its line group, and its mark if they have met."""
    group: int
    line: int
    mark: object = None

    def is_beyond(self):
        """It would rather have none."""
        return self.group > self.line or (self.group == self.line and self.mark is not None and self.mark < 0)

    def is_above(self, other):
        """This one is better than another: in a better group, or in the same one with a higher mark, where both are known."""
        return self.group < other.group or (self.group == other.group and None not in (self.mark, other.mark) and self.mark > other.mark)


def side(year, student, workshop, who):
    """How this pair looks from the student or the workshop."""
    file, name = (STUDENTS, student) if who == "student" else (WORKSHOPS, workshop)
    rows = year.students if file == STUDENTS else year.workshops
    visit = year.visit_of.get((student, workshop))
    return Side(year.pair_of[student, workshop].cells[f"group from {who}"], rows[year.names[file][name] - 1].cells["line group"],
                visit and visit.cells[f"mark from {who}"])


def find_name(year, file, typed):
    """The name that was typed. Small letters for capitals, and letters without their accents, will do where only one name is meant; quotation marks,
    which the terminal takes away, need not be there."""
    names, name = year.names[file], clean(typed)
    for read in (str, str.lower, in_short):
        alike = [other for other in names if read(other) == read(name)]
        if len(alike) > 1:
            raise Stop(f'"{name}" may be {" or ".join(alike)}. Type the name as it stands in {file}.')
        if alike:
            return alike[0]
    part_of = [other for other in names if in_short(name) in in_short(other)]
    others = [other for other in COLUMNS if other != file and name in year.names.get(other, ())]
    raise Stop(f'There is no "{name}" in {file}.' + (" Type the student first, and then the workshop." if others
               else f' Did you mean "{part_of[0]}"?' if len(part_of) == 1 else hint(name, names, Problems())))


def in_short(name):
    """A name as somebody may type it: small letters, without accents and quotation marks."""
    return clean(plain_letters(name).lower().replace('"', ""))


def reasons(year, answer, student, workshop):
    """Why the student is not at the workshop: each reason that holds, in a sentence, the first one to be told."""
    if (student, workshop) not in year.pair_of:
        yield f"{student} and {workshop} have no row in {PAIRS}, so they cannot be placed together."
        return
    hers, its = side(year, student, workshop, "student"), side(year, student, workshop, "workshop")
    never = [name for name, one in ((student, hers), (workshop, its)) if one.mark == NEVER]
    if never:
        yield f"Their visit ended in never: {' and '.join(never)} said that they cannot be placed together."
        return
    place = 0 if isinstance(answer, lgs.NextVisit) else answer.places[year.names[STUDENTS][student] - 1]
    if place:
        yield from likes_better(year, student, workshop, year.workshop(place), hers)
    if hers.is_beyond():
        yield beyond(student, workshop, hers, "she would rather have no place")
    if its.is_beyond():
        yield beyond(workshop, student, its, "it would rather leave a seat empty")
    if not year.workshops[year.names[WORKSHOPS][workshop] - 1].cells["quota"]:
        yield f"{workshop} takes nobody: its quota is 0."
    elif isinstance(answer, lgs.Placement):
        yield from is_full(year, answer, student, workshop, its)


def beyond(one, other, its, rather):
    if its.group > its.line:
        return f"{one} puts {other} in group {its.group}, beyond the line group {its.line}: {rather}."
    return f"{one} puts {other} in the line group {its.line} and gave the mark {its.mark}, below 0: {rather}."


def likes_better(year, student, workshop, other, hers):
    better = side(year, student, other, "student")
    if better.is_above(hers) and better.group < hers.group:
        yield f"{student} has {other}, which she likes better: it is in her group {better.group}, and {workshop} in her group {hers.group}."
    elif better.is_above(hers):
        yield (f"{student} has {other}, which she likes better: both are in her group {hers.group}, "
               f"and she gave {other} the mark {better.mark} and {workshop} the mark {hers.mark}.")


def is_full(year, answer, student, workshop, its):
    """The workshop has no free seat, and the lowest of those who are there stands above her."""
    number = year.names[WORKSHOPS][workshop]
    there = [year.student(s) for s, w in enumerate(answer.places, 1) if w == number]
    if len(there) < year.workshops[number - 1].cells["quota"]:
        return
    lot = {row.cells["student"]: row.cells["lot"] for row in year.students}
    seen = {name: side(year, name, workshop, "workshop") for name in there}
    lowest = max(there, key=lambda name: (seen[name].group, -seen[name].mark, lot[name]))
    above, full = seen[lowest], f"{workshop} is full ({len(there)} of {len(there)}), and the lowest there, {lowest}, stands above {student}"
    if above.group < its.group:
        yield f"{full} by group: {above.group} before {its.group}."
    elif above.is_above(its):
        yield f"{full} by mark: both are in its group {its.group}, and it gave {lowest} the mark {above.mark} and {student} the mark {its.mark}."
    elif above.group == its.group and above.mark == its.mark and lot[lowest] < lot[student]:
        yield (f"{full} by lot: both are in its group {its.group} with the mark {its.mark}, "
               f"and the lot {lot[lowest]} of {lowest} is lower than the lot {lot[student]} of {student}.")


# ---------------------------------------------------------------- drawing lots


def draw_lots(count, used=()):
    """So many different lots, none of them used, each choice as likely as any other. All numbers take part, not only the lowest: so a student
    who draws later has the same chances as the others."""
    left = [lot for lot in range(LOT.low, LOT.high + 1) if lot not in used]
    return secrets.SystemRandom().sample(left, count)


def read_lots(tables):
    """The students' rows, each with her lot, None where there is none. Of students.csv only the names and the lots are needed."""
    problems = Problems()
    rows = read_rows(STUDENTS, tables, problems, may_miss=("stage", "line group", "lot"))
    check_people(STUDENTS, rows, problems)
    for row in rows:
        if row.cells.setdefault("lot", ""):
            check_number(STUDENTS, row, LOT, problems)
        else:
            row.cells["lot"] = None
    check_lots(rows, problems)
    problems.stop_if_any()
    return rows


# ---------------------------------------------------------------- the commands


def example_rows(file):
    """The example's rows in the order of the columns; each student has a lot that is drawn."""
    rows = EXAMPLE[file]
    return [(*row, lot) for row, lot in zip(rows, draw_lots(len(rows)))] if file == STUDENTS else rows


def table_bytes(rows, comma):
    """The bytes of a table, as spreadsheets read it."""
    text = io.StringIO()
    csv.writer(text, delimiter=comma).writerows(rows)
    return text.getvalue().encode("utf-8-sig")


def check_none_there():
    there = [file for file in COLUMNS if os.path.lexists(file)]
    if there:
        raise Stop(f"{' and '.join(there)} {'is' if len(there) == 1 else 'are'} in this folder already. Nothing was written.")


@one_at_a_time("new")
def new(semicolon):
    """Writes the four files with the example, where none of them is."""
    check_none_there()
    contents = {file: table_bytes([[column.heading for column in COLUMNS[file]], *example_rows(file)], ";" if semicolon else ",") for file in EXAMPLE}
    write_files(contents, check_none_there)
    return [f"Wrote {', '.join(contents)}. The lots are drawn at random.", "Put your own year in them with a spreadsheet, or try the example: python3 desk.py"]


def answer(list_visits, out):
    """Checks the four files, asks the engine, and tells its answer; as tables, too, in the folder `out`, if one is named."""
    if out is None:
        return find_and_tell(list_visits)
    with folder_for(out), one_at_a_time("--csv", os.path.join(out, PLACEMENT_TABLE)):
        return find_and_tell(list_visits, out)


@contextlib.contextmanager
def folder_for(path):
    """The folder, which is made if there is none. If nothing is written it goes again."""
    made = not os.path.isdir(path)
    if made and os.path.lexists(path):
        raise Stop(f"{path} is no folder. Nothing was written.")
    try:
        os.makedirs(path, exist_ok=True)
    except OSError as e:
        raise Stop(f"There is no folder {path}, and it cannot be made: {e.strerror}. Nothing was written.")
    try:
        yield
    finally:
        if made:
            with contextlib.suppress(OSError):    # there is something in it
                os.rmdir(path)


def find_and_tell(list_visits, out=None):
    year = read_year(read_tables(COLUMNS))
    found = find_answer(year)
    lines = tell_answer(year, found) + (tell_visits(year, found) if list_visits else []) + tell_stages(year) + tell_unfinished(year)
    if out is None:
        return lines
    contents = {os.path.join(out, name): table_bytes([OUT[name], *rows], year.comma) for name, rows in out_rows(year, found).items()}
    for path in contents:
        check_free(path)
    write_files(contents, lambda: [check_ours(path) for path in contents])
    return lines + ["", f"Wrote {' and '.join(contents)}."]


def out_rows(year, answer):
    """The rows of next.csv and placement.csv: one of the two has only its headings."""
    rows = {NEXT_TABLE: [], PLACEMENT_TABLE: []}
    if isinstance(answer, lgs.NextVisit):
        rows[NEXT_TABLE] = [(year.student(answer.student), year.workshop(answer.workshop), "", "")]
        return rows
    for number, place in enumerate(answer.places, 1):
        couple = (year.student(number), year.workshop(place) if place else "")
        groups = [year.pair_of[couple].cells[heading] if place else "" for heading in OUT[PLACEMENT_TABLE][2:]]
        rows[PLACEMENT_TABLE].append((*couple, *groups))
    return rows


def check_ours(path):
    """A file of this name that desk.py did not write stays, and so does one in which marks were written, and one that is elsewhere."""
    name, rows = os.path.basename(path), []
    try:
        rows = [[clean(cell) for cell in row] for row in split_rows(text_of(path, read_file(path).data))]
    except Missing:
        return
    except (Stop, csv.Error):
        pass
    if os.path.islink(path) or not rows or [cell.lower() for cell in rows[0]] != OUT[name] or (name == NEXT_TABLE and len(rows) > 2):
        raise Stop(f"{path} is there already, and is no table that desk.py wrote. Nothing was written. Name another folder.")
    if name == NEXT_TABLE and any(cell for row in rows[1:] for cell in row[2:]):
        raise Stop(f"Marks were written in {path}. Nothing was written. Copy that row to {VISITS}, delete {path}, and type the command again.")


def why(typed_student, typed_workshop):
    """Why the student is not at the workshop, in one or two sentences."""
    year = read_year(read_tables(COLUMNS))
    student, workshop = find_name(year, STUDENTS, typed_student), find_name(year, WORKSHOPS, typed_workshop)
    found = find_answer(year)
    finished = isinstance(found, lgs.Placement)
    if finished and found.places[year.names[STUDENTS][student] - 1] == year.names[WORKSHOPS][workshop]:
        return [f"{student} is placed at {workshop}."]
    reason = next(reasons(year, found, student, workshop), None)
    if reason is None and finished:
        raise Stop(f"desk.py found no reason why {student} is not at {workshop}. That should not be: please tell those who made desk.py, with the four tables.")
    if reason is None:
        couple = year.student(found.student), year.workshop(found.workshop)
        reason = ("It is not decided yet: " + ("this visit is the next one to be held." if couple == (student, workshop)
                                               else f"the next visit is {couple[0]} at {couple[1]}."))
    return [f"{student} is not placed at {workshop}.", reason] if finished else [reason]


@one_at_a_time("lots")
def fill_in_lots():
    """Draws a lot for each student who has none, writes the lots in students.csv, and tells all of them. A lot that is there stays."""
    tables = read_tables([STUDENTS])
    rows = read_lots(tables)
    without = [row.at for row in rows if row.cells["lot"] is None]
    drawn = dict(zip(without, draw_lots(len(without), {row.cells["lot"] for row in rows})))
    lines = tell_lots(rows, drawn) + [""]
    if not drawn:
        return lines + [f"Every student in {STUDENTS} has a lot. Nothing was written."]
    changes = {STUDENTS: ("lot", drawn)}
    write_cells(tables, changes)
    return lines + tell_written(tables, changes, "lots") + ["Keep this list: lots are drawn once for a year."]


@one_at_a_time("stages")
def work_out_stages():
    """Checks students, workshops and pairs, asks the engine for the stages, writes them in students.csv, and tells them."""
    tables = read_tables([STUDENTS, WORKSHOPS, PAIRS])
    year = read_year(tables, for_stages=True)
    before = [row.cells["stage"] for row in year.students]
    for row in year.students:
        row.cells["stage"] = row.cells["stage"] or 1    # any will do: only its range is checked
    stages = ask(year, lgs.stages, case_bytes(year))
    changed = {row.at: new for row, old, new in zip(year.students, before, stages) if old != new}
    lines = tell_worked_out(year, stages, before) + [""]
    if not changed:
        return lines + [f"{STUDENTS} has these stages already. Nothing was written."]
    changes = {STUDENTS: ("stage", changed)}
    write_cells({STUDENTS: tables[STUDENTS]}, changes)
    return lines + tell_written(tables, changes, "stages")


@one_at_a_time("wishes")
def read_wish_lines(file):
    """Reads wish lines, writes the students' line groups in students.csv and their groups in pairs.csv, and tells whose wishes changed."""
    files = read_tables([STUDENTS, WORKSHOPS, PAIRS, file])
    year, text = read_wishes(files, needed=False), files[file]
    before = wishes_of(year)
    case = wish_case(year, [1] * len(before))    # any will do
    after = wishes_in(ask(year, lgs.read_wishes, case, text, explain=lambda year, refused: explain_lines(year, file, text, refused)))
    changes = {}
    for (table, row), old, new in zip(wish_rows(year), before, after):
        if old != new:
            changes.setdefault(table, (WISHES[table].heading, {}))[1][row.at] = new
    changed = changed_wishes(year, before, after)
    lines = tell_wishes(year, file, changed)
    if not changes:
        return lines + [f"{STUDENTS} and {PAIRS} have these wishes already. Nothing was written."]
    write_cells(files, changes)
    return lines + [""] + tell_written(files, changes, "wishes") + tell_marks(changed)


def wishes(names, new_file):
    """Reads wish lines from the file that is named, or writes them in a new one."""
    file = os.path.expanduser(names[0] if new_file is None else new_file)
    if os.path.basename(file) in COLUMNS:
        raise Stop(f"{file} has the name of a table. Nothing was written. Name a file for wish lines, for instance wishes.txt.")
    return read_wish_lines(file) if new_file is None else write_wish_lines(file)


def write_wish_lines(file):
    """Writes the wishes of the tables as lines in a new file, and tells who has which number in them."""
    folder = os.path.dirname(os.path.abspath(file))
    if not os.path.isdir(folder):
        raise Stop(f"There is no folder {folder}. Nothing was written.")
    with one_at_a_time("wishes --write", file):
        year = read_wishes(read_tables([STUDENTS, WORKSHOPS, PAIRS]), needed=True)
        text = ask(year, lgs.write_wishes, wish_case(year, wishes_of(year)))
        if has_bytes(file, text):
            return [f"{file} has these lines already. Nothing was written.", ""] + tell_numbers(year)
        check_not_there(file)
        write_files({file: text}, lambda: check_not_there(file))
    return [f"Wrote {file}: the wishes of {len(year.students)} students, a line for each.", ""] + tell_numbers(year)


def has_bytes(file, data):
    try:
        return read_file(file).data == data
    except Stop:
        return False


def check_not_there(file):
    if os.path.lexists(file):
        raise Stop(f"{file} is there already. Nothing was written. Delete it, or name another file.")


def tell(lines):
    """Prints the answer. A full disk, where it goes to a file, is told; whoever reads no further has seen enough."""
    try:
        print("\n".join(lines), flush=True)
    except OSError as e:
        os.dup2(os.open(os.devnull, os.O_WRONLY), sys.stdout.fileno())
        if not isinstance(e, BrokenPipeError):
            raise Stop(f"The answer could not be written: {e.strerror}." + (" The files were written." if LOCK.wrote else ""))


LETTERS = dict(zip("ßæøłđðþœıÆØŁĐÐÞŒ", "ss ae o l d d th oe i AE O L D D Th OE".split()))    # those that are no letter with an accent


def plain_letters(text):
    """Letters without their accents."""
    return "".join(LETTERS.get(letter) or unicodedata.normalize("NFKD", letter)[0] for letter in text)


def shown(error):
    """What is shown for a letter that the terminal does not know: the letter without its accent, else its number."""
    letter = error.object[error.start]
    plain = plain_letters(letter)
    return plain if plain.isascii() else f"(U+{ord(letter):04X})", error.start + 1


def read_command():
    parser = argparse.ArgumentParser(description=__doc__, formatter_class=argparse.RawDescriptionHelpFormatter)
    parser.add_argument("command", nargs="?", default="next", choices=["next", "new", "lots", "stages", "why", "wishes"],
                        help="next, the same as none, or new, lots, stages, why, wishes")
    parser.add_argument("names", nargs="*", metavar="NAME", help="why: the student, and the workshop; wishes: the file with the lines")
    parser.add_argument("--csv", metavar="DIR", help="next: write the answer as tables in this folder, too")
    parser.add_argument("--visits", action="store_true", help="next: list the visits held, too")
    parser.add_argument("--write", metavar="FILE", help="wishes: write them as lines in this new file")
    parser.add_argument("--semicolon", action="store_true", help="new: semicolons between the cells, not commas")
    options = parser.parse_args()
    takes = {"why": (2, 'two names: desk.py why "Anna Berg" "Dye house"'),
             "wishes": (1 if options.write is None else 0, "one file: desk.py wishes wishes.txt, or desk.py wishes --write wishes.txt")}
    count, what = takes.get(options.command, (0, "no names"))
    if len(options.names) != count or (options.command == "wishes" and "" in (*options.names, options.write)):
        parser.error(f"{options.command} takes {what}")
    for name, given, command in (("--csv", options.csv is not None, "next"), ("--visits", options.visits, "next"), ("--semicolon", options.semicolon, "new"),
                                 ("--write", options.write is not None, "wishes")):
        if given and options.command != command:
            parser.error(f"{options.command} takes no {name}")
    return options


def main():
    codecs.register_error("desk", shown)
    for stream in filter(None, (sys.stdout, sys.stderr)):    # one that is closed is None
        stream.reconfigure(errors="desk")
    options = read_command()
    for number in ENDS:    # so that what is to be removed is removed
        if signal.getsignal(number) == signal.SIG_DFL:
            signal.signal(number, lambda number, _: sys.exit(128 + number))
    commands = {"new": lambda: new(options.semicolon), "lots": fill_in_lots, "stages": work_out_stages, "why": lambda: why(*options.names),
                "wishes": lambda: wishes(options.names, options.write),
                "next": lambda: answer(options.visits, options.csv and os.path.expanduser(options.csv))}
    try:
        tell(commands[options.command]())
    except Stop as stop:
        with contextlib.suppress(BrokenPipeError):
            print(stop, file=sys.stderr, flush=True)
        return 1
    return 0


if __name__ == "__main__":
    sys.exit(main())
