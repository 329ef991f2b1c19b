"""desk/lgs.py, the binding for Python: its answers and refusals, what it takes, that it agrees with the header, and how it finds its library.
Last line 'N passed, M failed'.

    python3 from_python.py LGS.PY LIBLGS.SO FACTS BARE.SO

FACTS has what header_facts.c prints. BARE.SO is a library of the same name and version, without functions.
"""
import array
import ast
import concurrent.futures
import contextlib
import copy
import ctypes
import io
import os
import pickle
import random
import re
import shutil
import subprocess
import sys
import tempfile
import textwrap
import threading
import traceback

BINDING, LIBRARY, FACTS, BARE = [os.path.abspath(name) for name in sys.argv[1:]]
os.environ["LGS_LIBRARY"] = LIBRARY
sys.dont_write_bytecode = True
sys.path.insert(0, os.path.dirname(BINDING))
import lgs    # noqa: E402

tally = {"passed": 0, "failed": 0}


def check(name, good, detail=""):
    tally["passed" if good else "failed"] += 1
    if not good:
        print(f"FAILED {name} {detail}")


def equal(name, found, expected):
    check(name, found == expected, f"is {found!r:.300}, not {expected!r:.300}")


def raised(kind, function, *arguments):
    """The exception of this kind that the call ends with, or None."""
    try:
        function(*arguments)
    except kind as error:
        return error
    return None


def refuses(name, number, at, function, *arguments):
    error = raised(lgs.Refused, function, *arguments)
    equal(name, error and (error.number, error.place), (number, at))


# ---------------------------------------------------------------- cases and books


def example_k(lots=(1, 2, 3), fares=(0,) * 6):
    """Example K with these lots and fares."""
    pairs = [(1, 1, 1, 1), (1, 2, 1, 1), (2, 1, 1, 2), (2, 2, 1, 2), (3, 1, 1, 2), (3, 2, 2, 2)]
    return lgs.pack_case([(1, 2, lots[0]), (2, 2, lots[1]), (2, 2, lots[2])], [(1, 3), (1, 3)],
                         [(*pair, fare) for pair, fare in zip(pairs, fares)])


def full_case(group, wish=lambda w: w, fare=0):
    """512 students, lots downward, 64 workshops and all pairs with this fare; the workshops' groups are given by a function of student and
    workshop, the students' by one of the workshop."""
    return lgs.pack_case([(1, 65, 513 - s) for s in range(1, 513)], [(512, 513)] * 64,
                         [(s, w, wish(w), group(s, w), fare) for s, w in ALL_PAIRS])


def changed(data, at, value):
    """These bytes with another one at this place."""
    return data[:at] + bytes([value]) + data[at + 1:]


ALL_PAIRS = [(s, w) for s in range(1, 513) for w in range(1, 65)]
K = example_k()
K_VISITS = [(1, 1, 5, 3), (1, 2, 2, 4), (2, 2, -1, 1), (3, 2, 4, 6)]
K_LIST = [(1, 1), (1, 2), (2, 2), (3, 2)]
K_BOOK = lgs.pack_book(K_VISITS)
# Fares of K's pairs, and the totals after 0 to 4 visits: of the first, second, fourth and last pair.
FARES = [((0,) * 6, (0,) * 5), ((1, 2, 4, 8, 16, 32), (0, 1, 3, 11, 43)), ((65535,) * 6, (0, 65535, 131070, 196605, 262140)),
         ((256, 0, 65535, 255, 65535, 1), (0, 256, 256, 511, 512))]
TURNED_PAIRS = [(1, 1, 1, 1, 5), (1, 2, 1, 2, 65535), (2, 1, 1, 2, 0), (2, 2, 1, 1, 256)]
TURNED = lgs.pack_case([(1, 1, 1), (1, 1, 2)], [(1, 2), (1, 2)], TURNED_PAIRS)

K_WISHES = b"1: {1,2},-\n2: {1,2},-\n3: 1,{-,2}\n"
# Cases that every function refuses: what, the bytes, the number and the place.
WRONG_CASES = [
    ("a byte short", K[:-1], 1, 0),
    ("a byte too many", K + b"\0", 1, 0),
    ("a byte that should be zero", changed(K, 16 * 4 + 15, 1), 2, 4),
    ("kind 4", changed(K, 16 * 10, 4), 2, 10),
    ("without student 1", K[16:], 3, 0),
    ("a number out of sequence", changed(K, 16 * 2 + 2, 4), 3, 2),
    ("pairs that fall", lgs.pack_case([(1, 1, 1)], [(1, 1)] * 2, [(1, 2, 1, 1), (1, 1, 1, 1)]), 3, 4),
    ("a pair that names nobody", lgs.pack_case([(1, 1, 1)], [(1, 1)], [(1, 2, 1, 1)]), 3, 2),
    ("nothing", b"", 4, 0),
    ("no student", lgs.pack_case([], [(1, 1)], []), 4, 0),
    ("no workshop", lgs.pack_case([(1, 1, 1)], [], []), 4, 0),
    ("513 students", lgs.pack_case([(1, 1, 1)] * 513, [(1, 1)], []), 4, 0),
    ("65 workshops", lgs.pack_case([(1, 1, 1)], [(1, 1)] * 65, []), 4, 0),
    ("stage 0", lgs.pack_case([(1, 1, 1), (0, 1, 2)], [(1, 1)], []), 5, 1),
    ("quota 513", lgs.pack_case([(1, 1, 1)], [(1, 1), (513, 1)], []), 5, 2),
    ("a student's group 66", lgs.pack_case([(1, 1, 1)], [(1, 1)], [(1, 1, 66, 1)]), 5, 2),
    ("a workshop's group 514", lgs.pack_case([(1, 1, 1)], [(1, 1)], [(1, 1, 1, 514)]), 5, 2),
    ("lot 0", example_k((0, 2, 3)), 13, 0),
    ("lot 513", example_k((1, 513, 3)), 13, 1),
    ("a lot twice", example_k((1, 2, 1)), 13, 2),
    ("a lot twice before lot 0", example_k((4, 4, 0)), 13, 1),
]
# Visits that are no book for K: what, the visits, the number and the place.
WRONG_BOOKS = [
    ("no pair", [*K_VISITS[:3], (4, 2, 4, 6)], 8, 3),
    ("workshop 0", [(1, 0, 4, 6)], 8, 0),
    ("a student's mark 0", [K_VISITS[0], (1, 2, 0, 4)], 9, 1),
    ("a workshop's mark 1001", [(1, 1, 5, 1001)], 9, 0),
    ("a student's mark -1001", [*K_VISITS[:2], (2, 2, -1001, 1)], 9, 2),
    ("a pair twice", [*K_VISITS, (1, 2, 9, 9)], 10, 4),
    ("equal marks of a student", [(1, 1, 5, 3), (1, 2, 5, 4)], 11, 1),
]


# The case of the paper's line, with gaps between the groups, and what reading that line makes of it.
PAPER = lgs.pack_case([(1, 65, 9), (512, 64, 8), (7, 30, 512)], [(0, 1)] * 5,
                      [(1, 3, 2, 513, 65535), (3, 1, 20, 1), (3, 2, 7, 9), (3, 4, 20, 9, 256), (3, 5, 65, 1)])
PAPER_COPY = lgs.pack_case([(1, 2, 9), (512, 1, 8), (7, 3, 512)], [(0, 1)] * 5,
                           [(1, 3, 1, 513, 65535), (3, 1, 2, 1), (3, 2, 1, 9), (3, 4, 2, 9, 256), (3, 5, 4, 1)])
PAPER_REST = b"2: -\n3: 2,{4,1},-,5\n"
PAPER_LINES = b"1: 3,-\n" + PAPER_REST
# Texts that are no wishes for that case: what, the text, the number and the place.
WRONG_WISHES = [
    ("nothing", b"", 14, 0),
    ("a line missing", b"1: 3,-\n2: -\n", 14, 2),
    ("the last line feed missing", PAPER_LINES[:-1], 14, 2),
    ("a line left over", PAPER_LINES + b"4: -\n", 14, 3),
    ("an empty line left over", PAPER_LINES + b"\n", 14, 3),
    ("a zero byte left over", PAPER_LINES + b"\0", 14, 3),
    ("lines of Windows", PAPER_LINES.replace(b"\n", b"\r\n"), 14, 0),
    ("UTF-16", PAPER_LINES.decode().encode("utf-16-le"), 14, 0),
    ("a mark of byte order", b"\xef\xbb\xbf" + PAPER_LINES, 14, 0),
    ("another student", b"1: 3,-\n3: -\n", 14, 1),
    ("a zero before", b"1: 03,-\n" + PAPER_REST, 14, 0),
    ("a blank", b"1: 3, -\n" + PAPER_REST, 14, 0),
    ("one in braces", b"1: {3},-\n" + PAPER_REST, 14, 0),
    ("empty braces", b"1: 3,{},-\n" + PAPER_REST, 14, 0),
    ("none nowhere", b"1: 3\n" + PAPER_REST, 14, 0),
    ("none twice", b"1: {-,3},-\n" + PAPER_REST, 14, 0),
    ("a workshop twice", b"1: {3,3},-\n" + PAPER_REST, 15, 0),
    ("a workshop missing", PAPER_LINES.replace(b",5", b""), 15, 2),
    ("a workshop without a pair", b"1: 3,-\n2: 1,-\n", 15, 1),
    ("a large number", b"1: 18446744073709551619,-\n" + PAPER_REST, 15, 0),
    ("14 and 15 in one line", b"1: 2,3,-,-\n" + PAPER_REST, 14, 0),
    ("15 before a line with 14", b"1: 2,-\n2: \n", 15, 0),
    ("14 before a line with 15", b"1: 3,-,\n2: 1,-\n", 14, 0),
]


# ---------------------------------------------------------------- answers


def test_k():
    for fares, totals in FARES:
        case = example_k(fares=fares)
        for held, total in enumerate(totals):
            answer = lgs.place(case, lgs.pack_book(K_VISITS[:held]))
            expected = lgs.Placement([1, 0, 2], K_LIST, total) if held == 4 else lgs.NextVisit(*K_LIST[held], K_LIST[:held], total)
            equal(f"K with fares {fares}, {held} visits", answer, expected)
            equal(f"K with fares {fares}, {held} visits: which answer", type(answer), type(expected))
        equal(f"K's stages with fares {fares}", lgs.stages(case), [1, 2, 2])
        equal(f"K's wishes with fares {fares}", (lgs.write_wishes(case), lgs.read_wishes(case, K_WISHES)), (K_WISHES, case))
    equal("K with its visits in another order", lgs.place(K, lgs.pack_book(K_VISITS[::-1])), lgs.place(K, K_BOOK))
    equal("K without a book", lgs.place(K), lgs.NextVisit(1, 1, [], 0))
    equal("the names of what is taken", lgs.place(case=K, book=K_BOOK), lgs.place(K, K_BOOK))
    for lots, places in (((1, 2, 3), [1, 2, 0]), ((1, 500, 499), [1, 0, 2])):
        answer = lgs.place(example_k(lots), lgs.pack_book([*K_VISITS[:3], (3, 2, 4, 1)]))
        equal(f"equal marks of a workshop, lots {lots}", answer, lgs.Placement(places, K_LIST, 0))


def test_large():
    case = full_case(lambda s, w: 1)
    answer = lgs.place(case, lgs.pack_book([(s, 1, 1, s) for s in range(1, 513)]))
    equal("512 x 64", answer, lgs.Placement([1] * 512, [(s, 1) for s in range(1, 513)], 0))
    case, book = full_case(lambda s, w: 1, lambda w: 1, 65535), lgs.pack_book([(s, w, w, 1) for s, w in ALL_PAIRS])
    equal("the largest total", lgs.place(case, book), lgs.Placement([64] * 512, ALL_PAIRS, 2147450880))
    equal("the largest total, one visit before", lgs.place(case, book[:-8]), lgs.NextVisit(512, 64, ALL_PAIRS[:-1], 2147385345))
    refuses("the last visit twice", 10, 32768, lgs.place, case, book + book[-8:])
    refuses("the last record of the largest case", 2, 33343, lgs.place, case[:-1] + b"\1")
    equal("a chain of 512 stages", lgs.stages(full_case(lambda s, w: 513 - s)), list(range(512, 0, -1)))
    refuses("one workshop of 64 turned", 12, 0, lgs.stages, full_case(lambda s, w: (s + 256 * (w == 64)) % 512 + 1))


def test_answers():
    """The fields of the answers, and that they are plain lists, tuples and ints."""
    placement, following, stages = lgs.place(K, K_BOOK), lgs.place(K, K_BOOK[:16]), lgs.stages(K)
    equal("the types of wishes", (type(lgs.write_wishes(K)), type(lgs.read_wishes(K, K_WISHES))), (bytes, bytes))
    equal("the fields of a placement", placement._fields, ("places", "visits", "fares"))
    equal("the fields of a next visit", following._fields, ("student", "workshop", "visits", "fares"))
    equal("the types of lists", {type(found) for found in (placement.places, placement.visits, following.visits, stages)}, {list})
    equal("the types of visits", {type(visit) for visit in placement.visits + following.visits}, {tuple})
    numbers = [*placement.places, *sum(placement.visits, ()), placement.fares, *following[:2], *sum(following.visits, ()), following.fares, *stages]
    equal("the types of numbers", {type(number) for number in numbers}, {int})
    equal("the public names", sorted(lgs.__all__), sorted(name for name, what in vars(lgs).items() if name[0] != "_" and
                                                          (name == "VERSION" or getattr(what, "__module__", "") == "lgs")))
    names = {}
    exec("from lgs import *", names)
    check("the names that an import of all gives", set(lgs.__all__) <= set(names))


def test_threads():
    """Many threads at the same time, from the loading of the library on, get what one alone gets."""
    upward, downward = full_case(lambda s, w: s), full_case(lambda s, w: 513 - s, fare=1)
    books = [lgs.pack_book([(s, 1, 1, s) for s in range(1, held + 1)]) for held in (512, 500)]
    calls = [(lgs.stages, upward), (lgs.stages, downward), (lgs.place, upward, books[0]), (lgs.place, downward, books[0]), (lgs.place, upward, books[1]),
             (lgs.place, K, K_BOOK), (lgs.place, K), (lgs.stages, K), (lgs.stages, TURNED), (lgs.place, K, K_BOOK[:-1]), (lgs.write_wishes, K),
             (lgs.write_wishes, upward), (lgs.read_wishes, K, K_WISHES), (lgs.read_wishes, PAPER, PAPER_LINES), (lgs.read_wishes, PAPER, K_WISHES)]

    def one(number):
        function, *arguments = calls[number % len(calls)]
        try:
            return function(*arguments)
        except lgs.Refused as error:
            return error.args

    def many(first):
        start.wait()
        return [one(number) for number in range(first, first + 100)]

    alone = [one(number) for number in range(len(calls))]
    check("calls that differ", all(answer not in alone[:i] for i, answer in enumerate(alone)))
    start = threading.Barrier(16)
    lgs._library.cache_clear()
    sys.setswitchinterval(1e-6)
    with concurrent.futures.ThreadPoolExecutor(16) as pool:
        together = list(pool.map(many, range(16)))
    sys.setswitchinterval(0.005)
    wrong = sum(answer != alone[(first + i) % len(calls)] for first, answers in enumerate(together) for i, answer in enumerate(answers))
    check("threads at the same time", wrong == 0 and sum(map(len, together)) == 1600, f"{wrong} wrong answers")


# ---------------------------------------------------------------- wish lines

ITEM = "(?:-|[1-9][0-9]*)"
GROUP = f"(?:{ITEM}|{{{ITEM}(?:,{ITEM})+}})"
LINE = re.compile(f"([1-9][0-9]*): ({GROUP}(?:,{GROUP})*)\n")


def test_wishes():
    equal("the lines of groups with gaps", lgs.write_wishes(PAPER), PAPER_LINES.replace(b"4,1", b"1,4"))
    for what, case in [("with gaps", PAPER), ("without gaps", PAPER_COPY)]:
        for text in (PAPER_LINES, lgs.write_wishes(case), lgs.write_wishes(PAPER)):
            equal(f"{text} read, {what}", lgs.read_wishes(case, text), PAPER_COPY)
    equal("the names of what is taken", lgs.read_wishes(case=PAPER, text=PAPER_LINES), lgs.read_wishes(PAPER, lgs.write_wishes(case=PAPER)))
    together, apart = full_case(lambda s, w: s, lambda w: 65), full_case(lambda s, w: s, lambda w: 65 - w, 7)
    items = ",".join(map(str, range(1, 65)))
    equal("512 x 64 in one group", lgs.write_wishes(together), "".join(f"{s}: {{-,{items}}}\n" for s in range(1, 513)).encode())
    falling = "".join(f"{s}: {','.join(map(str, range(64, 0, -1)))},-\n" for s in range(1, 513)).encode()
    equal("512 x 64 in groups of one", (lgs.write_wishes(apart), lgs.read_wishes(apart, falling)), (falling, apart))
    equal("512 x 64 from one group into others", lgs.read_wishes(together, falling), full_case(lambda s, w: s, lambda w: 65 - w))
    refuses("512 x 64, the last line feed missing", 14, 511, lgs.read_wishes, apart, falling[:-1])


def test_format():
    """The table of texts in docs/FORMAT.md, for a case with two students and the one pair of student 1 and workshop 3."""
    with open(os.path.join(os.path.dirname(os.path.abspath(__file__)), "..", "..", "docs", "FORMAT.md"), encoding="utf-8") as file:
        rows = re.findall(r"^\| `(\d: ?[^`]*)` \| (.*?) \|", file.read(), re.MULTILINE)
    case = lgs.pack_case([(1, 1, 1), (1, 1, 2)], [(1, 1)] * 3, [(1, 3, 1, 1)])
    for text, refusal in rows:
        found = read_or_refused(case, text.replace("/", "\n").encode())
        equal(f"{text} in docs/FORMAT.md", "none" if isinstance(found, bytes) else "{} at {}".format(*found), refusal)
    check("there are texts in docs/FORMAT.md", len(rows) > 10, rows)


def random_year(draw):
    """Students, pairs and workshops of a small case; its groups have gaps, and some are equal."""
    students = [(draw.randint(1, 512), draw.randint(1, 65), lot) for lot in draw.sample(range(1, 513), draw.randint(1, 12))]
    workshops, groups = [(1, 1)] * draw.randint(1, 13), [draw.randint(1, 65) for _ in range(4)]
    pairs = [(s, w, draw.choice(groups), draw.randint(1, 513), draw.randint(0, 65535)) for s in range(1, len(students) + 1)
             for w in range(1, len(workshops) + 1) if draw.random() < 0.5]
    return [(stage, draw.choice(groups + [group]), lot) for stage, group, lot in students], workshops, pairs


def lines_of(students, pairs, order):
    """The lines of these wishes; `order` puts the items of a group into the order of writing."""
    lines = ""
    for number, (_, line_group, _) in enumerate(students, 1):
        groups = {line_group: [0]}
        for _, workshop, group, _, _ in (pair for pair in pairs if pair[0] == number):
            groups.setdefault(group, []).append(workshop)
        items = [[str(item) if item else "-" for item in order(groups[group])] for group in sorted(groups)]
        lines += f"{number}: {','.join('{' + ','.join(group) + '}' if group[1:] else group[0] for group in items)}\n"
    return lines


def meaning(students, pairs, text):
    """What the paper says of a text: the refusal and the line, or the students and the pairs with the groups of the lines."""
    at, places = 0, {}
    for number in range(1, len(students) + 1):
        line = LINE.match(text, at)
        groups = [group.strip("{}").split(",") for group in re.findall("{.*?}|[^,]+", line[2])] if line else []
        if not line or int(line[1]) != number or sum(groups, []).count("-") != 1:
            return 14, number - 1
        if sorted(int(item) for item in sum(groups, []) if item != "-") != [pair[1] for pair in pairs if pair[0] == number]:
            return 15, number - 1
        places.update({(number, item): place for place, group in enumerate(groups, 1) for item in group})
        at = line.end()
    if at < len(text):
        return 14, len(students)
    return ([(stage, places[number, "-"], lot) for number, (stage, _, lot) in enumerate(students, 1)],
            [(s, w, places[s, str(w)], group, fare) for s, w, _, group, fare in pairs])


def damaged(draw, text):
    """The text with one to three characters other, more or less."""
    for _ in range(draw.randint(1, 3)):
        at = draw.randrange(len(text))
        text = text[:at] + draw.choice(["", draw.choice("0123456789,:{}- \n\r")]) + text[at + draw.randint(0, 1):]
    return text


def read_or_refused(case, text):
    try:
        return lgs.read_wishes(case, text)
    except lgs.Refused as error:
        return error.args


def test_random_wishes():
    """Cases and texts by chance, against the paper's form as a pattern."""
    draw, wrong, seen = random.Random(6), [], {0: 0, 14: 0, 15: 0}
    for _ in range(400):
        students, workshops, pairs = random_year(draw)
        case, text = lgs.pack_case(students, workshops, pairs), lines_of(students, pairs, sorted)
        mixed = lines_of(students, pairs, lambda items: draw.sample(items, len(items)))
        copy = read_or_refused(case, mixed.encode())
        if not lgs.write_wishes(case) == text.encode() == lgs.write_wishes(copy) or copy != read_or_refused(case, text.encode()):
            wrong.append((students, pairs, lgs.write_wishes(case)))
        for lines in [mixed, *(damaged(draw, mixed) for _ in range(9))]:
            expected, found = meaning(students, pairs, lines), read_or_refused(case, lines.encode())
            refused = expected[0] in (14, 15)
            seen[expected[0] if refused else 0] += 1
            if found != (expected if refused else lgs.pack_case(expected[0], workshops, expected[1])):
                wrong.append((students, pairs, lines, found))
    check("400 cases and 4,000 texts by chance", not wrong, f"{len(wrong)} wrong: {wrong[:1]!r:.600}")
    check("texts that are read, depart and misname", seen[0] > 420 and seen[14] > 1000 and seen[15] > 300, seen)


# ---------------------------------------------------------------- refusals


def test_refusals():
    for what, case, number, at in WRONG_CASES:
        refuses(f"place: {what}", number, at, lgs.place, case, K_BOOK)
        refuses(f"stages: {what}", number, at, lgs.stages, case)
        refuses(f"writing wishes: {what}", number, at, lgs.write_wishes, case)
        for text in (K_WISHES, b""):
            refuses(f"reading wishes {text}: {what}", number, at, lgs.read_wishes, case, text)
    for what, visits, number, at in WRONG_BOOKS:
        refuses(f"a book with {what}", number, at, lgs.place, K, lgs.pack_book(visits))
    for fares, _ in FARES:
        refuses(f"a book a byte short, fares {fares}", 7, 0, lgs.place, example_k(fares=fares), K_BOOK[:-1])
    refuses("two students turned", 12, 0, lgs.stages, TURNED)
    for what, text, number, at in WRONG_WISHES:
        refuses(f"wishes with {what}", number, at, lgs.read_wishes, PAPER, text)
    given = {number for _, _, number, _ in WRONG_CASES + WRONG_BOOKS + WRONG_WISHES} | {7, 12}
    equal("every cause but the short buffer is given above", given, set(lgs.Cause) - {lgs.Cause.SHORT_BUFFER})


def test_exception():
    error = raised(lgs.Refused, lgs.place, K, lgs.pack_book([K_VISITS[0], (1, 2, 0, 4)]))
    check("a refusal is an Exception", isinstance(error, Exception) and not isinstance(error, (OSError, ValueError, TypeError)))
    equal("its number and place", (error.number, error.place, error.args), (9, 1, (9, 1)))
    check("its number is a cause", error.number == lgs.Cause.BOOK_MARK and error.number in set(lgs.Cause))
    equal("its text", error.text, "A mark in the book is 0 or outside -1000 to 1000.")
    equal("its message", str(error), "A mark in the book is 0 or outside -1000 to 1000. (refused 9 at 1)")
    equal("its message with a member of Cause", str(lgs.Refused(lgs.Cause.BOOK_MARK, 1)), str(error))
    equal("what it prints as", repr(error), "Refused(9, 1)")
    for name, other in [("pickled", pickle.loads(pickle.dumps(error))), ("copied", copy.copy(error))]:
        equal(name, (type(other), other.number, other.place, other.text, str(other)), (lgs.Refused, 9, 1, error.text, str(error)))


# ---------------------------------------------------------------- what is taken


def test_bytes():
    """The bytes of each record, one by one, and those of K's files."""
    case = lgs.pack_case([(0x0102, 0x0304, 0x0506)], [(0x0708, 0x090A)], [(0x0B0C, 0x0D0E, 0x0F10, 0x1112, 0x1314)])
    equal("a case", case.hex(), "01000100020104030605000000000000" "0200010008070a090000000000000000" "03000c0b0e0d100f1211141300000000")
    equal("numbers of students and workshops", lgs.pack_case([(1, 1, 1)] * 300, [(1, 1)] * 2, [])[16 * 299:].hex(),
          "01002c01010001000100000000000000" "02000100010001000000000000000000" "02000200010001000000000000000000")
    equal("a book", lgs.pack_book([(0x0102, 0x0304, -2, -1000), (1, 2, 1000, 32767)]).hex(), "02010403feff18fc" "01000200e803ff7f")
    equal("nothing packed", (lgs.pack_case([], [], []), lgs.pack_book([])), (b"", b""))
    check("bytes are what is packed", type(lgs.pack_case([], [], [])) is bytes and type(K_BOOK) is bytes)


def test_rows():
    """Tuples, lists, the named tuples and what is gone through once give the same bytes."""
    students, workshops, pairs = [(1, 2, 1), (2, 2, 2)], [(1, 3), (2, 4)], [(1, 1, 1, 1, 7), (2, 2, 1, 2, 300)]
    case = lgs.pack_case(students, workshops, pairs)
    equal("rows that are lists", lgs.pack_case(*[[list(row) for row in rows] for rows in (students, workshops, pairs)]), case)
    named = [lgs.Student(stage=1, line_group=2, lot=1), lgs.Student(lot=2, stage=2, line_group=2)], [lgs.Workshop(quota=1, line_group=3),
             lgs.Workshop(2, 4)], [lgs.Pair(student=1, workshop=1, group_from_student=1, group_from_workshop=1, fare=7), lgs.Pair(2, 2, 1, 2, 300)]
    equal("rows with names", lgs.pack_case(*named), case)
    equal("rows in tuples and generators", lgs.pack_case(tuple(students), iter(workshops), (pair for pair in pairs)), case)
    equal("the names of what is packed", lgs.pack_case(students=students, workshops=workshops, pairs=pairs), case)
    equal("pairs without a fare", lgs.pack_case([(1, 1, 1)], [(1, 1)], [(1, 1, 1, 1)]), lgs.pack_case([(1, 1, 1)], [(1, 1)], [lgs.Pair(1, 1, 1, 1, 0)]))
    visits = [lgs.Visit(student=s, workshop=w, mark_from_student=a, mark_from_workshop=b) for s, w, a, b in K_VISITS]
    for what, rows in [("with names", visits), ("that are lists", [list(visit) for visit in visits]), ("from a generator", iter(visits))]:
        equal(f"visits {what}", lgs.pack_book(rows), K_BOOK)


def test_room():
    """A row that makes no record is a ValueError that names it."""
    fine = [(1, 1, 1)], [(1, 1)], [(1, 1, 1, 1)]
    for what, at, row in [("student", 0, (1, 1, 65536)), ("student", 0, (-1, 1, 1)), ("workshop", 1, (65536, 1)), ("pair", 2, (1, 1, 1, 1, 65536)),
                          ("pair", 2, (1, 1, -1, 1)), ("student", 0, (1, 1.5, 1)), ("pair", 2, (1, "1", 1, 1))]:
        rows = [list(some) for some in fine]
        rows[at] += [row]
        error = raised(ValueError, lgs.pack_case, *rows)
        check(f"{what} {row}", str(error).startswith(f"{what} 2, {row}: "), error)
    for row in [(65536, 1, 1, 1), (1, 1, 32768, 1), (1, 1, 1, -32769), (1, 1, 1, None)]:
        error = raised(ValueError, lgs.pack_book, [*K_VISITS[:3], row])
        check(f"visit {row}", str(error).startswith(f"visit 4, {row}: "), error)
    for what, rows in [("student", [[(1, 1)], [], []]), ("workshop", [[], [(1, 1, 1)], []]), ("pair", [[], [], [(1, 1, 1)]])]:
        error = raised(ValueError, lgs.pack_case, *rows)
        check(f"a {what} with too few or too many numbers", error is not None and str(error).startswith(f"{what} 1, "), error)


def test_kinds_of_bytes():
    placement, stages, text = lgs.place(K, K_BOOK), lgs.stages(K), b"1: 2,{1,-}\n2: -,2,1\n"
    wished = lgs.read_wishes(TURNED, text)
    for what, make in [("bytearray", bytearray), ("memoryview", memoryview), ("array of bytes", lambda data: array.array("B", data)),
                       ("array of numbers", lambda data: array.array("H", data)), ("ctypes array", lambda data: (ctypes.c_char * len(data))(*data)),
                       ("memoryview of every other byte", lambda data: memoryview(bytes(x for y in data for x in (y, 7)))[::2])]:
        equal(what, (lgs.place(make(K), make(K_BOOK)), lgs.stages(make(K))), (placement, stages))
        equal(f"{what}: wishes", (lgs.write_wishes(make(K)), lgs.read_wishes(make(TURNED), make(text))), (K_WISHES, wished))
    for wrong in (5, "case", None, [1, 2], 1.5):
        check(f"{wrong!r} as a case", raised(TypeError, lgs.place, wrong) is not None and raised(TypeError, lgs.stages, wrong) is not None)
        check(f"{wrong!r} as a book", raised(TypeError, lgs.place, K, wrong) is not None)
        check(f"{wrong!r} as a case with wishes", raised(TypeError, lgs.write_wishes, wrong) and raised(TypeError, lgs.read_wishes, wrong, K_WISHES))
        check(f"{wrong!r} as wishes", raised(TypeError, lgs.read_wishes, K, wrong) is not None)


# ---------------------------------------------------------------- the header


def facts():
    """The facts by their first word: what stands after it on each line."""
    found = {}
    with open(FACTS, encoding="ascii") as file:
        for line in file:
            word, rest = line.rstrip("\n").split(" ", 1)
            found.setdefault(word, []).append(rest)
    return found


def named_numbers(lines):
    return {name: int(number) for name, number in (line.split() for line in lines)}


def test_header():
    header = facts()
    equal("the version", header["version"], [str(lgs.VERSION)])
    equal("the refusals", named_numbers(header["refusal"]), {cause.name: int(cause) for cause in lgs.Cause})
    equal("their order", list(named_numbers(header["refusal"])), [cause.name for cause in lgs.Cause])
    equal("the sentences", header["text"], [f"{number} {lgs.Refused(number, 0).text}" for number in range(21)])
    other = lgs.Refused(0, 0).text
    equal("the numbers that have one", {number for number in range(21) if lgs.Refused(number, 0).text != other}, set(lgs.Cause))
    kinds = named_numbers(header["kind"])
    equal("the kinds", (kinds["NEXT"], kinds["REFUSED"], kinds["PLACED"], kinds["DONE"]), (lgs._NEXT, lgs._REFUSED, 0, 0))
    structs = {"lgs_report": lgs._Report, "lgs_part_report": lgs._PartReport, "lgs_student_state": lgs._StudentState}
    equal("the sizes", header["size"], [f"{name} {ctypes.sizeof(struct)}" for name, struct in structs.items()])
    fields = [(name, struct, field, getattr(struct, field)) for name, struct in structs.items() for field, _ in struct._fields_]
    equal("the fields", header["field"], [f"{name} {field} {at.offset} {at.size}" for name, _, field, at in fields])
    test_lent(header)


def test_lent(header):
    """What the binding lends stands in the order of the header's names, and has the lengths that always suffice."""
    most = named_numbers(header["most"])
    records = len(K) // 16
    lengths = {"const case": len(K), "const book": 16, "visits": 2 * records, "index": records, "places": most["MOST_PLACES"],
               "seats": most["MOST_SEATS"], "states": most["MOST_STATES"], "stages": most["MOST_STAGES"], "text": 8 * 512 + 4 * records,
               "const text": len(K_WISHES), "copy": len(K)}
    sizes = {"uint8_t": 1, "uint16_t": 2, "lgs_student_state": ctypes.sizeof(lgs._StudentState)}
    expected = {}
    for line in header["function"]:
        function, parameters = line.split(" ", 1)
        words = parameters.split(", ")
        pointers = [re.fullmatch(r"(const )?(\w+) \*(\w+?)(?:_bytes)?", word).groups("") for word in words[::2]]
        equal(f"{function}: a length after each pointer", words[1::2], [f"size_t {name}_length" for _, _, name in pointers])
        expected[function] = [(lengths[const + name], sizes[kind]) for const, kind, name in pointers]
    equal("what is lent", lent(), expected)


def lent():
    """The buffers that the binding lends to each function: their lengths, and the bytes of an entry."""
    found, call = {}, lgs._call

    def note(name, report, *buffers):
        found[name] = [(len(buffer), 1 if isinstance(buffer, bytes) else ctypes.sizeof(buffer) // len(buffer)) for buffer in buffers]
        return call(name, report, *buffers)

    lgs._call = note
    try:
        lgs.place(K, K_BOOK[:16]), lgs.stages(K), lgs.write_wishes(K), lgs.read_wishes(K, K_WISHES)
    finally:
        lgs._call = call
    return found


# ---------------------------------------------------------------- the library


ONE_CALL = """
import sys
sys.path.insert(0, sys.argv[1])
import lgs
try:
    print(lgs.stages(lgs.pack_case([(1, 1, 1), (1, 1, 2)], [(1, 2)], [(1, 1, 1, 1), (2, 1, 1, 2)])))
except OSError as error:
    print("OSError:", error)
"""
DONE = "[1, 2]\n"


def called(folder, library=None):
    """What one call prints, in a Python of its own without packages, with lgs.py of this folder and this library in LGS_LIBRARY."""
    words = {name: word for name, word in os.environ.items() if name != "LGS_LIBRARY"}
    if library is not None:
        words["LGS_LIBRARY"] = library
    try:
        run = subprocess.run([sys.executable, "-I", "-S", "-B", "-c", ONE_CALL, folder], env=words, cwd=folder, stdout=subprocess.PIPE,
                             stderr=subprocess.STDOUT, timeout=20)
    except subprocess.TimeoutExpired:
        return "it hangs\n"
    return run.stdout.decode() + (f"status {run.returncode}\n" if run.returncode else "")


def write(path, content):
    with open(path, "wb") as file:
        file.write(content)
    return path


def fails(name, found, *words):
    """What was printed is an OSError with these words."""
    check(name, found.startswith("OSError: ") and found.count("\n") == 1 and all(word in found for word in words), found)


def test_library():
    """An lgs.py without a library beside it, then with one."""
    with tempfile.TemporaryDirectory() as folder:
        folder = os.path.realpath(folder)
        shutil.copy(BINDING, folder)
        equal("the library that LGS_LIBRARY names", called(folder, LIBRARY), DONE)
        test_no_library(folder)
        test_wrong_library(folder)
        test_library_beside(folder)


def test_no_library(folder):
    missing = os.path.join(folder, "missing.so")
    fails("no library beside lgs.py", called(folder), "No such file", os.path.join(folder, "liblgs.so"))
    fails("LGS_LIBRARY names no file", called(folder, missing), "No such file", missing)
    fails("LGS_LIBRARY names a folder", called(folder, folder), f"{folder} is no ordinary file")
    pipe = os.path.join(folder, "pipe")
    os.mkfifo(pipe)
    fails("LGS_LIBRARY names a pipe", called(folder, pipe), f"{pipe} is no ordinary file")


def test_wrong_library(folder):
    with open(LIBRARY, "rb") as file:
        whole = file.read()
    other, name, later = os.path.join(folder, "other.so"), f"liblgs.so.{lgs.VERSION}\0".encode(), f"liblgs.so.{lgs.VERSION + 1}\0".encode()
    equal("the library has its name once", whole.count(name), 1)
    for what, content in [("no library", b"no library\n"), ("an empty file", b""), ("another version", whole.replace(name, later))]:
        write(other, content)
        fails(what, called(folder, other), f"{other} is no liblgs.so of version {lgs.VERSION}, which belongs to this lgs.py")
    for length in (4096, len(whole) // 2, len(whole) - 1):
        write(other, whole[:length])
        fails(f"the first {length} bytes of the library", called(folder, other), f"{other} is cut off: it has {length} bytes of {len(whole)}")
    for what, content in [("its first 100 bytes", whole[:100]), ("a text that names it", name), ("a head that names it", whole[:4] + name)]:
        fails(f"the library: {what}", called(folder, write(other, content)), other)
    fails("a library without the function", called(folder, BARE), f"{BARE} has no lgs_stages: it is older than this lgs.py")


def test_library_beside(folder):
    shutil.copy(LIBRARY, os.path.join(folder, "liblgs.so"))
    equal("the library beside lgs.py", called(folder), DONE)
    equal("the library beside lgs.py, LGS_LIBRARY empty", called(folder, ""), DONE)
    equal("the library by a name from the current folder", called(folder, "liblgs.so"), DONE)
    fails("LGS_LIBRARY goes before what is beside", called(folder, "missing.so"), os.path.join(folder, "missing.so"))


# ---------------------------------------------------------------- the file


def test_file():
    with open(BINDING, encoding="ascii") as file:
        source = file.read()
    tree = ast.parse(source, feature_version=(3, 8))
    imported = {alias.name for node in ast.walk(tree) if isinstance(node, ast.Import) for alias in node.names}
    imported |= {"." * node.level + (node.module or "") for node in ast.walk(tree) if isinstance(node, ast.ImportFrom)}
    run = subprocess.run([sys.executable, "-I", "-S", "-c", "import sys\nfor name in sys.argv[1:]: __import__(name)", *sorted(imported)],
                         stdout=subprocess.PIPE, stderr=subprocess.STDOUT)
    check("imports of the standard library alone", imported and run.returncode == 0, run.stdout.decode())
    check("no line over 160 characters", max(map(len, source.splitlines())) <= 160)
    example = textwrap.dedent("".join(line + "\n" for line in lgs.__doc__.split("\n") if line.startswith("    ") or not line.strip()))
    said = io.StringIO()
    with contextlib.redirect_stdout(said):
        exec(example, {})
    equal("the lines in its docstring", said.getvalue(), "student 2 visits workshop 1\n")


def main():
    check("the lgs.py that is tested", os.path.samefile(lgs.__file__, BINDING), lgs.__file__)
    for test in (test_threads, test_k, test_large, test_answers, test_wishes, test_format, test_random_wishes, test_refusals, test_exception, test_bytes,
                 test_rows, test_room, test_kinds_of_bytes, test_header, test_file, test_library):
        try:
            test()
        except Exception:
            check(test.__name__, False, traceback.format_exc())
    print(f"{tally['passed']} passed, {tally['failed']} failed")
    return 1 if tally["failed"] else 0


sys.exit(main())
