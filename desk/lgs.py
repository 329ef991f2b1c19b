"""The placing engine from Python: a binding of liblgs.so, by ctypes.

    import lgs

    case = lgs.pack_case(students=[(1, 2, 31), (1, 2, 7)], workshops=[(1, 3)], pairs=[(1, 1, 1, 1), (2, 1, 1, 1)])
    try:
        answer = lgs.place(case, lgs.pack_book([(1, 1, 5, 3)]))
    except lgs.Refused as refused:
        print(refused.number, refused.place, refused.text)
    else:
        if isinstance(answer, lgs.NextVisit):
            print("student", answer.student, "visits workshop", answer.workshop)
        else:
            print("the workshops of students 1, 2, ..:", answer.places)

Students and workshops have the numbers 1, 2, 3 and so on, by their place in the lists. Workshop 0 is no place.

The library is the one that the variable LGS_LIBRARY names, else liblgs.so in the folder of this file. It is loaded at the first call; OSError says why it
cannot be. Threads may call at the same time. Linux on x86-64, Python 3.8 or later, no other packages.

What the library answers is proved (docs/PROMISES.md); this file is not, it is tested.
"""
import ctypes
import enum
import functools
import os
import struct
from typing import Any, Iterable, List, NamedTuple, Sequence, Tuple, Union

__all__ = ["Cause", "NextVisit", "Pair", "Placement", "Refused", "Student", "VERSION", "Visit", "Workshop",
           "pack_book", "pack_case", "place", "read_wishes", "stages", "write_wishes"]

VERSION = 1    # LGS_VERSION of the header include/lgs.h: the library's name has it


# ---------------------------------------------------------------- cases and books


class Student(NamedTuple):
    """A student: stage and lot from 1 to 512, line group from 1 to 65. No two have the same lot."""
    stage: int
    line_group: int
    lot: int


class Workshop(NamedTuple):
    """A workshop: quota from 0 to 512, line group from 1 to 513."""
    quota: int
    line_group: int


class Pair(NamedTuple):
    """Two who could come together: their numbers, the group in which each has the other (1 to 65, 1 to 513), and the fare of a visit in pence."""
    student: int
    workshop: int
    group_from_student: int
    group_from_workshop: int
    fare: int = 0


class Visit(NamedTuple):
    """A visit that was held: their numbers, and the marks from -1000 to 1000, not 0. -1000 says that the two can never be placed together."""
    student: int
    workshop: int
    mark_from_student: int
    mark_from_workshop: int


def pack_case(students: Iterable[Sequence[int]], workshops: Iterable[Sequence[int]], pairs: Iterable[Sequence[int]]) -> bytes:
    """The bytes of a case, a record for each `Student`, each `Workshop` and each `Pair`, or plain tuples of the same numbers.

    The pairs rise by student, and for one student by workshop: sorted(pairs) puts them in this order. What the functions that take a case test is not
    tested here; a row that makes no record (too few or too many numbers, or one that is no whole number or too large for its field) is a ValueError.
    """
    records = [_pack("<BB4H6x", Student, n, s, 1, 0, n) for n, s in enumerate(students, 1)]
    records += [_pack("<BB3H8x", Workshop, n, w, 2, 0, n) for n, w in enumerate(workshops, 1)]
    records += [_pack("<BB5H4x", Pair, n, p, 3, 0) for n, p in enumerate(pairs, 1)]
    return b"".join(records)


def pack_book(visits: Iterable[Sequence[int]]) -> bytes:
    """The bytes of a book, a record for each `Visit`, or plain tuples of the same numbers; in any order."""
    return b"".join(_pack("<HHhh", Visit, n, v) for n, v in enumerate(visits, 1))


def _pack(form: str, kind: Any, number: int, row: Sequence[int], *head: int) -> bytes:
    """The record of a row, the so many-th of its kind."""
    try:
        return struct.pack(form, *head, *kind(*row))
    except (struct.error, TypeError) as error:
        raise ValueError(f"{kind.__name__.lower()} {number}, {row}: {error}") from None


# ---------------------------------------------------------------- answers


class Placement(NamedTuple):
    """A finished placement."""
    places: List[int]               # the workshop of students 1, 2, .., or 0
    visits: List[Tuple[int, int]]   # student, workshop of each visit that the rule called for, in that order
    fares: int                      # what these visits cost together, in pence


class NextVisit(NamedTuple):
    """The visit to be held next."""
    student: int
    workshop: int
    visits: List[Tuple[int, int]]   # those that the rule called for before it
    fares: int                      # what these cost together, in pence; the next one is not in it


class Cause(enum.IntEnum):
    """The numbers of the refusals, in the order of testing."""
    CASE_LENGTH = 1
    CASE_FORM = 2
    CASE_ORDER = 3
    CASE_COUNTS = 4
    CASE_RANGE = 5
    CASE_LOT = 13
    SHORT_BUFFER = 6
    BOOK_LENGTH = 7
    BOOK_PAIR = 8
    BOOK_MARK = 9
    BOOK_REPEATED = 10
    BOOK_TIE = 11
    NO_STAGES = 12
    WISH_FORM = 14
    WISH_NAMES = 15


_TEXTS = {
    Cause.CASE_LENGTH: "The length of the case is no multiple of 16.",
    Cause.CASE_FORM: "A record of the case has another kind than 1 to 3, or a byte that should be zero.",
    Cause.CASE_ORDER: "A record of the case is out of order, or a pair names nobody.",
    Cause.CASE_COUNTS: "The case has no student, over 512 students, no workshop, or over 64 workshops.",
    Cause.CASE_RANGE: "A stage, quota, group or line group in the case is out of range.",
    Cause.CASE_LOT: "A lot in the case is not from 1 to 512, or an earlier student has it.",
    Cause.SHORT_BUFFER: "A lent buffer is shorter than needed.",
    Cause.BOOK_LENGTH: "The length of the book is no multiple of 8.",
    Cause.BOOK_PAIR: "A visit in the book is of two who are no pair of the case.",
    Cause.BOOK_MARK: "A mark in the book is 0 or outside -1000 to 1000.",
    Cause.BOOK_REPEATED: "A visit in the book is of a pair that is in the book already.",
    Cause.BOOK_TIE: "A student gave two workshops of one group the same mark.",
    Cause.NO_STAGES: "No stage numbers agree with every workshop's groups.",
    Cause.WISH_FORM: "A line of wishes departs from the form, is missing, or is left over.",
    Cause.WISH_NAMES: "A line of wishes names a workshop twice, misses one, or names one with which she has no pair.",
}


class Refused(Exception):
    """The library refused what it was given.

    number: the refusal's number, equal to one of `Cause`.
    place: the record of the case (1 to 5, 13; students, then workshops, then pairs) or of the book (7 to 11), or the line of wishes (14, 15), that it
        names, counted from 0; 0 where it names none.
    text: the refusal in a short plain sentence.
    """

    def __init__(self, number: int, place: int) -> None:
        super().__init__(number, place)
        self.number = number
        self.place = place
        self.text = _TEXTS.get(number, "No refusal has this number.")

    def __str__(self) -> str:
        return f"{self.text} (refused {int(self.number)} at {self.place})"


# ---------------------------------------------------------------- the functions


def place(case: bytes, book: bytes = b"") -> Union[Placement, NextVisit]:
    """The next visit or the finished placement, for a case and a book of the visits held so far.

    Raises Refused: a cause that the case or the book gives.
    """
    case, book = _bytes(case), _bytes(book)
    records = len(case) // 16
    places, visits = _numbers(512), _numbers(2 * records)
    report = _call("lgs_place", _Report, case, book, places, visits, _numbers(32768), _numbers(records), (_StudentState * 512)())
    held = visits[:2 * report.visits]
    couples = list(zip(held[::2], held[1::2]))
    if report.kind == _NEXT:
        return NextVisit(report.first, report.second, couples, report.fares)
    return Placement(places[:case[::16].count(1)], couples, report.fares)


def stages(case: bytes) -> List[int]:
    """For students 1, 2, .. of the case stages that agree with every workshop's groups, each as small as that permits, starting at 1.

    With such stages in the case the visits that `place` calls for are the smallest list. The stages that are in the case are only checked for range.
    Raises Refused: NO_STAGES where no stage numbers agree, or a cause that the case gives.
    """
    found = _numbers(512)
    report = _call("lgs_stages", _PartReport, _bytes(case), found)
    return found[:report.first]


def write_wishes(case: bytes) -> bytes:
    """The students' groups and line groups as text, a line for each student, as in b"3: 2,{1,4},-,5\\n".

    That is student 3, her groups best first, braces around a group of two or more, and - for none; in braces - stands first and the workshops rise. Equal
    lines come exactly from cases with the same students and pairs, and the same order of each student's groups, gaps aside.
    Raises Refused: a cause that the case gives.
    """
    case = _bytes(case)
    text = _room(8 * 512 + 4 * (len(case) // 16))
    report = _call("lgs_write_wishes", _PartReport, case, text)
    return bytes(text)[:report.first]


def read_wishes(case: bytes, text: bytes) -> bytes:
    """A copy of the case in which the students' groups and line groups are those of the text, counted from 1 in each line.

    The text is as `write_wishes` makes it, but in braces any order will do: a line for each student, from 1 up, with each workshop that she has a pair with.
    Raises Refused: WISH_FORM or WISH_NAMES at the first line that is wrong, whichever it is, or a cause that the case gives.
    """
    case = _bytes(case)
    copy = _room(len(case))
    report = _call("lgs_read_wishes", _PartReport, case, _bytes(text), copy)
    return bytes(copy)[:report.first]


# ---------------------------------------------------------------- the library, as include/lgs.h declares it

_NEXT, _REFUSED = 1, 2    # kinds of answers


class _StudentState(ctypes.Structure):
    _fields_ = [("reached", ctypes.c_uint32), ("held", ctypes.c_uint32), ("openings", ctypes.c_uint64)]


class _Report(ctypes.Structure):
    _fields_ = [(name, ctypes.c_uint64) for name in ("kind", "first", "second", "visits", "fares")]


class _PartReport(ctypes.Structure):
    _fields_ = [(name, ctypes.c_uint64) for name in ("kind", "first", "second")]


@functools.lru_cache(maxsize=None)
def _library() -> ctypes.CDLL:
    path = os.path.abspath(os.environ.get("LGS_LIBRARY") or os.path.join(os.path.dirname(os.path.abspath(__file__)), "liblgs.so"))
    if os.path.exists(path) and not os.path.isfile(path):
        raise OSError(f"{path} is no ordinary file")
    try:
        with open(path, "rb") as file:
            data = file.read()
    except FileNotFoundError as error:
        raise FileNotFoundError(error.errno, f"{error.strerror} (liblgs.so belongs in the folder of lgs.py, or LGS_LIBRARY names it)", path) from None
    if not data.startswith(b"\x7fELF") or f"liblgs.so.{VERSION}\0".encode() not in data:
        raise OSError(f"{path} is no liblgs.so of version {VERSION}, which belongs to this lgs.py")
    if len(data) < _length(data):
        raise OSError(f"{path} is cut off: it has {len(data)} bytes of {_length(data)}")
    return ctypes.CDLL(path)


def _length(data: bytes) -> int:
    """How long a library is by its own head (ELF, 64 bytes): the table of its sections stands last."""
    if len(data) < 64:
        return 64
    start, = struct.unpack_from("<Q", data, 40)
    size, count = struct.unpack_from("<HH", data, 58)
    return start + size * count


def _call(name: str, report: Any, *lent: Any) -> Any:
    """One call, with each of these buffers and its length. A refusal is raised."""
    library = _library()
    try:
        function = getattr(library, name)
    except AttributeError:
        raise OSError(f"{library._name} has no {name}: it is older than this lgs.py") from None
    function.restype = report
    answer = function(*[word for buffer in lent for word in (buffer, ctypes.c_size_t(len(buffer)))])
    if answer.kind == _REFUSED:
        raise Refused(answer.first, answer.second)
    return answer


def _bytes(data: bytes) -> bytes:
    """These bytes, also of a bytearray or an array."""
    return data if isinstance(data, bytes) else bytes(memoryview(data))


def _numbers(count: int) -> Any:
    return (ctypes.c_uint16 * count)()


def _room(length: int) -> Any:
    return (ctypes.c_uint8 * length)()
