"""Tests of `desk.py why`: made-up years are driven visit by visit, and at several moments it is asked of every student and workshop why they are not
placed together. Each sentence is taken apart, and its names and numbers are compared with the tables and the placement. At the end, in every full order that
fits the tables and the visits held, no pair may be blocking, and the reason told must hold. With a wrong placement no reason may be made up.

    python3 why_tests.py DESK.PY

The variable LGS_LIBRARY names the library.
"""
import collections
import csv
import functools
import importlib.util
import io
import itertools
import math
import os
import random
import re
import subprocess
import sys
import tempfile
from concurrent.futures import ThreadPoolExecutor

DESK = os.path.abspath(sys.argv[1])
YEARS = 150
MOST_ORDERS, MOST_TRIED = 60, 240    # of one person, and of a student and a workshop together; where there are more, so many are drawn
NEVER = -1000
STUDENTS = ["Anna Berg", 'Åse "Aa" Berg', "Olsen, Ben", "Carla Roth", "Zoë", "D'Arcy; Jo", "Eve (2)"]
WORKSHOPS = ["Dye house", "Mill and Loom", "Glass: hot, cold", "Färberei 1.5"]
STUDENTS_MARKS = [-999, *range(-8, 0), *range(1, 9), 1000]
WORKSHOPS_MARKS = [-7, -1, 1, 2, 2, 6], [-1, 3, 3]    # of one workshop or another
tally = collections.Counter()


def check(name, good, detail=""):
    """Counts, and tells what failed."""
    tally[bool(good)] += 1
    if not good:
        print(f"FAILED {name}\n{detail}")


# ---------------------------------------------------------------- made-up years


class Year:
    """Tables in dictionaries, by name. What one person has of another stands under (person, other); None is no place, or an empty seat. `hidden` has the
    marks that visits would bring to light, and `mark` those of the visits held."""

    def __init__(self, seed):
        draw = self.draw = random.Random(seed)
        self.students = draw.sample(STUDENTS, draw.randint(1, len(STUDENTS)))
        self.workshops = draw.sample(WORKSHOPS, draw.randint(1, len(WORKSHOPS)))
        met = draw.choice([0.4, 0.8, 1])
        self.pairs = [(s, w) for s in self.students for w in self.workshops if draw.random() < met]
        self.stage = {s: draw.randint(1, 3) for s in self.students}
        self.quota = {w: draw.choice([0, 1, 1, 2, 2, 3]) for w in self.workshops}
        self.lot = dict(zip(self.students, draw.sample(range(1, 513), len(self.students))))
        self.line, self.group, self.hidden, self.mark = {}, {}, {}, {}
        for s in self.students:
            self.wish(s, draw.sample(STUDENTS_MARKS, len(self.others(s))))
        for w in self.workshops:
            self.wish(w, draw.choices(draw.choice(WORKSHOPS_MARKS), k=len(self.others(w))))
        for s, w in self.pairs:
            self.hidden.update(dict.fromkeys(draw.choice([[(s, w)], [(w, s)], [(s, w), (w, s)]]), NEVER) if draw.random() < 0.15 else {})
        self.orders = functools.lru_cache(None)(self.find_orders)
        for couple in draw.sample(self.pairs, len(self.pairs) // 4 if seed % 2 else 0):    # visits that nobody called for
            self.hold(*couple)
        self.planned = [couple for couple in self.pairs if draw.random() < 0.1]

    def others(self, who):
        """Those with whom somebody has a pair."""
        return [w if who == s else s for s, w in self.pairs if who in (s, w)]

    def wish(self, who, marks):
        """Draws somebody's groups and line; the marks are given."""
        groups = [1, 2, 4, 7][:self.draw.randint(1, 4)]
        self.line[who] = self.draw.choice([1, 2, 2, 4, 4, 7, 9])
        for other, mark in zip(self.others(who), marks):
            self.group[who, other], self.hidden[who, other] = self.draw.choice(groups), mark

    def hold(self, s, w):
        """A visit: both marks are known."""
        for couple in ((s, w), (w, s)):
            self.mark[couple] = self.hidden[couple]

    def write(self):
        """The four tables, in the current folder."""
        word = lambda mark: self.draw.choice(["never", "Never", NEVER]) if mark == NEVER else mark
        visits = [(s, w, word(self.mark[s, w]), word(self.mark[w, s])) for s, w in self.pairs if (s, w) in self.mark]
        visits += [(s, w, "", "") for s, w in self.planned if (s, w) not in self.mark]
        pairs = [(s, w, self.group[s, w], self.group[w, s]) for s, w in self.pairs]
        self.draw.shuffle(visits)
        self.draw.shuffle(pairs)
        write_table("students.csv", "student,stage,line group,lot", [(s, self.stage[s], self.line[s], self.lot[s]) for s in self.students])
        write_table("workshops.csv", "workshop,quota,line group", [(w, self.quota[w], self.line[w]) for w in self.workshops])
        write_table("pairs.csv", "student,workshop,group from student,group from workshop", pairs)
        write_table("visits.csv", "student,workshop,mark from student,mark from workshop", visits)

    def group_of(self, who, other):
        """In which group somebody has another one; none stands in the line group."""
        return self.line[who] if other is None else self.group[who, other]

    def mark_of(self, who, other):
        """The mark that counts: none has 0; there is none without a visit, and never is no mark."""
        mark = 0 if other is None else self.mark.get((who, other), NEVER)
        return None if mark == NEVER else mark

    def before(self, who, one, two):
        """By what the tables put one before two for somebody: group, mark or lot; None if they do not."""
        groups = self.group_of(who, one), self.group_of(who, two)
        marks = self.mark_of(who, one), self.mark_of(who, two)
        if groups[0] != groups[1]:
            return "group" if groups[0] < groups[1] else None
        if None in marks:
            return None
        if marks[0] != marks[1]:
            return "mark" if marks[0] > marks[1] else None
        return "lot" if self.lot[one] < self.lot[two] else None

    # ---- full orders

    def parts(self, who):
        """For each group, the best first: those whose marks were given, none included, from the best to the lowest, and those who may stand anywhere in it.
        Never is no mark here, so that more orders are tried than where it is taken for the lowest."""
        known = lambda other: (-self.mark_of(who, other), self.lot.get(other, 0))
        of_group = collections.defaultdict(list)
        for other in [*self.others(who), None]:
            of_group[self.group_of(who, other)].append(other)
        for _, others in sorted(of_group.items()):
            marked = [other for other in others if self.mark_of(who, other) is not None]
            yield sorted(marked, key=known), [other for other in others if other not in marked]

    def find_orders(self, who):
        """Somebody's strict orders that fit, all if they are few, else some; as lists from the best to the lowest. And whether it is all."""
        parts = list(self.parts(who))
        count = math.prod(math.perm(len(marked) + len(free), len(free)) for marked, free in parts)
        if count > MOST_ORDERS:
            return [self.hidden_order(who)] + [sum((drawn_into(self.draw, *part) for part in parts), []) for _ in range(MOST_ORDERS)], False
        return [sum(order, []) for order in itertools.product(*(all_into(*part) for part in parts))], True

    def hidden_order(self, who):
        """The one from which somebody's marks come."""
        key = lambda other: (self.group_of(who, other), 0 if other is None else -self.hidden[who, other], self.lot.get(other, 0))
        return sorted([*self.others(who), None], key=key)

    def full_orders(self, s, w):
        """Full orders that fit: the order of the student, that of the workshop, and whether their pair is never. Everybody else's order is left out, because
        it says nothing of these two. All, if they are few, else some; and whether it is all."""
        (hers, all_hers), (its, all_its) = self.orders(s), self.orders(w)
        nevers = [NEVER in (self.mark[s, w], self.mark[w, s])] if (s, w) in self.mark else [False, True]
        if len(hers) * len(its) * len(nevers) <= MOST_TRIED:
            return itertools.product(hers, its, nevers), all_hers and all_its
        return [tuple(map(self.draw.choice, (hers, its, nevers))) for _ in range(MOST_TRIED)], False

    def held(self, place, w):
        return [s for s in self.students if place[s] == w]


def write_table(name, headings, rows):
    text = io.StringIO()
    csv.writer(text).writerows([headings.split(","), *rows])
    with open(name, "w", encoding="utf-8", newline="") as f:
        f.write(text.getvalue())


def all_into(marked, free):
    """All orders in which the marked ones keep theirs and the free ones stand anywhere."""
    orders = [marked]
    for other in free:
        orders = [order[:at] + [other] + order[at:] for order in orders for at in range(len(order) + 1)]
    return orders


def drawn_into(draw, marked, free):
    """One of these orders."""
    order = list(marked)
    for other in free:
        order.insert(draw.randint(0, len(order)), other)
    return order


# ---------------------------------------------------------------- the definition of a blocking pair


def prefers(order, one, two):
    return order.index(one) < order.index(two)


def is_acceptable(year, s, w, hers, its, never):
    """To both; two without a pair cannot be placed together, and a never pair is acceptable to neither."""
    return (s, w) in year.pairs and not never and prefers(hers, w, None) and prefers(its, s, None)


def blocks(year, place, s, w, hers, its, never):
    """A pair, acceptable to both, with a student who prefers that workshop to what she has, while it has a free seat or holds somebody it ranks lower."""
    held = year.held(place, w)
    return (is_acceptable(year, s, w, hers, its, never) and prefers(hers, w, place[s])
            and (len(held) < year.quota[w] or any(prefers(its, s, other) for other in held)))


def is_reason(year, place, s, w, hers, its, never, kind):
    """What a kind of sentence says, in one full order."""
    held = year.held(place, w)
    return {
        "better": lambda: prefers(hers, place[s], w),
        "full": lambda: len(held) == year.quota[w] and all(prefers(its, other, s) for other in held),
        "never": lambda: never,
        "hers": lambda: prefers(hers, None, w),
        "its": lambda: prefers(its, None, s),
        "no row": lambda: (s, w) not in year.pairs,
        "quota 0": lambda: year.quota[w] == 0,
    }[kind.split(",")[0]]()


def is_placement(year, place):
    """Each student has one workshop or none, no workshop more than its quota, and all who are placed are acceptable in every order."""
    willing = all(is_acceptable(year, s, w, *order) for s, w in place.items() if w for order in year.full_orders(s, w)[0])
    return list(place) == year.students and willing and all(len(year.held(place, w)) <= year.quota[w] for w in year.workshops)


# ---------------------------------------------------------------- the sentences

LINE_ENDS = {"s": "she would rather have no place.", "w": "it would rather leave a seat empty."}
NEVER_SAID = "Their visit ended in never: {} said that they cannot be placed together."
FULL = "{w} is full ({taken} of {quota}), and the lowest there, {low}, stands above {s} by "
FORMS = {
    "placed": "{s} is placed at {w}.",
    "no row": "{s} and {w} have no row in pairs.csv, so they cannot be placed together.",
    "better, group": "{s} has {p}, which she likes better: it is in her group {her_p}, and {w} in her group {her_w}.",
    "better, mark": "{s} has {p}, which she likes better: both are in her group {her_w}, and she gave {p} the mark {s_gave_p} and {w} the mark {s_gave_w}.",
    "never, student": NEVER_SAID.format("{s}"),
    "never, workshop": NEVER_SAID.format("{w}"),
    "never, both": NEVER_SAID.format("{s} and {w}"),
    "hers, group": "{s} puts {w} in group {her_w}, beyond the line group {s_line}: " + LINE_ENDS["s"],
    "hers, mark": "{s} puts {w} in the line group {s_line} and gave the mark {s_gave_w}, below 0: " + LINE_ENDS["s"],
    "its, group": "{w} puts {s} in group {its_s}, beyond the line group {w_line}: " + LINE_ENDS["w"],
    "its, mark": "{w} puts {s} in the line group {w_line} and gave the mark {w_gave_s}, below 0: " + LINE_ENDS["w"],
    "quota 0": "{w} takes nobody: its quota is 0.",
    "full, group": FULL + "group: {its_low} before {its_s}.",
    "full, mark": FULL + "mark: both are in its group {its_s}, and it gave {low} the mark {w_gave_low} and {s} the mark {w_gave_s}.",
    "full, lot": FULL + "lot: both are in its group {its_s} with the mark {w_gave_s}, and the lot {lot_low} of {low} is lower than the lot {lot_s} of {s}.",
    "not yet, this": "It is not decided yet: this visit is the next one to be held.",
    "not yet, other": "It is not decided yet: the next visit is {next_s} at {next_w}.",
}
ONLY_AT_THE_END = {kind for kind in FORMS if kind.split(",")[0] in ("placed", "better", "full")}
ONLY_BEFORE = {"not yet, this", "not yet, other"}
ONE_OF = {field: "|".join(map(re.escape, names))
          for fields, names in ((("s", "low", "next_s"), STUDENTS), (("w", "p", "next_w"), WORKSHOPS)) for field in fields}


def form(sentence):
    """The pattern of a sentence: its fields are names or whole numbers, and one that comes twice is the same."""
    pattern, seen = "", set()
    for text, field in re.findall(r"([^{}]*)(?:\{(\w+)\})?", sentence):
        pattern += re.escape(text)
        if field:
            pattern += f"(?P={field})" if field in seen else f"(?P<{field}>{ONE_OF.get(field, '-?[0-9]+')})"
            seen.add(field)
    return re.compile(pattern)


PATTERNS = {kind: form(sentence) for kind, sentence in FORMS.items()}


def parse(sentence):
    """The kind of a sentence, and its fields; None if it has no form that is known, or two."""
    found = [(kind, match.groupdict()) for kind, match in ((kind, pattern.fullmatch(sentence)) for kind, pattern in PATTERNS.items()) if match]
    return found[0] if len(found) == 1 else None


def lowest(year, place, w):
    """The one before whom the workshop has all others that it holds."""
    held = year.held(place, w) if place else []
    return next((t for t in held if all(year.before(w, other, t) for other in held if other != t)), None)


def facts(year, s, w, asked, place):
    """The fields that sentences may have, as they are by the tables and the placement. Those that there are not stay out."""
    p, low, mark, group = place and place[s], lowest(year, place, w), year.mark, year.group
    true = {
        "s": s, "w": w, "p": p, "low": low, "taken": place and len(year.held(place, w)), "quota": year.quota[w],
        "her_w": group.get((s, w)), "her_p": group.get((s, p)), "its_s": group.get((w, s)), "its_low": group.get((w, low)),
        "s_gave_w": mark.get((s, w)), "s_gave_p": mark.get((s, p)), "w_gave_s": mark.get((w, s)), "w_gave_low": mark.get((w, low)),
        "s_line": year.line[s], "w_line": year.line[w], "lot_s": year.lot[s], "lot_low": year.lot.get(low),
        "next_s": asked and asked[0], "next_w": asked and asked[1],
    }
    return {field: str(value) for field, value in true.items() if value is not None}


def true_kinds(year, s, w, asked, place):
    """The kinds of sentences that are true of the two; `asked` is the next visit, and `place` the finished placement, one of them None."""
    if place and place[s] == w:
        return {"placed"}
    kinds = {"quota 0"} if year.quota[w] == 0 else set()
    if (s, w) not in year.pairs:
        return kinds | {"no row"}
    said = [who for who, couple in (("student", (s, w)), ("workshop", (w, s))) if year.mark.get(couple) == NEVER]
    kinds |= {"never, " + ("both" if len(said) == 2 else said[0])} if said else set()
    kinds |= {f"{whose}, {by}" for whose, by in (("hers", year.before(s, None, w)), ("its", year.before(w, None, s))) if by}
    if place and place[s] and year.before(s, place[s], w):
        kinds.add(f"better, {year.before(s, place[s], w)}")
    low = lowest(year, place, w)
    if low and len(year.held(place, w)) == year.quota[w] and year.before(w, low, s):
        kinds.add(f"full, {year.before(w, low, s)}")
    return kinds or ({"not yet, this" if asked == (s, w) else "not yet, other"} if asked else set())


def judge(year, s, w, asked, place, lines):
    """The kind of what was told of the two, and what is wrong with it."""
    first = [f"{s} is not placed at {w}."] if place and place[s] != w else []
    found = parse(lines[-1]) if lines[:-1] == first else None
    if found is None:
        return None, "the lines have none of the forms"
    kind, told = found
    true, kinds = facts(year, s, w, asked, place), true_kinds(year, s, w, asked, place)
    wrong = {field: (value, true.get(field)) for field, value in told.items() if true.get(field) != value}
    if kind not in kinds:
        return kind, f"{kind} is told, and true is only: {sorted(kinds)}"
    return kind, f"told and true: {wrong}" if wrong else ""


# ---------------------------------------------------------------- asking


def load(path):
    """desk.py as a module. That a table was written just now is fine."""
    sys.dont_write_bytecode = True
    sys.path.insert(0, os.path.dirname(path))
    spec = importlib.util.spec_from_file_location("desk", path)
    module = sys.modules["desk"] = importlib.util.module_from_spec(spec)
    spec.loader.exec_module(module)
    module.AT_REST = 0
    return module


def command(*words):
    """desk.py as a clerk types it, in the current folder: status, what it printed, what it complained of."""
    done = subprocess.run([sys.executable, DESK, *words], env={**os.environ, "PYTHONDONTWRITEBYTECODE": "1"}, capture_output=True, stdin=subprocess.DEVNULL)
    return done.returncode, done.stdout.decode(), done.stderr.decode()


def commands(all_words):
    """Several, two at a time."""
    with ThreadPoolExecutor(2) as pool:
        return list(pool.map(lambda words: command(*words), all_words))


def places_told(year, lines):
    """The placement in the lines after the first empty one."""
    width = max(map(len, year.students))
    names = {f"  {s:{width}}  {w or 'no place'}": (s, w) for s in year.students for w in [*year.workshops, None]}
    return dict(names[line] for line in lines[2:2 + len(year.students)])


def moments(desk, year):
    """Holds visit after visit. Gives the next one, or None at the end, and the placement, or None before."""
    while True:
        year.write()
        lines = desk.answer(False, None)
        if lines[0] == "The placement is finished.":
            yield None, places_told(year, lines)
            return
        asked = next(couple for couple in year.pairs if lines[0] == "Next visit: {} goes to {}.".format(*couple) and couple not in year.mark)
        yield asked, None
        year.hold(*asked)


class Met:
    """What was met in all years."""

    def __init__(self):
        self.kinds, self.before_the_end = collections.Counter(), collections.Counter()
        self.pairs = self.of_all_orders = self.orders = self.commands = self.swaps = self.blocked_swaps = self.drops = 0


def ask_all(desk, met, year, asked, place):
    """Asks of every student and workshop, and judges what is told: the lines of each, their kinds, and what is wrong."""
    told = {(s, w): desk.why(s, w) for s in year.students for w in year.workshops}
    kinds, wrong = {}, []
    for (s, w), lines in told.items():
        kinds[s, w], what = judge(year, s, w, asked, place, lines)
        (met.kinds if place else met.before_the_end)[kinds[s, w]] += 1
        wrong += [f"  {s}, {w}: {what}\n    " + "\n    ".join(lines)] if what else []
    return told, kinds, wrong


def in_every_order(met, year, place, kinds):
    """What is wrong with the reasons told, in the full orders that fit."""
    wrong = []
    for (s, w), kind in kinds.items():
        if kind == "placed":
            continue
        orders, is_all = year.full_orders(s, w)
        met.pairs, met.of_all_orders = met.pairs + 1, met.of_all_orders + is_all
        for order in orders:
            met.orders += 1
            if blocks(year, place, s, w, *order) or not is_reason(year, place, s, w, *order, kind):
                wrong.append(f"  {s}, {w}: {kind} is told. In {order} the pair is {'' if blocks(year, place, s, w, *order) else 'not '}blocking")
                break
    return wrong


def blocks_in_hidden(year, place, s, w):
    """Whether the pair is blocking in the orders from which the marks come."""
    return blocks(year, place, s, w, year.hidden_order(s), year.hidden_order(w), NEVER in (year.hidden[s, w], year.hidden[w, s]))


def told_of(desk, year, place, s, w):
    """What is told of the two if this is the engine's placement; None if no reason is found."""
    find_answer = desk.find_answer
    desk.find_answer = lambda _: desk.lgs.Placement([year.workshops.index(place[t]) + 1 if place[t] else 0 for t in year.students], [], 0)
    try:
        return desk.why(s, w)
    except desk.Stop:
        return None
    finally:
        desk.find_answer = find_answer


def made_up(desk, year, place):
    """What is wrong with that which is told of a wrong placement."""
    wrong = []
    for s, w in year.pairs:
        lines, kinds = told_of(desk, year, place, s, w), true_kinds(year, s, w, None, place)
        what = judge(year, s, w, None, place, lines)[1] if lines else kinds and f"nothing is told, and true is: {sorted(kinds)}"
        wrong += [f"  {place}\n  {s}, {w}: {what}\n    {lines}"] if what else []
    return wrong


def drops(desk, met, year, place):
    """Placements with somebody dropped: she and the workshop are blocking, and there is no reason to tell. What is wrong."""
    wrong = []
    for s, w in ((s, w) for s, w in place.items() if w):
        without = {**place, s: None}
        met.drops += 1
        if not blocks_in_hidden(year, without, s, w) or true_kinds(year, s, w, None, without):
            wrong.append(f"  {s} was dropped by {w}, and the reference does not see it")
        wrong += made_up(desk, year, without)
    return wrong


def swaps(desk, met, year, place):
    """Placements in which two with pairs there changed places: mostly somebody is blocking. What is wrong with that which is told where they have met."""
    wrong = []
    for one, two in itertools.combinations([s for s in place if place[s]], 2):
        new = [(one, place[two]), (two, place[one])]
        if place[one] != place[two] and set(new) <= set(year.pairs):
            swapped = {**place, **dict(new)}
            met.swaps += 1
            met.blocked_swaps += any(blocks_in_hidden(year, swapped, *couple) for couple in year.pairs)
            wrong += made_up(desk, year, swapped) if all(year.mark_of(s, w) and year.mark_of(w, s) for s, w in new) else []
    return wrong


def show(wrong):
    return "\n".join(wrong[:3] + ([f"  and {len(wrong) - 3} more"] if len(wrong) > 3 else []))


def same_by_command(met, year, told, name):
    """The command line tells the same lines, for three of them."""
    some = year.draw.sample(sorted(told), min(3, len(told)))
    met.commands += len(some)
    for couple, got in zip(some, commands([("why", *couple) for couple in some])):
        check(f"{name} as a command: {couple}", got == (0, "\n".join(told[couple]) + "\n", ""), str(got))


def drive(desk, met, seed):
    """One year, from the first visit to the end."""
    year, name = Year(seed), f"year {seed}"
    for asked, place in moments(desk, year):
        if asked and year.draw.random() < 0.6:
            continue
        told, kinds, wrong = ask_all(desk, met, year, asked, place)
        check(f"{name}, {'next is ' + ' at '.join(asked) if asked else 'the end'}", not wrong, show(wrong))
        if year.draw.random() < 0.04:
            same_by_command(met, year, told, name)
    check(f"{name}: the hidden orders fit", all(year.hidden_order(who) in year.orders(who)[0] for who in [*year.students, *year.workshops]))
    check(f"{name}: it is a placement", is_placement(year, place), str(place))
    wrong = in_every_order(met, year, place, kinds) if None not in kinds.values() else ["  a sentence was not understood"]
    check(f"{name}: the reasons in every full order that fits", not wrong, show(wrong))
    wrong = drops(desk, met, year, place) + swaps(desk, met, year, place)
    check(f"{name}: wrong placements", not wrong, show(wrong))


def all_years(desk):
    """Many years; then whether everything was met."""
    met = Met()
    for seed in range(YEARS):
        try:
            drive(desk, met, seed)
        except Exception as error:
            check(f"year {seed} was driven to its end", False, f"{type(error).__name__}: {error}")
    for kind in FORMS:
        print(f"{kind}: {met.kinds[kind]} at the end, {met.before_the_end[kind]} before")
        check(f"{kind} was met at the end", (met.kinds[kind] >= 5) == (kind not in ONLY_BEFORE), str(met.kinds))
        check(f"{kind} was met before the end", (met.before_the_end[kind] >= 5) == (kind not in ONLY_AT_THE_END), str(met.before_the_end))
    print(f"{met.orders} full orders tried for {met.pairs} pairs, for {met.of_all_orders} of them all that fit; {met.commands} sentences by the command line; "
          f"{met.drops} students dropped; {met.blocked_swaps} of {met.swaps} exchanges are blocked")
    check("enough pairs with all full orders", met.of_all_orders > met.pairs / 3)
    check("a few dozen by the command line", met.commands >= 24)
    check("wrong placements are found", met.drops > 100 and met.blocked_swaps > met.swaps / 2 > 25)


# ---------------------------------------------------------------- names

DYE, FAR = "Dye house", "Färberei"
NO_ROW = "{0} is not placed at {1}.\n{0} and {1} have no row in pairs.csv, so they cannot be placed together.\n"
TAKEN = [    # typed, and who is meant
    (("Anna Berg", DYE), ("Anna Berg", DYE)), (("anna berg", "DYE HOUSE"), ("Anna Berg", DYE)), (("ase ost", "farberei"), ("Åse Øst", FAR)),
    (("A\u030ASE Øst", "FÄRBEREI"), ("Åse Øst", FAR)), (("Eva Roth", DYE), ("Eva Roth", DYE)), (("Éva Roth", DYE), ("Éva Roth", DYE)),
    (("EVA ROTH", DYE), ("Eva Roth", DYE)), (("éva roth", DYE), ("Éva Roth", DYE)),
    (("Jo Nan Ek", DYE), ('Jo "Nan" Ek', DYE)), (('jo "nan" ek', DYE), ('Jo "Nan" Ek', DYE)),
]
REFUSED = [    # typed, and what it says
    (("Ana Berg", DYE), 'There is no "Ana Berg" in students.csv. Did you mean "Anna Berg"?\n'),
    (("Anna Berg", "Die house"), 'There is no "Die house" in workshops.csv. Did you mean "Dye house"?\n'),
    (("Xqz", DYE), 'There is no "Xqz" in students.csv.\n'), ((DYE, "Anna Berg"), 'There is no "Dye house" in students.csv. Type the student first, and then the workshop.\n'),
    (("Anna", DYE), 'There is no "Anna" in students.csv. Did you mean "Anna Berg"?\n'),
    (("nan", DYE), 'There is no "nan" in students.csv. Did you mean "Jo "Nan" Ek"?\n'),
    (("jose", DYE), '"jose" may be José or Josè. Type the name as it stands in students.csv.\n'),
]


def read_all():
    return {name: open(name, "rb").read() for name in os.listdir()}


def names():
    """Names that are taken, refused, too few or too many; nothing is written."""
    people = ["Anna Berg", "Åse Øst", "Éva Roth", "Eva Roth", "José", "Josè", 'Jo "Nan" Ek']
    write_table("students.csv", "student,stage,line group,lot", [(s, 1, 1, lot) for lot, s in enumerate(people, 1)])
    write_table("workshops.csv", "workshop,quota,line group", [(DYE, 1, 1), (FAR, 1, 1)])
    write_table("pairs.csv", "student,workshop,group from student,group from workshop", [])
    write_table("visits.csv", "student,workshop,mark from student,mark from workshop", [])
    before = read_all()
    for (typed, meant), got in zip(TAKEN, commands([("why", *typed) for typed, _ in TAKEN])):
        check(f"taken: {typed}", got == (0, NO_ROW.format(*meant), ""), str(got))
    for (typed, says), got in zip(REFUSED, commands([("why", *typed) for typed, _ in REFUSED])):
        check(f"refused: {typed}", got == (1, "", says), str(got))
    wrong = [("why",), ("why", "Anna Berg"), ("why", "Anna Berg", DYE, FAR), ("Anna Berg", DYE)]
    for words, (status, out, err) in zip(wrong, commands(wrong)):
        check(f"a wrong command: {words}", (status, out) == (2, "") and err, out + err)
    check("nothing is written", read_all() == before, str(list(read_all())))


def main():
    desk = load(DESK)
    with tempfile.TemporaryDirectory() as folder:
        before = os.getcwd()
        os.chdir(folder)
        try:
            all_years(desk)
            names()
        finally:
            os.chdir(before)
    print(f"{tally[True]} passed, {tally[False]} failed")
    return 1 if tally[False] else 0


if __name__ == "__main__":
    sys.exit(main())
