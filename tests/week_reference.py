"""Request #111 of document 02, by exact arithmetic: the week, over the sessions of reference.py, and the lists of calls
on which it is tried.

"Planning wants a week to show seven days of eight places, each empty or with the two ends of a read."
"""

import functools
import itertools
from typing import NamedTuple

import drawn
import edges
import orders
import scaled
from encounters import ALFANO_3, DOCUMENTS, HALF, HIGHEST, LATEST, LOWEST, SMALL, TEST_1
from exact_series import Encounter
from records import MOST_COUNT
from reference import LARGEST_N, Session
from scaled import LEAST, ZERO, Scaled

DAYS, PLACES = 7, 8


class Ends(NamedTuple):
    lower: Scaled
    upper: Scaled


plus_up = functools.lru_cache(maxsize=None)(functools.partial(scaled.plus, True))
value = functools.lru_cache(maxsize=None)(scaled.value)


class Week:
    def __init__(self):
        # Each place has None or an Ends.
        self.days = [[None] * PLACES for _ in range(DAYS)]

    def enter(self, day, session):
        """The refusal's number, or 0."""
        # "It refuses, as 13 and before the read's own tests, a day number above 6,"
        if day > 6:
            return 13
        # "A bracket enters the week only through a read of a session,"
        read = session.read()
        if read.refusal:
            return read.refusal
        # "and as 24 after those tests a ninth bracket for a day; any refusal, the read's own too, leaves the week
        # unchanged."
        if None not in self.days[day]:
            return 24
        # "into the next empty place of the day named."
        self.days[day][self.days[day].index(None)] = Ends(Scaled(*read.lower), Scaled(*read.upper))
        return 0

    def held(self):
        """The brackets "in day and place order"."""
        return [place for day in self.days for place in day if place]

    def ends(self):
        # "The week's lower end is the greatest lower end held,"
        lower = max((held.lower for held in self.held()), key=value, default=ZERO)
        # "and its upper end is the upper ends added in day and place order, each addition U; an empty week has zero for
        # both."
        return Ends(lower, functools.reduce(plus_up, (held.upper for held in self.held()), ZERO))

    def numbers(self):
        """Every number of the week: of each place 1, or 0 where it is empty, and m and e of both ends."""
        places = (place for day in self.days for place in day)
        return [n for place in places for n in ((1, *place.lower, *place.upper) if place else (0,) * 5)]


# The calls of a list: on one of the sessions, or an entry of its read into the week.


class Call(NamedTuple):
    """`empty`, `begin`, `begin_conjunction` or `add` on a session, with its inputs; or `enter` with the day.

    A session is a number from 0 to SESSIONS − 1. Each list starts with an empty week and with empty sessions.
    """

    name: str
    session: int
    inputs: tuple = ()


SESSIONS = 8


class Entry(NamedTuple):
    """What an entry is about: the day, and the answer of a read of its session. It stands in for the session."""

    day: int
    answer: tuple

    def read(self):
        return self.answer


def entries(calls):
    """The entries of a list."""
    sessions = [Session() for _ in range(SESSIONS)]
    for name, number, inputs in calls:
        if name == "empty":
            sessions[number] = Session()
        elif name == "enter":
            yield Entry(*inputs, sessions[number].read())
        else:
            getattr(sessions[number], name)(*inputs)


def at_order(number, encounter, N):
    """The calls that bring a session to order N."""
    yield Call("begin", number, tuple(encounter))
    if N > 1:
        yield Call("add", number, (N - 1,))


def enter(number, day):
    return Call("enter", number, (day,))


# The lists.

# Day numbers above 6; 8 and 2^32 − 1 are 0 and 7 in three bits, 7 and 14 are 0 after division by 7.
ABOVE = (7, 8, 14, 255, 256, 1 << 16, 1 << 31, (1 << 32) - 1)


def of_tests():
    """13, the read's 21 and 23, and 24, each with those after it, with 0 to 8 brackets on the day and in a full week."""
    # 0 is read, 1 has too few terms, 2 is empty, 3 has a begin that is refused, 4 one after an encounter that is read.
    first = [*at_order(0, TEST_1, 66), *at_order(1, TEST_1, 35), Call("empty", 2)]
    refused = tuple(edges.REFUSED[0])
    first += [Call("begin", 3, refused), *at_order(4, HALF, 3), Call("begin", 4, refused)]
    wrong = [enter(number, day) for number in (2, 3, 1, 0, 4) for day in ABOVE]
    for day in range(DAYS):
        calls = [*first, *(wrong if day in (0, 3, 6) else [])]
        for _ in range(PLACES + 1):
            calls += [enter(number, day) for number in (2, 3, 1)]
            calls.append(enter(0, day))
        yield f"tests on day {day}", [*calls, enter(4, day), *wrong, enter(4, (day + 1) % DAYS)]
    full = [enter(0, day) for day in range(DAYS) for _ in range(PLACES)]
    again = [enter(number, day) for number in (2, 3, 1, 0, 4) for day in range(DAYS)]
    yield "tests in a full week", [*first, *full, *again, *wrong]


def of_full_weeks(rng):
    """56 brackets of one read and of several, the days filled in several orders."""
    largest = at_order(0, HIGHEST, LARGEST_N)
    yield "the largest upper ends", [*largest, *(enter(0, n // PLACES) for n in range(DAYS * PLACES))]
    least = at_order(0, LOWEST, 1)
    yield "the least ends", [*least, *(enter(0, n % DAYS) for n in range(DAYS * PLACES)), enter(0, 3)]
    reads = (TEST_1, 66), (ALFANO_3, 597), (HIGHEST, LARGEST_N), (LOWEST, 1), (HALF, 1), (SMALL, 30)
    reads += ((LATEST, LARGEST_N),)
    first = [call for number, read in enumerate(reads) for call in at_order(number, *read)]
    days = [n // PLACES for n in range(DAYS * PLACES)]
    for name, order in ("first to last", days), ("last to first", days[::-1]), ("drawn", rng.sample(days, len(days))):
        calls = [*first, *(enter(rng.randrange(len(reads)), day) for day in order)]
        yield f"reads of seven encounters, days {name}", calls


def of_two_and_three(rng):
    """Two brackets of each gap of e from 0 to 70 or so, the larger first and the smaller first; then both again."""
    found = {}
    for R, xm in itertools.product((1, 1000, 1_000_000), range(0, 10_000_000, 250_000)):
        session = orders.begun(Encounter(R, 1_000_000, 1_000_000, xm, 0))
        if session and orders.least_of(session) < 60:
            N = orders.least_of(session)
            orders.add_up_to(session, N)
            found[session.read().upper] = Encounter(R, 1_000_000, 1_000_000, xm, 0), N
    pairs = list(itertools.combinations(found, 2))
    rng.shuffle(pairs)
    by_gap = {abs(a[1] - b[1]): tuple(sorted((a, b), key=lambda end: value(Scaled(*end)))) for a, b in pairs}
    for gap in sorted(by_gap):
        small, large = (found[end] for end in by_gap[gap])
        first = [*at_order(0, *small), *at_order(1, *large)]
        for one, other in (0, 1), (1, 0):
            calls = [*first, enter(one, 2), enter(other, 2), enter(other, 4), enter(one, 6)]
            yield f"e apart by {gap}, {one} first", calls


# The upper end is 1 − 2^-32, and 1.
BELOW_1, AT_1 = Encounter(5877919, 1_000_000, 1_000_000, 0, 0), Encounter(5877845, 1_000_000, 1_000_000, 0, 0)


def of_sums():
    """Sums that carry to the next e, by rounding alone too, equal ends, and sums that depend on their order."""
    reads = {"below 1": (BELOW_1, 70), "1": (AT_1, 70), "large": (ALFANO_3, 597), "largest": (HIGHEST, LARGEST_N)}
    for name, large in reads.items():
        first = [*at_order(0, *large), *at_order(1, LOWEST, 1)]
        for days in (0, 0, 0), (0, 1, 1), (1, 0, 1), (1, 0, 0), (6, 5, 4), (4, 5, 6), (0, 6, 6), (6, 6, 0), (3, 2, 3):
            # The entries are made in another order than that of the days, too.
            both = list(zip((0, 1, 1), days))
            for order in both, both[::-1]:
                yield f"{name} and the least twice, {order}", [*first, *(enter(number, day) for number, day in order)]
    first = [*at_order(0, BELOW_1, 70), *at_order(1, LOWEST, 1), *at_order(2, HALF, 1), *at_order(3, TEST_1, 66)]
    for number in range(4):
        yield f"equal ends, {number}", [*first, *(enter(number, day) for day in (5, 5, 1, 5, 0, 6, 5, 5, 2, 2, 2, 4, 3))]
    # The read of one encounter at several orders: the lower end rises, and so does the upper end at last.
    calls = [*at_order(0, TEST_1, 35)]
    for N in range(36, 36 + 20):
        calls += [Call("add", 0, (1,)), enter(0, N * N % DAYS)]
    yield "one encounter at several orders", calls


def of_objects():
    """With an object number and a time, which no place holds; over an earlier encounter; after an empty session."""
    inputs = tuple(TEST_1)
    calls = [Call("begin_conjunction", 0, (*inputs, 25544, 1440)), enter(0, 0), Call("add", 0, (65,)), enter(0, 0)]
    calls += [Call("begin_conjunction", 0, (*inputs, 0, 7)), enter(0, 1), Call("begin", 0, tuple(HALF)), enter(0, 1)]
    yield "objects", [*calls, Call("empty", 0), enter(0, 1), *at_order(0, SMALL, 20), enter(0, 1)]


def of_documents():
    """The encounters of the documents, two orders of each, on days in turn."""
    calls, days = [], itertools.cycle(range(DAYS))
    for encounter in DOCUMENTS.values():
        session = orders.begun(encounter)
        calls.append(Call("begin", 0, tuple(encounter)))
        if session:
            least, advised = orders.least_of(session), session.advise().order
            for N in sorted({least, advised or least}):
                calls += [*at_order(1, encounter, N), enter(1, next(days))]
        calls.append(enter(0, next(days)))
    yield "the documents", calls


def of_drawn(rng):
    """Calls on several sessions, many of them refused, and entries on all days, one of them more than on the others."""
    for n in range(100):
        calls, sessions = [], [Session() for _ in range(rng.randint(1, 4))]
        terms, often = 300, rng.randrange(DAYS)
        for _ in range(rng.choice((10, 40, 160))):
            number = rng.randrange(len(sessions))
            session, way = sessions[number], rng.random()
            if way < 0.02:
                name, inputs, sessions[number] = "empty", (), Session()
            elif way < 0.09 or (session.N == 0 and way < 0.3):
                kind, *inputs = drawn.begin_inputs(rng, drawn.encounter(rng))
                name = "begin" if kind == 1 else "begin_conjunction"
                getattr(session, name)(*inputs)
            elif way < 0.2:
                count = max(0, min(drawn.count_for(rng, session), MOST_COUNT))
                if count > terms and session.N + count <= LARGEST_N:
                    continue
                name, inputs = "add", (count,)
                if not session.add(count).refusal:
                    terms -= count
            else:
                name, inputs = "enter", (rng.choice((often, often, *range(DAYS), *range(DAYS), rng.choice(ABOVE))),)
            calls.append(Call(name, number, tuple(inputs)))
        yield f"drawn {n}", calls


def chosen_lists(rng):
    """A name and the calls of each list, but for those that are drawn."""
    for part in of_tests(), of_full_weeks(rng), of_two_and_three(rng), of_sums(), of_objects(), of_documents():
        yield from part


# What of the request an entry has.


def shown_by(entry, before, refusal, week):
    """before: how many brackets each day has before it."""
    of_read = entry.answer.refusal
    if refusal:
        yield "refused", refusal
        if refusal == 13:
            yield 13, of_read, sum(before) == DAYS * PLACES
            yield 13, "day", entry.day
        elif refusal != 24:
            yield refusal, before[entry.day]
        return
    yield "entered", entry.day, before[entry.day]
    yield "held", sum(before) + 1
    held, lower = week.held(), week.ends().lower
    greatest = [n for n, one in enumerate(held) if one.lower == lower]
    yield "lower end", len(greatest) > 1, greatest[0] == 0, greatest[-1] == len(held) - 1
    total = ZERO
    for n, one in enumerate(held):
        if n:
            yield from shown_by_sum(total, one.upper)
        total = plus_up(total, one.upper)


@functools.lru_cache(maxsize=None)
def shown_by_sum(a, b):
    """What an addition has: the gap of both e, up to 70; whether it is exact; whether e rises, and by rounding alone."""
    total, down = plus_up(a, b), scaled.plus(False, a, b)
    found = [("gap", min(abs(a.e - b.e), 70), a.e < b.e), ("exact", total == down)]
    found.append(("rises", total.e - max(a.e, b.e), down.e - max(a.e, b.e)))
    found += [("equal", a == b), ("at the limit", total.m == LEAST and not total == down)]
    return found


# What of the request all lists together are to have: each refusal; 13 before each refusal of a read, and in a full week;
# those of a read with 0 to 8 brackets on the day; each place; each number of brackets; both sides of each gap; and so on.
DUE = {("refused", refusal) for _, refusal in edges.ENTRIES if refusal}
DUE |= {(13, of_read, full) for of_read in (0, 21, 23) for full in (False, True)}
DUE |= {(13, "day", day) for day in ABOVE}
DUE |= {(refusal, count) for refusal in (21, 23) for count in range(PLACES + 1)}
DUE |= {("entered", day, place) for day in range(DAYS) for place in range(PLACES)}
DUE |= {("held", n) for n in range(1, DAYS * PLACES + 1)}
DUE |= {("lower end", *of_greatest) for of_greatest in ((True, True, True), (True, False, True), (True, True, False))}
DUE |= {("lower end", False, *of_one) for of_one in ((True, True), (True, False), (False, True), (False, False))}
DUE |= {("gap", gap, smaller) for gap in range(71) for smaller in (False, True)} - {("gap", 0, True)}
DUE |= {("exact", exact) for exact in (False, True)} | {("equal", equal) for equal in (False, True)}
# e stays; it rises; and it rises by rounding alone.
DUE |= {("rises", 0, 0), ("rises", 1, 1), ("rises", 1, 0), ("at the limit", True), ("at the limit", False)}
