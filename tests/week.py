#!/usr/bin/env python3
"""Compares the week of libjinthuol.a, request #111, with week_reference.py, and its ends with exact fractions.

    python3 tests/week.py [--library FOLDER] [--seed N]

The folder holds the library; `tools/build jinthuol` writes it to target/staticlib. The lists of calls of
week_reference.py go through week.c, compiled as C and as C++, and through bindings/python. After each entry the
refusal, every number of every place and both ends are compared. Then weeks whose encounters and orders are known: the
greatest of the exact quotients, each cut later, is at or above the lower end, and their sum is at or below the upper
end. Exits with 1 at the first difference.
"""

import itertools
import os
import random
import sys
from fractions import Fraction

sys.dont_write_bytecode = True
import drawn
import drivers
import exact_series
import options
import orders
import scaled
import week_reference
from brackets import CUTS
from compiled import BINDINGS, COMPILERS, built, differs, library_of, library_option, output
from encounters import ASTRIDE, DOCUMENTS, HALF, LOWEST, SMALL, THIN
from options import ROOT
from week_reference import DAYS, PLACES, Week

# The kinds of the lines of week.c.
KINDS = {"empty": 0, "begin": 1, "add": 2, "begin_conjunction": 4, "enter": 6}
NEW_WEEK = " ".join(map(str, (5, *[0] * 8)))


def line(call):
    return " ".join(map(str, (KINDS[call.name], call.session, *call.inputs, *[0] * 7)[:9]))


def words(numbers):
    """What week.c prints of them."""
    return "".join(map(drivers.digits, numbers))


# The names of all numbers of a line.
PLACED = [f"day {day}, place {place}" for day in range(DAYS) for place in range(PLACES)]
NAMES = [f"{place}, {name}" for place in PLACED for name in ("held", "lower m", "lower e", "upper m", "upper e")]
NAMES = ["refusal", *NAMES, "lower m", "lower e", "upper m", "upper e"]


def told(what, found, due):
    """Ends the test where the words differ, with the name of the first number that does."""
    if found != due:
        width = drivers.WIDTH
        pairs = zip(NAMES, *([text[at : at + width] for at in range(0, len(due), width)] for text in (found, due)))
        name, a, b = next((pair for pair in pairs if pair[1] != pair[2]), ("length", len(found), len(due)))
        differs(f"{what}: {name}", a, b)


class Due:
    """What is due of the entries of a list."""

    def __init__(self, name, calls):
        self.name, self.calls, self.entries, self.answers, self.shown = name, calls, [], [], set()
        week = Week()
        for entry in week_reference.entries(calls):
            before = [len(day) - day.count(None) for day in week.days]
            refusal = week.enter(entry.day, entry)
            lower, upper = week.ends()
            self.entries.append(entry)
            self.answers.append([refusal, *week.numbers(), *lower, *upper])
            self.shown |= set(week_reference.shown_by(entry, before, refusal, week))

    def what(self, n):
        """The entry n in words."""
        return f"{self.name}, entry {n} on day {self.entries[n].day}"


def of_c(library, lists):
    """All lists through C and C++."""
    lines = "".join(f"{text}\n" for one in lists for text in (NEW_WEEK, *map(line, one.calls))).encode()
    due = [(one.what(n), words(numbers)) for one in lists for n, numbers in enumerate(one.answers)]
    for compiler in COMPILERS:
        found = output([built(compiler, library, ROOT / "tests/week.c")], input=lines).decode().splitlines()
        if len(found) != len(due):
            differs(f"entries by {compiler}", len(found), len(due))
        for printed, (what, expected) in zip(found, due):
            told(f"by {compiler}, {what}", printed, expected)


def of_python(lists):
    """The same lists through Python. The session's bytes stay as they are."""
    import jinthuol as python

    for one in lists:
        sessions, week = [python.Session.empty() for _ in range(week_reference.SESSIONS)], python.Week.empty()
        answers = enumerate(one.answers)
        for name, number, inputs in one.calls:
            session = sessions[number]
            if name == "empty":
                sessions[number] = python.Session.empty()
            elif name == "begin":
                session.begin(python.Encounter(*inputs))
            elif name == "begin_conjunction":
                session.begin_conjunction(python.Conjunction(python.Encounter(*inputs[:5]), *inputs[5:]))
            elif name == "add":
                session.add(*inputs)
            else:
                kept = bytes(session.kept)
                entered, ends = week.enter(*inputs, session), week.ends()
                places = itertools.chain(*week.days)
                numbers = [n for place in places for n in ((1, *of_ends(place)) if place else (0,) * 5)]
                n, expected = next(answers)
                found = [entered.refusal, *numbers, *of_ends(ends)]
                told(f"from Python, {one.what(n)}", words(found), words(expected))
                if bytes(session.kept) != kept:
                    differs(f"from Python, {one.what(n)}", "another session after it", "the same")


def of_ends(ends):
    return ends.lower.m, ends.lower.e, ends.upper.m, ends.upper.e


# The exact quotients.

# In units of 2^-BITS, to which a quotient is rounded up: far below the least one.
BITS = 1000


class Read:
    """An encounter at an order, by the library and by reference.py, with its exact quotients.

    The series is cut at this order and at two later ones, and the exponential at three places, each with each.
    """

    def __init__(self, rng, encounter, N, python):
        self.encounter, self.session, self.found = encounter, orders.at_order(encounter, N), python.Session.empty()
        self.found.begin(python.Encounter(*encounter))
        if N > 1:
            self.found.add(N - 1)
        sums = exact_series.series_at(encounter, [N, N + 1, N + rng.randrange(2, 60)])
        exponentials = [exact_series.exponential(encounter, K) for K in CUTS]
        self.quotients = [(a[0] * b[1], a[1] * b[0]) for a in sums.values() for b in exponentials]
        # The greatest of them, in units, upward.
        self.most = max(-((-n << BITS) // d) for n, d in self.quotients)

    def is_above(self, lower):
        """Whether all its quotients are at least this end."""
        return all(exact_series.at_most(exact_series.scaled_pair(lower), q) for q in self.quotients)


def reads(rng, python):
    chosen = [encounter for encounter in DOCUMENTS.values() if orders.begun(encounter)]
    chosen += [HALF, SMALL, THIN, LOWEST, ASTRIDE]
    chosen += [drawn.with_exact_terms(rng) for _ in range(4)] + drawn.with_least(rng, 1, 60, 20)
    for encounter in chosen:
        session = orders.begun(encounter)
        least = orders.least_of(session)
        for N in sorted({least, session.advise().order or least}):
            yield Read(rng, encounter, N, python)


def of_enclosure(rng):
    """Weeks of reads on days that are drawn. Gives how many were compared.

    Whichever of the cuts are taken, one quotient is at least the lower end, and the sum is at most the upper end.
    """
    import jinthuol as python

    of_all = list(reads(rng, python))
    sizes = [1, 2, 3, 8, 30, DAYS * PLACES] * 20
    for size in sizes:
        # No read twice in a week, while there are so many.
        taken = rng.sample(of_all, size) if size < len(of_all) else rng.choices(of_all, k=size)
        days = rng.sample([*range(DAYS)] * PLACES, size)
        due, week = Week(), python.Week.empty()
        refusals = {(due.enter(day, one.session), week.enter(day, one.found).refusal) for day, one in zip(days, taken)}
        lower, upper = due.ends()
        what = f"a week of {[tuple(one.encounter) for one in taken]}"
        if refusals != {(0, 0)} or of_ends(week.ends()) != (*lower, *upper):
            differs(what, (refusals, week.ends()), (lower, upper))
        total = Fraction(sum(one.most for one in taken), 1 << BITS)
        if not any(one.is_above(lower) for one in taken) or total > scaled.value(upper):
            differs(f"the exact quotients of {what}", total, (lower, upper))
        # The upper end is no farther out than it has to be: it is rounded at most once for each bracket but the first.
        exact = sum(scaled.value(held.upper) for held in due.held())
        if not exact <= scaled.value(upper) <= exact * (1 + Fraction(1, 1 << 31)) ** (size - 1):
            differs(f"the upper end of {what}", scaled.value(upper), exact)
    return len(sizes)


def main():
    parser = options.parser("Compares the week of libjinthuol.a with week_reference.py.")
    library_option(parser)
    arguments = parser.parse_args()
    library = library_of(arguments)
    os.environ["JINTHUOL_LIB_DIR"] = str(library)
    sys.path.insert(0, str(BINDINGS / "python"))
    rng = random.Random(arguments.seed)
    lists = [Due(name, calls) for name, calls in (*week_reference.chosen_lists(rng), *week_reference.of_drawn(rng))]
    shown = set().union(*(one.shown for one in lists))
    if not shown >= week_reference.DUE:
        sys.exit(f"week: what no entry has: {sorted(week_reference.DUE - shown, key=str)}")
    of_c(library, lists)
    of_python(lists)
    enclosed = of_enclosure(rng)
    entries = sum(len(one.entries) for one in lists)
    print(
        f"week: {entries} entries into {len(lists)} weeks from C, C++ and Python, "
        f"{enclosed} weeks against exact quotients, 0 disagreements"
    )


if __name__ == "__main__":
    main()
