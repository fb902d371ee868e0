#!/usr/bin/env python3
"""Compares the calls enter and week_ends of crate `week` (request #111) with week_reference.py.

    python3 tests/entries.py [--root FOLDER] [--seed N]

Some of the lists of calls of week_reference.py: after each entry the refusal, every number of the week and both ends.
scratch.py runs a program that keeps eight sessions and a week and makes the calls, interpreted and compiled. week.py
compares all lists with the library.
"""

import pathlib
import random
import struct
import sys
import tempfile

sys.dont_write_bytecode = True
import drivers
import scratch
import week_reference
from week_reference import DAYS, PLACES, Week

KINDS = {"empty": 0, "begin": 1, "add": 2, "begin_conjunction": 4, "enter": 6}
NEW_WEEK = struct.pack("<BB28x", 5, 0)
# The numbers of a line: of each place, and of the ends.
PLACE = [("held", False), ("lower.m", False), ("lower.e", True), ("upper.m", False), ("upper.e", True)]
PLACED = [f"day {day}, place {place}" for day in range(DAYS) for place in range(PLACES)]
FIELDS = [("refusal", False), *((f"{place}, {name}", e) for place in PLACED for name, e in PLACE), *PLACE[1:]]
# The entries of one run.
BATCH = scratch.MOST_WRITTEN // drivers.line_length(FIELDS)
# Of these parts every list, and of the others one in so many.
WHOLE = "tests on day 3", "tests in a full week", "the largest", "reads of seven", "objects"
PART = 6


def record(call):
    """What the program reads of a call."""
    words = [word % (1 << 32) for word in (*call.inputs, *[0] * 7)[:7]]
    return struct.pack("<BB7I", KINDS[call.name], call.session, *words)


def lines(calls):
    """The lines that are due of a list."""
    week = Week()
    for entry in week_reference.entries(calls):
        refusal = week.enter(entry.day, entry)
        lower, upper = week.ends()
        yield drivers.line([refusal, *week.numbers(), *lower, *upper])


def chosen(rng):
    """A name, the calls and the lines of each list."""
    lists = [*week_reference.chosen_lists(rng), *week_reference.of_drawn(rng)]
    for n, (name, calls) in enumerate(lists):
        if name.startswith(WHOLE) or (not name.startswith("tests") and n % PART == 0):
            yield name, calls, list(lines(calls))


def runs(lists):
    """The lists, as many in a run as it has room for."""
    run, room = [], BATCH
    for one in lists:
        if len(one[2]) > room:
            yield run
            run, room = [], BATCH
        run.append(one)
        room -= len(one[2])
    yield run


def run_of(lists):
    """The records and the lines of some lists."""
    records = b"".join(part for _, calls, _ in lists for part in (NEW_WEEK, *map(record, calls)))
    return records, [line for _, _, due in lists for line in due]


def compare(folder, parts):
    runs = list(map(run_of, parts))
    for part, (_, due), differs in zip(parts, runs, scratch.run(folder, runs)):
        if differs:
            at, text = scratch.report(differs, FIELDS, due)
            names = [f"{name}, entry {n}" for name, _, of_list in part for n in range(len(of_list))]
            print(f"{names[at]}\n{text}")
            sys.exit("entries: this entry differs, and perhaps later ones")


def main():
    options = scratch.arguments("Compares the calls enter and week_ends of crate week with week_reference.py.")
    print("entries: seed %d" % options.seed)
    lists = list(chosen(random.Random(options.seed)))
    with tempfile.TemporaryDirectory() as name:
        folder = pathlib.Path(name)
        scratch.repository(options.root, folder, drivers.WEEKS)
        compare(folder, list(runs(lists)))
    print("entries: %d entries of %d weeks agree" % (sum(len(due) for _, _, due in lists), len(lists)))


if __name__ == "__main__":
    main()
