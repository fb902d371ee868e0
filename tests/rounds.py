#!/usr/bin/env python3
"""Compares the rounds of the exponential (request #102), one by one, with reference.py.

    python3 tests/rounds.py [--root FOLDER] [--seed N]

A round is a private function, which scratch.py makes public in a copy of the crates. A program there makes the rounds
as a port would, interpreted and compiled, and writes both sides' numbers after each, and then those that a begin takes.
A sum does not change any more once r(k) is small, and only r(k) tells of a late slip: both are compared at every k.
"""

import itertools
import pathlib
import random
import struct
import sys
import tempfile

sys.dont_write_bytecode = True
import drawn
import drivers
import orders
import scratch
from encounters import AT_64, DOCUMENTS, HALF, THIN
from reference import EXPONENTIAL_CUT, first, rounds
from rounded import DOWN, UP
from scaled import ZERO

# The numbers of a line.
FIELDS = [
    (side + " " + name + part, part == ".e") for side in ("lower", "upper") for name in ("r", "sum") for part in (".m", ".e")
]
# The lines of an encounter: k from 0 to the cut, and what a begin takes.
LINES = EXPONENTIAL_CUT + 2
# The encounters of one run.
BATCH = scratch.MOST_WRITTEN // (LINES * drivers.line_length(FIELDS))
# The least t, the largest, and t = 1/2.
EDGES = [THIN, AT_64, HALF]
DRAWN = 12


def encounters(rng):
    yield from EDGES
    yield from filter(orders.begun, DOCUMENTS.values())
    for _ in range(DRAWN):
        yield drawn.accepted(rng)
        yield from filter(orders.begun, drawn.near_64(rng))


def lines(encounter):
    """The lines that are due for an encounter."""
    made = [list(itertools.islice(rounds(r, first(r, *encounter).t), EXPONENTIAL_CUT + 1)) for r in (DOWN, UP)]
    # "added likewise for k to 255", and "upper r(256)"
    (_, lower_sum), (_, upper_sum) = [side[EXPONENTIAL_CUT - 1] for side in made]
    r256, _ = made[1][EXPONENTIAL_CUT]
    taken = (ZERO, lower_sum), (r256, upper_sum)
    return [drivers.line(number for side in both for x in side for number in x[:2]) for both in [*zip(*made), taken]]


def run_of(batch):
    """The records and the lines of some encounters."""
    records = b"".join(struct.pack("<IIIii", *encounter) for encounter in batch)
    return records, [line for encounter in batch for line in lines(encounter)]


def compare(folder, batches):
    runs = list(map(run_of, batches))
    for batch, (_, due), differs in zip(batches, runs, scratch.run(folder, runs)):
        if differs:
            at, text = scratch.report(differs, FIELDS, due)
            index, k = divmod(at, LINES)
            place = "at k = %d" % k if k < LINES - 1 else "as a begin takes them"
            print("%s, %s\n%s" % (tuple(batch[index]), place, text))
            sys.exit("rounds: these numbers differ, and perhaps later ones")


def main():
    options = scratch.arguments("Compares the rounds of the exponential with reference.py.")
    print("rounds: seed %d" % options.seed)
    found = list(encounters(random.Random(options.seed)))
    with tempfile.TemporaryDirectory() as name:
        folder = pathlib.Path(name)
        scratch.repository(options.root, folder, drivers.ROUNDS)
        compare(folder, [found[at : at + BATCH] for at in range(0, len(found), BATCH)])
    print("rounds: %d rounds of %d encounters agree" % (EXPONENTIAL_CUT * len(found), len(found)))


if __name__ == "__main__":
    main()
