#!/usr/bin/env python3
"""Compares the decimals of crate `encounter` (request #103), digits and power, with decimals.py.

    python3 tests/digits.py [--root FOLDER] [--seed N]

The numbers are those of ends.py, each as a lower and as an upper end; every power that is printed and every k that a
number below 1 can have is among them. scratch.py runs a program that asks for each, interpreted and compiled.
"""

import random
import struct
import sys
from typing import NamedTuple

sys.dont_write_bytecode = True
import decimals
import drivers
import ends
import scaled
import scratch
from scaled import Scaled

# The numbers of a line.
FIELDS = [("digits", False), ("power", False)]


class Case(NamedTuple):
    up: bool
    x: Scaled


def all_cases(seed):
    """In both directions, none twice."""
    found = dict.fromkeys(ends.numbers(random.Random(seed)))
    return [Case(up, x) for x in found for up in (False, True)]


# What of the request the cases are to have, in each direction. No k is below 3, and a lower end below 1 times 1,000 stays
# below 1,000: its k is not 3.
KS = {(up, "k", k) for up in (False, True) for k in range(4 - up, decimals.LAST + 1)}
POWERS = {(up, "power", power) for up in (False, True) for power in range(decimals.LAST - 2)}
OTHERS = {(up, "is", what) for up in (False, True) for what in ("1 or more", "without k", "zero", "10,000")}
OTHERS |= {(True, "prints", digits) for digits in (10_000, 10_001)}


def shown_by(case):
    """What of the request a case has."""
    up, x = case.up, decimals.in_form(case.x)
    yield up, "power", decimals.decimal(*case).power
    if decimals.at_least(x, scaled.ONE):
        yield up, "is", "1 or more"
        return
    k = decimals.least_power(up, x)
    if k is None:
        yield up, "is", "zero" if x == scaled.ZERO else "without k"
        return
    yield up, "k", k
    w = decimals.whole_part(decimals.times_power(up, x, k))
    if w == 10_000:
        yield up, "is", "10,000"
    if decimals.digits_of(up, w) >= 10_000:
        yield up, "prints", decimals.digits_of(up, w)


# The run.


def record(case):
    return struct.pack("<BIi", case.up, *case.x)


def due(case):
    return decimals.decimal(*case)


def said(case):
    return "%d × 2^%d as %s end" % (*case.x, "an upper" if case.up else "a lower")


def main():
    options = scratch.arguments("Compares the decimals of crate encounter with decimals.py.")
    print("digits: seed %d" % options.seed)
    cases = all_cases(options.seed)
    shown, wanted = {what for case in cases for what in shown_by(case)}, KS | POWERS | OTHERS
    if shown != wanted:
        sys.exit("digits: what no case has, or none may have: %s" % sorted(shown ^ wanted, key=str))
    scratch.compare("digits", options.root, drivers.DECIMALS, FIELDS, cases, record, due, said)
    print("digits: %d decimals agree" % len(cases))


if __name__ == "__main__":
    main()
