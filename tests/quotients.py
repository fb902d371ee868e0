#!/usr/bin/env python3
"""Compares the division of crate `division` (request #107), the refusal and the quotient, with division.py.

    python3 tests/quotients.py [--root FOLDER] [--seed N]

The numbers and divisors are those of division.py, in both directions. scratch.py runs a program that divides each,
interpreted and compiled.
"""

import random
import struct
import sys

sys.dont_write_bytecode = True
import division
import drivers
import scratch

# The numbers of a line.
FIELDS = [("refusal", False), ("m", False), ("e", True)]


def record(case):
    return struct.pack("<BIiI", case.up, *case.number, case.divisor)


def due(case):
    refusal, quotient = division.divided(*case)
    return [refusal, *quotient]


def said(case):
    up, number, divisor = case
    return "%d × 2^%d / %d, rounded %s" % (*number, divisor, "up" if up else "down")


def main():
    options = scratch.arguments("Compares the division of crate division with division.py.")
    print("quotients: seed %d" % options.seed)
    cases = division.cases(random.Random(options.seed))
    shown = {what for case in cases for what in division.shown_by(case)}
    if shown != division.DUE:
        sys.exit("quotients: what no case has, or none may have: %s" % sorted(shown ^ division.DUE, key=str))
    scratch.compare("quotients", options.root, drivers.DIVISION, FIELDS, cases, record, due, said)
    print("quotients: %d divisions agree" % len(cases))


if __name__ == "__main__":
    main()
