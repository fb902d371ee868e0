#!/usr/bin/env python3
"""Compares the table of orders of crate `advice` (request #106), each of its 256 entries, with advice.py.

    python3 tests/table.py [--root FOLDER]

scratch.py runs a program that writes the entries, interpreted and compiled.
"""

import sys

sys.dont_write_bytecode = True
import drivers
import scratch
from advice import ORDERS

# The numbers of a line.
FIELDS = [("order", False)]


# Of a case, which is an index of the table.


def record(index):
    return bytes([index])


def due(index):
    return [ORDERS[index]]


def said(index):
    return "M = %d" % (index + 1)


def main():
    options = scratch.arguments("Compares the table of orders of crate advice with advice.py.")
    scratch.compare("table", options.root, drivers.ORDERS, FIELDS, range(len(ORDERS)), record, due, said)
    print("table: %d orders agree" % len(ORDERS))


if __name__ == "__main__":
    main()
