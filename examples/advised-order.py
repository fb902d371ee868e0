#!/usr/bin/env python3
"""Asks for the advised order of an encounter, adds terms up to it, and reads.

    python3 examples/advised-order.py R sx sy xm ym [--script FILE]

Lengths are whole centimetres. With --script it also writes a script of the same begin, add and read, for ./screen.
examples/advised-order.md is the text on it. It calls the library by bindings/python/jinthuol.py, after
`tools/build jinthuol`.

Exit status: 0 the encounter was read; 1 it was not, and what is printed says why; 2 wrong use, or a file that cannot
be written.
"""

import argparse
import pathlib
import struct
import sys

sys.dont_write_bytecode = True
import library
import make

CLASSES = {
    "alert": "the probability is at least 1/10,000",
    "clear": "the probability is below 1/10,000",
    "open": "this read does not tell on which side of 1/10,000 the probability is; one with fewer terms may",
}


def arguments():
    description = "Asks for the advised order of an encounter, adds terms up to it, and reads."
    parser = argparse.ArgumentParser(description=description, epilog="Lengths are whole centimetres.")
    parser.add_argument("R", type=int, help="the combined radius")
    parser.add_argument("sx", type=int, help="the larger standard deviation")
    parser.add_argument("sy", type=int, help="the smaller standard deviation")
    parser.add_argument("xm", type=int, help="the mean miss along x")
    parser.add_argument("ym", type=int, help="the mean miss along y")
    words = "where a script of begin, add and read is written to; a file of that name is replaced"
    parser.add_argument("--script", metavar="FILE", type=pathlib.Path, help=words)
    found = parser.parse_args()
    inputs = found.R, found.sx, found.sy, found.xm, found.ym
    try:
        make.begin(*inputs)
    except struct.error:
        parser.error("a number does not fit 32 bits, or R, sx or sy is negative")
    return inputs, found.script


def not_read(path, why):
    print(f"Not read. {why}")
    if path:
        print("No script is written.")
    sys.exit(1)


def main():
    inputs, path = arguments()
    jinthuol = library.load("advised-order.py")
    session = jinthuol.Session.empty()
    begun = session.begin(jinthuol.Encounter(*inputs))
    advice = session.advise()
    if begun.refusal:
        print(f"The begin was {begun}.")
        print(f"No encounter is begun, so the question for an order was {advice}.")
        not_read(path, "A refusal says nothing about the probability.")
    if not advice.order:
        print("No order is advised: M is above 256.")
        not_read(path, "README.md, 'How many terms', has what to do.")
    count = advice.order - begun.N
    session.add(count)
    print(f"Advised: order {advice.order}. The begin has {begun.N} term; {count} more are added.")
    # At the advised order no read is refused: that is proved.
    read = session.read()
    lower, upper = read.decimals
    print(f"Read with {read.N} terms: the probability is from {lower} to {upper}.")
    print(f"The class is {read.class_name}: {CLASSES[read.class_name]}.")
    if path:
        try:
            path.write_bytes(make.begin(*inputs) + make.add(count) + make.read())
        except OSError as error:
            print(f"advised-order.py: {path}: {error.strerror}", file=sys.stderr)
            sys.exit(2)


if __name__ == "__main__":
    main()
