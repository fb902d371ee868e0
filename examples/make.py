#!/usr/bin/env python3
"""Writes the example scripts.

    python3 examples/make.py [FOLDER]

The folder is this one where none is named; it must be there. A script is records one after another: a byte of kind,
then the body, numbers little-endian. Lengths are whole centimetres.
"""

import argparse
import pathlib
import struct


def begin(R, sx, sy, xm, ym):
    """Kind 1: three unsigned and two signed 32-bit numbers. The order is 1 from here."""
    return struct.pack("<BIIIii", 1, R, sx, sy, xm, ym)


def add(count):
    """Kind 2: a 16-bit count of terms, from 1 on."""
    return struct.pack("<BH", 2, count)


def read():
    """Kind 3: no body."""
    return struct.pack("<B", 3)


def begin_conjunction(encounter, object, time):
    """Kind 4: the body of kind 1, then an object number and a time of closest approach, both unsigned 32-bit.

    The object number is from 1 on. The time is in minutes from the epoch that the site chooses.
    """
    return struct.pack("<BIIIiiII", 4, *encounter, object, time)


def reads_at(*orders):
    """From order 1: for each order N the terms up to it, and a read."""
    records = b""
    N = 1
    for order in orders:
        if order > N:
            records += add(order - N)
        records += read()
        N = order
    return records


# R, sx, sy, xm, ym. Document 000, Table 3, has these in metres; HALF and FULL are of document 01.
TEST_1 = 500, 5000, 100, 1000, 0
CHAN_1 = 500, 5000, 2500, 1000, 0
CHAN_3 = 500, 7500, 2500, 1000, 0
CHAN_4 = 500, 7500, 2500, 0, 1000
CHAN_5 = 1000, 300000, 100000, 100000, 0
CHAN_6 = 1000, 300000, 100000, 0, 100000
CHAN_7 = 1000, 300000, 100000, 1000000, 0
CHAN_9 = 1000, 1000000, 100000, 1000000, 0
CHAN_11 = 5000, 300000, 100000, 500000, 0
CHAN_12 = 5000, 300000, 100000, 0, 500000
CSM_2 = 130, 575684, 1598, 11505, -8161
CSM_2_MIRRORED = 130, 575684, 1598, 11505, 8161
ALFANO_3 = 1500, 11425, 141, 15, -388
ALFANO_5 = 1000, 17781, 3, 212, -122
HALF = 10, 10, 10, 0, 0
FULL = 8, 1, 1, 8, 0
# Of no document: the class is open at first, and more terms make it alert, make it clear, or leave it open.
OPEN_THEN_ALERT = 1000, 2000, 1700, 1000, 6400
OPEN_THEN_CLEAR = 1000, 3000, 1500, 2000, 5800
ALWAYS_OPEN = 1302, 92063, 92063, 0, 0
# Of no document: ends whose decimals are at an edge. The upper end is just below 1/10,000; just below 1, two steps and one;
# a little below 1/10; the lower end is just above 10^-19; both ends are as small as any that are known.
BELOW_THRESHOLD = 1241890, 5822809, 2710891, 8414864, 9077603
NEXT_BELOW_1 = 7136390, 1648935, 1648935, 323971, 41207
BELOW_1 = 4778498, 1167591, 1167591, 190612, 51940
BELOW_A_POWER = 18579, 95136, 18760, 0, 4640
ABOVE_A_POWER = 632, 5506137, 1379156, 4053824, 9949895
SMALLEST = 1, 10000000, 887356, 9999905, 9999995

# Of no document: five terms are exact, and none; the b of the steps is rounded, and xm is 0.
FIVE_EXACT = 3, 4, 3, 8, 0
NONE_EXACT = 1, 3, 1, 0, 0
ROUNDED_B = 131071, 131072, 131071, 0, 0

# Of no document: three solutions of one encounter.
SOLUTIONS = (1000, 30000, 15000, 20000, 28000), (1000, 30000, 15000, 20000, 40000), (1000, 30000, 15000, -24000, 36000)

# Of no document: a sphere of 160 m around a station. 2M is 1,026 in the first and above it in the second; the third is the
# second with a sphere of 140 m.
AT_TEST_11 = 16000, 2000, 2000, 8000, 7500
ABOVE_TEST_11 = 16000, 1900, 1900, 8000, 7500
SMALLER_SPHERE = 14000, 1900, 1900, 8000, 7500

# Of no document: the upper end is above 1 at first, and far below it at the advised order; it is above 1 at every order.
UNBOUNDED_AT_FIRST = 3000, 2000, 1000, 500, 8000
ALWAYS_UNBOUNDED = 16000, 2000, 2000, 0, 0

# An add with count 0 is refused. Stored scripts may have such adds.
EMPTY_ADD = add(0)
# A line break is no kind of record, so what stands after it is not run.
LEFT_AS_IT_IS = b"\n" + EMPTY_ADD + read()

SCRIPTS = {
    "test-1": begin(*TEST_1) + reads_at(35, 36, 55, 101),
    "chan-1": begin(*CHAN_1) + reads_at(1, 5, 49),
    "chan-5": begin(*CHAN_5) + reads_at(1, 3, 49),
    "alfano-3": begin(*ALFANO_3) + reads_at(596, 597, 765, 1024),
    "alfano-5": begin(*ALFANO_5) + read(),
    "document-01": begin(*FULL) + read() + add(4096) + b"\x09",
    "growing-order": begin(*HALF)
    + reads_at(1, 2, 3, 4, 5, 6, 8, 10, 20)
    + begin(*TEST_1)
    + reads_at(1, 36, 40, 45, 50, 55, 60),
    "open-class": begin(*OPEN_THEN_ALERT)
    + reads_at(1, 2, 17)
    + begin(*OPEN_THEN_CLEAR)
    + reads_at(1, 2, 4, 5, 17)
    + begin(*ALWAYS_OPEN)
    + reads_at(1, 2, 13),
    "decimals": begin(*HALF)
    + reads_at(3, 20)
    + begin(*ALFANO_3)
    + reads_at(597, 765)
    + begin(*BELOW_THRESHOLD)
    + reads_at(1, 14)
    + begin(*NEXT_BELOW_1)
    + reads_at(22)
    + begin(*BELOW_1)
    + reads_at(19)
    + begin(*BELOW_A_POWER)
    + reads_at(1)
    + begin(*ABOVE_A_POWER)
    + reads_at(1)
    + begin(*SMALLEST)
    + reads_at(1),
    "negative-miss": begin(*CSM_2) + reads_at(1, 6) + begin(*CSM_2_MIRRORED) + reads_at(1, 6),
    "shift": begin_conjunction(CHAN_5, 25544, 605)
    + reads_at(13)
    + begin_conjunction(TEST_1, 27386, 642)
    + reads_at(66)
    + begin_conjunction(OPEN_THEN_CLEAR, 43013, 690)
    + reads_at(2, 17)
    + begin_conjunction(CHAN_1, 25544, 698)
    + reads_at(13)
    + begin(*HALF)
    + reads_at(13),
    "refused-object": begin_conjunction(CHAN_5, 25544, 605)
    + reads_at(13)
    + begin_conjunction(TEST_1, 0, 642)
    + read()
    + reads_at(66)
    + begin_conjunction(TEST_1, 27386, 642)
    + reads_at(66),
    "where-rounding-starts": begin(*HALF)
    + reads_at(1, 2, 3, 20)
    + begin(*FIVE_EXACT)
    + reads_at(1, 4, 5, 6, 20)
    + begin(*NONE_EXACT)
    + reads_at(1, 20)
    + begin(*ROUNDED_B)
    + reads_at(1, 2, 20),
    "advised-order": read()
    + begin(*TEST_1)
    + reads_at(20, 36, 66)
    + begin(*OPEN_THEN_CLEAR)
    + reads_at(2, 17)
    + begin(*CHAN_1)
    + reads_at(13)
    + begin(*ALFANO_3)
    + reads_at(597, 911),
    "largest-order": begin_conjunction(AT_TEST_11, 40115, 120)
    + reads_at(1023, 1024)
    + add(1)
    + begin_conjunction(ABOVE_TEST_11, 40116, 131)
    + read()
    + begin_conjunction(SMALLER_SPHERE, 40116, 131)
    + reads_at(957, 1024),
    "equal-weights": b"".join(begin_conjunction(solution, 31140, 1015) + reads_at(13) for solution in SOLUTIONS),
    "plot-records": begin_conjunction(TEST_1, 27386, 642)
    + reads_at(20, 66)
    + begin_conjunction(UNBOUNDED_AT_FIRST, 38752, 655)
    + reads_at(300, 361, 424)
    + begin_conjunction(ALWAYS_UNBOUNDED, 41330, 671)
    + reads_at(101),
    "week": begin_conjunction(CHAN_9, 28230, 95)
    + reads_at(13)
    + begin_conjunction(CHAN_11, 34454, 411)
    + reads_at(13)
    + begin_conjunction(CHAN_12, 16182, 1302)
    + reads_at(13)
    + begin_conjunction(TEST_1, 39452, 3522)
    + reads_at(20, 66)
    + begin_conjunction(CHAN_7, 20580, 4400)
    + reads_at(13)
    + begin_conjunction(CHAN_4, 22675, 7330)
    + reads_at(13)
    + begin_conjunction(CHAN_6, 31793, 8010)
    + reads_at(13)
    + begin_conjunction(CHAN_3, 25400, 10085)
    + reads_at(13),
    "stored-script": begin_conjunction(TEST_1, 27386, 642)
    + EMPTY_ADD
    + read()
    + begin_conjunction(OPEN_THEN_ALERT, 38214, 655)
    + EMPTY_ADD
    + read()
    + begin_conjunction(CHAN_1, 25544, 698)
    + EMPTY_ADD
    + reads_at(13)
    + LEFT_AS_IT_IS,
    "without-empty-adds": begin_conjunction(TEST_1, 27386, 642)
    + read()
    + begin_conjunction(OPEN_THEN_ALERT, 38214, 655)
    + read()
    + begin_conjunction(CHAN_1, 25544, 698)
    + reads_at(13)
    + LEFT_AS_IT_IS,
}


def main():
    here = pathlib.Path(__file__).resolve().parent
    parser = argparse.ArgumentParser(description="Writes the example scripts: " + ", ".join(SCRIPTS) + ".")
    parser.add_argument("folder", nargs="?", type=pathlib.Path, default=here, help="where to; examples/ if not named")
    folder = parser.parse_args().folder
    if not folder.is_dir():
        parser.error(f"{folder} is no folder")
    for name, script in SCRIPTS.items():
        (folder / f"{name}.script").write_bytes(script)


if __name__ == "__main__":
    main()
