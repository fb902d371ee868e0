"""The encounters of the documents, those on document 01's edges, and those at the limits of its tests."""

import itertools
import sys
from fractions import Fraction

from exact_series import Encounter
from reference import LARGEST

# Document 000, Table 3: σx, σy, R, xm and ym in metres. Document 003 has Test 1, Chan 1, 5 and 6,
# Alfano 3 and 5 and Custom 1 to 8 in its table "Some more numerical examples", with the same values.
# Document 01 uses Test 1 and both Alfano cases with these digits. Document 001's own table has more digits
# for CSM and Alfano; they are not used.
# Everywhere σx is at least σy, so σx is sx. Every value is a whole number of centimetres: none is rounded.
CASES = """
Test 1    50       1      5     10     0
Chan 1    50       25     5     10     0
Chan 2    50       25     5     0      10
Chan 3    75       25     5     10     0
Chan 4    75       25     5     0      10
Chan 5    3000     1000   10    1000   0
Chan 6    3000     1000   10    0      1000
Chan 7    3000     1000   10    10000  0
Chan 8    3000     1000   10    0      10000
Chan 9    10000    1000   10    10000  0
Chan 10   10000    1000   10    0      10000
Chan 11   3000     1000   50    5000   0
Chan 12   3000     1000   50    0      5000
CSM 1     152.88   57.91  10.3  60.58  84.87
CSM 2     5756.84  15.98  1.3   115.05 -81.61
CSM 3     643.40   94.23  5.3   693.40 102.17
Alfano 3  114.25   1.41   15    0.15   -3.88
Alfano 5  177.81   0.03   10    2.12   -1.22
Custom 1  1        1      10    1      1
Custom 2  1        0.8    10    1      1
Custom 3  1        0.5    10    1      1
Custom 4  1        0.2    10    1      1
Custom 5  1        0.1    10    1      1
Custom 6  0.5      0.1    10    1      1
Custom 7  1        0.05   10    1      1
Custom 8  0.2      0.05   10    1      1
"""


def centimetres(metres):
    value = Fraction(metres) * 100
    if value.denominator != 1:
        sys.exit(f"encounters: {metres} m is not a whole number of centimetres")
    return int(value)


def row(text):
    """The name and the encounter of a row."""
    kind, number, *metres = text.split()
    sx, sy, R, xm, ym = map(centimetres, metres)
    return f"{kind} {number}", Encounter(R, sx, sy, xm, ym)


# By name.
DOCUMENTS = dict(map(row, CASES.split("\n")[1:-1]))

# Document 01 gives these in centimetres.
TEST_1 = Encounter(500, 5000, 100, 1000, 0)
ALFANO_3 = Encounter(1500, 11425, 141, 15, -388)
ALFANO_5 = Encounter(1000, 17781, 3, 212, -122)
IN_CENTIMETRES = {"Test 1": TEST_1, "Alfano 3": ALFANO_3, "Alfano 5": ALFANO_5}

# Those of document 01's edges, the largest inputs, and those of request #109's edge.
HALF = Encounter(10, 10, 10, 0, 0)
FULL = Encounter(8, 1, 1, 8, 0)
PAST_FULL = Encounter(8, 1, 1, 8, 1)
LARGE = Encounter(LARGEST, LARGEST, LARGEST, LARGEST, -LARGEST)
WIDE = Encounter(11, LARGEST, 1, LARGEST, -1)
# Request #109: M is 513, so it is read at the largest order and at no other; t is 63. Then t is 64, and M is 512.1.
LATEST = Encounter(18, 4, 3, 36, 9)
AT_64 = Encounter(152, 28, 19, 224, 0)
EDGES = {
    "Edge 1": HALF,
    "Edge 2": FULL,
    "Edge 3": FULL._replace(xm=-FULL.xm),
    "Edge 4": PAST_FULL,
    "Edge 5": LARGE,
    "Edge 6": WIDE,
    "Edge 7": LATEST,
    "Edge 8": AT_64,
}
# Others.
SMALL = Encounter(7, 9, 5, -4, 3)
THIN = Encounter(1, LARGEST, LARGEST, 0, 0)

# Request #105: five exact terms. c(0) is lost. b is lost, and xm is 0. p(1) is lost, and c(1) is not.
FIVE = Encounter(3, 4, 3, 8, 0)
THIRDS = Encounter(1, 3, 1, 0, 0)
LOST_B = Encounter(131071, 131072, 131071, 0, 0)
LOST_P = Encounter(255, 256, 256, 0, 0)

# Encounter, end, side, class: at N = 1 that end is the scaled number next to 1/10,000 on that side, and the read has that
# class. No scaled number is 1/10,000 itself.
AT_THRESHOLD = [
    (Encounter(49648, 4009479, 1240824, 0, 1670613), "lower", "below", "open"),
    (Encounter(56523, 3349850, 1200523, 0, 1993155), "lower", "above", "alert"),
    (Encounter(31989, 4943591, 778307, 0, 588290), "upper", "below", "clear"),
    (Encounter(29759, 4811676, 915563, 0, 94915), "upper", "above", "open"),
]
# Request #111: the largest upper end that was found, about 6.9 × 10^114, at N = 1,024, and the smallest ends, about
# 9 × 10^-42, at N = 1. The first has an M next to 513; with sx = sy and u² − u next to 513 its c(0)/e^t is large.
HIGHEST = Encounter(9935512, 1460000, 1460000, 9496745, 0)
LOWEST = Encounter(1, LARGEST, 887356, 9999905, 9999995)
# The ends are on both sides of 1/10,000 at every order.
ASTRIDE = Encounter(1302, 92063, 92063, 0, 0)
# Clear from N = 3 to 10; then rounding has lifted the upper end to 1/10,000. The advised order is 13.
CLEAR_THEN_OPEN = Encounter(40441, 3307228, 1493769, 3009313, 633409)

# The probability to the printed digits. Document 001, Table 3, "Reference": Chan 1 to 12, whose inputs are
# those above. Document 000, Figure 1d: Test 1.
PROBABILITY = {
    "Test 1": "7.6474e-02",
    "Chan 1": "9.742e-03",
    "Chan 2": "9.181e-03",
    "Chan 3": "6.571e-03",
    "Chan 4": "6.125e-03",
    "Chan 5": "1.577e-05",
    "Chan 6": "1.011e-05",
    "Chan 7": "6.443e-08",
    "Chan 8": "3.219e-27",
    "Chan 9": "3.033e-06",
    "Chan 10": "9.656e-28",
    "Chan 11": "1.039e-04",
    "Chan 12": "1.564e-09",
}

# The limits of tests 3 to 6 with their neighbours, and what 32 bits hold.
SIZES = [0, 1, LARGEST, LARGEST + 1, (1 << 32) - 1]
MISSES = [-(1 << 31), -LARGEST - 1, -LARGEST, -LARGEST + 1, -1, 0, 1]
MISSES += [LARGEST - 1, LARGEST, LARGEST + 1, (1 << 31) - 1]


def at_limits():
    """The limits of tests 3 to 6, alone and together."""
    for R, sx, sy in itertools.product(SIZES, repeat=3):
        yield Encounter(R, sx, sy, 0, 0)
    far = [(0, 0), (0, LARGEST + 1), (-LARGEST - 1, 0), (LARGEST + 1, -LARGEST - 1)]
    sizes = [0, 10, LARGEST + 1]
    for R, sx, sy, misses in itertools.product(sizes, sizes, [0, 9, 10, 11, LARGEST + 1], far):
        yield Encounter(R, sx, sy, *misses)
    for sx in 1, 2, 3, 1000, LARGEST - 1, LARGEST:
        for sy in sx + 1, sx, sx - 1:
            yield Encounter(sx, sx, sy, 0, 0)
    # With sigmas of 10,000,000 test 6 alone refuses; with sigmas of 100, test 7 what 6 does not.
    for xm, ym in itertools.product(MISSES, repeat=2):
        yield Encounter(LARGEST, LARGEST, LARGEST, xm, ym)
    for miss in MISSES:
        for misses in (miss, 0), (0, miss), (miss, miss):
            yield Encounter(100, 100, 99, *misses)
