"""Request #108 of document 02, by exact fractions: the ends of a read as doubles, and the record that is stored.

A double is the fraction that it is worth.
"""

from fractions import Fraction
from typing import NamedTuple

import scaled
from scaled import Scaled, power

# A double above 0 is k × 2^e: k has 53 bits, or fewer where e is −1074, and e is at most 971.
BITS = 53
LEAST_E, LARGEST_E = -1074, 971


class Doubles(NamedTuple):
    """A refusal's number, or 0; then the lower and the upper end, None where it is not there."""

    refusal: int = 0
    lower: Fraction | None = None
    upper: Fraction | None = None


# "a record of the object number, two doubles and their difference"
class PlotRecord(NamedTuple):
    object: int
    lower: Fraction
    upper: Fraction
    difference: Fraction


class Plotted(NamedTuple):
    """A refusal's number, or 0; then the record, or None."""

    refusal: int = 0
    record: PlotRecord | None = None


def of_read(read):
    """The ends as doubles, for the answer of a read."""
    # "The host call works on a session and refuses as a read does, with no double in the answer."
    if read.refusal:
        return Doubles(read.refusal)
    # "Each double equals its scaled number exactly."
    lower, upper = (scaled.value(Scaled(*end)) for end in (read.lower, read.upper))
    # "either both ends or, where the upper end is 1 or more, `unbounded` with the lower end alone"
    return Doubles(0, lower, upper if upper < 1 else None)


def record_of(read):
    """The record, for the answer of a read."""
    refusal, lower, upper = of_read(read)
    # "An unbounded answer has no such record."
    if upper is None:
        return Plotted(refusal)
    # "their difference, which is one double subtraction of lower from upper"
    return Plotted(0, PlotRecord(read.object, lower, upper, nearest(upper - lower)))


def parts(q):
    """For q above 0: the e of the doubles about q, and the whole part and the rest of q / 2^e."""
    e = max(q.numerator.bit_length() - q.denominator.bit_length() - BITS, LEAST_E)
    if q >= power(e + BITS):
        e += 1
    k = q / power(e)
    return e, k.numerator // k.denominator, k - k.numerator // k.denominator


def nearest(q):
    """The double nearest to q, which is 0 or above it; where two are equally near, the one whose k is even."""
    if q == 0:
        return q
    e, k, rest = parts(q)
    if rest > Fraction(1, 2) or (rest == Fraction(1, 2) and k % 2):
        k += 1
    return k * power(e)


def rounded(q):
    """How the nearest double is got from q: `exact`, `down`, `up`, and in a tie `even below` or `even above`."""
    rest = parts(q)[2] if q else 0
    if rest == 0:
        return "exact"
    below = nearest(q) < q
    if rest == Fraction(1, 2):
        return "even below" if below else "even above"
    return "down" if below else "up"


def bits(q):
    """The 64 bits of the double that q is, 0 or above it."""
    if q == 0:
        return 0
    e, k, rest = parts(q)
    # From the second e on k's highest bit is not stored; it is one in the field of e.
    if rest or e > LARGEST_E:
        raise ValueError(f"{q} is no double")
    return ((e - LEAST_E) << (BITS - 1)) + k
