"""The decimals of request #103 of document 02, "Decimals for the controllers".

`up` is false for a lower end and true for an upper one. A number is a pair (m, e) of 32 bits each, worth m × 2^e. An
end of a read is in the scaled form, and another number need not be. The arithmetic is that of rounded.py.
"""

from fractions import Fraction
from typing import NamedTuple

import scaled
from rounded import DOWN, UP
from scaled import Scaled

# "A table of 10^0 to 10^46, each as D and as U"
LAST = 46
TABLE = {up: [scaled.ratio(up, 10**k, 1) for k in range(LAST + 1)] for up in (False, True)}
THOUSAND = scaled.whole(1000)


class Decimal(NamedTuple):
    """Worth d.ddd × 10^-power, where digits is dddd."""

    digits: int
    power: int


# "An end of 1 or more prints as 1.000e-00."
ONE_OR_MORE = Decimal(1000, 0)
# Where the table has no k. No accepted read has such an end, and the request leaves these open: zero is NOTHING, and
# another number is NOTHING as a lower one and SMALLEST as an upper one.
NOTHING = Decimal(0, 0)
SMALLEST = Decimal(1000, LAST - 3)


def in_form(x):
    """The scaled number that x is worth: m has at most 32 bits, so D changes nothing."""
    m, e = x
    return scaled.down(Fraction(m), e)


def at_least(a, b):
    """Whether a is at least b, for two scaled numbers, b above 0: the e tells, and where it is the same the m."""
    return a[0] > 0 and (a[1], a[0]) >= (b[1], b[0])


# "the end times the table's 10^k [..], rounding down throughout for the lower end and up for the upper"
def times_power(up, x, k):
    # What is lost there is not asked.
    m, e, _ = (UP if up else DOWN).product((*x, False), (*TABLE[up][k], False))
    return m, e


# "take the least k for which the end times the table's 10^k is at least 1,000"
def least_power(up, x):
    """None where the table has no such k."""
    return next((k for k in range(LAST + 1) if at_least(times_power(up, x, k), THOUSAND)), None)


def whole_part(a):
    """Of a number with e at most 0."""
    m, e = a
    return m >> -e


# "The lower digits are the whole part, or 9,999 where that is 10,000. The upper digits are the whole part plus one"
def digits_of(up, w):
    if up:
        return w + 1
    return 9999 if w == 10_000 else w


# "Other ends print as d.ddd, then `e-` and k − 3"; "10,000 prints as 1.000 and 10,001 as 1.001, with the power one
# higher."
def at_power(digits, k):
    return Decimal(digits, k - 3) if digits < 10_000 else Decimal(digits - 9000, k - 4)


def decimal(up, x):
    x = in_form(x)
    if at_least(x, scaled.ONE):
        return ONE_OR_MORE
    k = least_power(up, x)
    if k is None:
        return SMALLEST if up and x != scaled.ZERO else NOTHING
    return at_power(digits_of(up, whole_part(times_power(up, x, k))), k)


# "d.ddd, then `e-` and k − 3 in two decimal digits"
def text(a):
    return f"{a.digits // 1000}.{a.digits % 1000:03}e-{a.power:02}"


# What the promises of the request are about.


def unit(a):
    """One in the last digit."""
    return Fraction(1, 10 ** (a.power + 3))


def value(a):
    return a.digits * unit(a)


def off(a, x):
    """How far a decimal is from the number x, in units of its last digit."""
    return abs(value(a) - scaled.value(Scaled(*x))) / unit(a)
