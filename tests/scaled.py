"""The scaled numbers of document 01, section "Scaled numbers", by exact arithmetic.

Every operation is D or U of the exact result; `up` is false for D and true for U.
An exact result is a fraction q and a whole shift, and is worth q × 2^shift. As e "has no range" in the
definitions of D and U, the shift is only added to e. So a large power of two need not be formed.
"""

from fractions import Fraction
from typing import NamedTuple

# "The unsigned m is at least 2^31 and below 2^32".
BITS = 32
LEAST = 1 << (BITS - 1)
LIMIT = 1 << BITS


# "A scaled number is m × 2^e."
class Scaled(NamedTuple):
    m: int
    e: int


# "Zero has m = 0 and e = 0 and no other form."
ZERO = Scaled(0, 0)
ONE = Scaled(LEAST, 1 - BITS)


def is_scaled(a):
    """Whether m and e have one of the two forms."""
    return a == ZERO or LEAST <= a.m < LIMIT


def power(k):
    """2^k."""
    return Fraction(1 << k) if k >= 0 else Fraction(1, 1 << -k)


def value(a):
    """m × 2^e as a fraction."""
    return a.m * power(a.e)


def parts(q, e):
    """The whole part and the remainder of q / 2^e; the remainder is 0 just where the quotient is whole."""
    if e < 0:
        return divmod(q.numerator << -e, q.denominator)
    return divmod(q.numerator, q.denominator << e)


def normal(q):
    """For q above 0: the e for which the whole part of q / 2^e is an m, with that m and the remainder."""
    e = q.numerator.bit_length() - q.denominator.bit_length() - BITS
    m, rest = parts(q, e)
    if m >= LIMIT:
        e += 1
        m, rest = parts(q, e)
    return m, e, rest


def down(q, shift=0):
    """D(q × 2^shift): "the greatest scaled number not above the exact nonnegative fraction"."""
    if q == 0:
        return ZERO
    m, e, _ = normal(q)
    return Scaled(m, e + shift)


def above(a):
    """The next scaled number above a, where a is not zero."""
    return Scaled(LEAST, a.e + 1) if a.m + 1 == LIMIT else Scaled(a.m + 1, a.e)


def upward(q, shift=0):
    """U(q × 2^shift): "the least one not below it"."""
    if q == 0:
        return ZERO
    m, e, rest = normal(q)
    a = Scaled(m, e + shift)
    return above(a) if rest else a


def rounded(up, q, shift=0):
    """U where up is true, else D."""
    return upward(q, shift) if up else down(q, shift)


def below(a):
    """The next scaled number below a, where a is not zero."""
    return Scaled(LIMIT - 1, a.e - 1) if a.m == LEAST else Scaled(a.m - 1, a.e)


def is_rounded(up, a, q):
    """Whether a is rounded(up, q), by the definition: a is on its side of q, and the next one beyond a is not."""
    if a == ZERO or q == 0:
        return a == ZERO and q == 0
    if up:
        return is_scaled(a) and value(below(a)) < q <= value(a)
    return is_scaled(a) and value(a) <= q < value(above(a))


# The exact results, each as a fraction and a shift.


def exact_product(a, b):
    return Fraction(a.m * b.m), a.e + b.e


def aligned(a, b):
    """Whole x, y and a shift, with a = x × 2^shift and b = y × 2^shift."""
    shift = min(a.e, b.e)
    return a.m << (a.e - shift), b.m << (b.e - shift), shift


def exact_sum(a, b):
    # Zero's e is no part of its value, so it is left out of the alignment.
    if ZERO in (a, b):
        return Fraction(a.m + b.m), a.e + b.e
    x, y, shift = aligned(a, b)
    return Fraction(x + y), shift


def exact_over(a, k):
    return Fraction(a.m, k), a.e


def exact_quotient(a, b):
    return Fraction(a.m, b.m), a.e - b.e


def exact_double(a):
    return Fraction(a.m * 2), a.e


# The operations.


def product(up, a, b):
    return rounded(up, *exact_product(a, b))


def plus(up, a, b):
    return rounded(up, *exact_sum(a, b))


def over(up, a, k):
    """a / k, for a whole k above 0."""
    return rounded(up, *exact_over(a, k))


def quotient(up, a, b):
    return rounded(up, *exact_quotient(a, b))


def ratio(up, n, d):
    """n / d, for whole n and a whole d above 0."""
    return rounded(up, Fraction(n, d))


# "Halving and doubling are exact": D and U are the same there.


def halved(a):
    return down(*exact_over(a, 2))


def doubled(a):
    return down(*exact_double(a))


# "Zero, one and a whole number are scaled numbers too, where they fit."


def whole(n):
    return down(Fraction(n))


def at_most(a, b):
    """Whether a is at most b."""
    if ZERO in (a, b):
        return a.m <= b.m
    x, y, _ = aligned(a, b)
    return x <= y
