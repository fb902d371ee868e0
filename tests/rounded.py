"""D and U of document 01, section "Scaled numbers", on whole numbers alone, for reference.py.

A number is a triple (m, e, lost): a scaled number, worth m × 2^e, and whether anything was lost on its way. Request
#105: "Every rounding must say whether it lost anything, and everything built on rounding must pass that on." A rounding
loses something where its value is not the exact fraction that it rounds. So an operation's answer has lost something
where one of its operands has, also where the other one is zero, or where its own rounding does.

scaled.py has D and U by exact fractions, and self_test.py compares the two.
"""

from typing import Callable, NamedTuple

from scaled import BITS, LEAST, LIMIT

ZERO = (0, 0, False)
ONE = (LEAST, 1 - BITS, False)


class Rounding(NamedTuple):
    """The operations of one side: each is D, or each is U, of the exact result."""

    ratio: Callable
    product: Callable
    plus: Callable
    over: Callable
    quotient: Callable


def rounding(up):
    """The operations with D, or with U where up is true."""

    def rounded(x, e, lost):
        """D or U of x × 2^e, for a whole x on whose way something was lost or not."""
        s = x.bit_length() - BITS
        if s <= 0:
            return (x << -s, e + s, lost) if x else (0, 0, lost)
        m = x >> s
        if m << s == x:
            return m, e + s, lost
        if up:
            m += 1
        return (m, e + s, True) if m < LIMIT else (LEAST, e + s + 1, True)

    def divided(x, k, e, lost):
        """D or U of x / k × 2^e, for a whole k above 0, where x is 0 or x / k is at least 2^31.

        The whole part of the quotient is taken first (for U, the least whole number not below it). This does not change
        the answer: D and U keep 32 bits, so from there on they drop whole bits only.
        """
        q, rest = divmod(x, k)
        if rest:
            return rounded(q + 1 if up else q, e, True)
        return rounded(q, e, lost)

    def ratio(n, d):
        """n / d, for whole n and a whole d above 0."""
        s = max(0, BITS + d.bit_length() - n.bit_length())
        return divided(n << s, d, -s, False)

    def product(a, b):
        return rounded(a[0] * b[0], a[1] + b[1], a[2] or b[2])

    def plus(a, b):
        lost = a[2] or b[2]
        if not a[0]:
            return b[0], b[1], lost
        if not b[0]:
            return a[0], a[1], lost
        if a[1] < b[1]:
            a, b = b, a
        gap = a[1] - b[1]
        if gap > BITS:
            # b is below half a unit of a's m, so the sum rounds as if b were just that half.
            return rounded(2 * a[0] + 1, a[1] - 1, lost)
        return rounded((a[0] << gap) + b[0], b[1], lost)

    def over(a, k):
        """a / k, for a whole k above 0."""
        s = k.bit_length()
        return divided(a[0] << s, k, a[1] - s, a[2])

    def quotient(a, b):
        """a / b, for b above 0."""
        return divided(a[0] << BITS, b[0], a[1] - b[1] - BITS, a[2] or b[2])

    return Rounding(ratio, product, plus, over, quotient)


DOWN = rounding(False)
UP = rounding(True)


# "Halving and doubling are exact."


def halved(a):
    return (a[0], a[1] - 1, a[2]) if a[0] else a


def doubled(a):
    return (a[0], a[1] + 1, a[2]) if a[0] else a


# Of a number, or of an end, which is a pair (m, e).


def at_least(a, n, d=1):
    """Whether a is at least n / d, for whole n and a whole d above 0."""
    m, e = a[:2]
    return m * d >= n << -e if e < 0 else (m << e) * d >= n


def above(a, n):
    """Whether a is above the whole number n."""
    m, e = a[:2]
    return m > n << -e if e < 0 else m << e > n
