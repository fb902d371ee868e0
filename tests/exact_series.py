"""The exact series and the exact exponential of document 01, section "The exact series".

Nothing here is rounded. A sum is a pair of whole numbers, the numerator and a denominator above 0, not
reduced. "Two fractions are compared by multiplying crosswise."

The series is summed without its long convolution. Document 01 has
    F(k) = u^(k+1) + h^(k+1)/2 + X(k+1)h^k, and F(0) has Y added.
So F(0)a(n) + .. + F(n)a(0) = P(n) + h/2 × V(n) + X × W(n) + Y × a(n), where
    P(n) = the sum of u^(k+1) a(n−k) = u × (a(n) + P(n−1)),
    V(n) = the sum of h^k a(n−k) = a(n) + h × V(n−1),
    W(n) = the sum of (k+1) h^k a(n−k) = V(n) + h × W(n−1),
each sum for k from 0 to n, and P(−1) = V(−1) = W(−1) = 0. These are equations between exact fractions.
With q a common denominator of u, h/2, X and Y, the fraction a(n)/a(0) has denominator q^n n!. So each step
multiplies long whole numbers by short ones only. `by_definition` forms the same sums by the convolution itself.
"""

from fractions import Fraction
from math import factorial, lcm
from typing import NamedTuple

from scaled import BITS


class Encounter(NamedTuple):
    """The five inputs in whole centimetres."""

    R: int
    sx: int
    sy: int
    xm: int
    ym: int


class Letters(NamedTuple):
    """The scaled letters of the exact series, and a(0)."""

    u: Fraction
    h: Fraction
    X: Fraction
    Y: Fraction
    t: Fraction
    a0: Fraction


def letters(encounter):
    R, sx, sy, xm, ym = encounter
    u = Fraction(R * R, 2 * sy * sy)
    b = Fraction(R * R, 2 * sx * sx)
    zx = Fraction(xm * xm, 2 * sx * sx)
    zy = Fraction(ym * ym, 2 * sy * sy)
    g = Fraction(sx * sx - sy * sy, sx * sx)
    return Letters(u, u * g, zx * b, zy * u, zx + zy + u, Fraction(R * R, 2 * sx * sy))


def series_sums(encounter):
    """The series cut at 1, 2, 3, ..: one pair for each, without end."""
    u, h, X, Y, _, a0 = letters(encounter)
    q = lcm(u.denominator, (h / 2).denominator, X.denominator, Y.denominator)
    # u, h, h/2, X and Y times q, all whole.
    qu, qh, qg, qX, qY = (int(f * q) for f in (u, h, h / 2, X, Y))
    # a, V and W are numerators over q^n n!, P is one over q^(n+1) n!, all as parts of a(0).
    a, P, V, W = 1, 0, 0, 0
    # The sum of a(k)/(k+1)! is total over q^n n! (n+1)!.
    total, below = 1, 1
    n = 0
    while True:
        yield total * a0.numerator, below * a0.denominator
        P = qu * (a + n * P)
        V = a + qh * n * V
        W = V + qh * n * W
        a = P + qg * V + qX * W + qY * a
        n += 1
        factor = q * n * (n + 1)
        total = total * factor + a
        below *= factor


def series_at(encounter, cuts):
    """The series at each of the cuts, as a dictionary."""
    cuts = set(cuts)
    last = max(cuts)
    sums = {}
    for N, pair in enumerate(series_sums(encounter), 1):
        if N in cuts:
            sums[N] = pair
        if N == last:
            return sums


def series(encounter, N):
    """The sum of c(0) to c(N−1)."""
    return series_at(encounter, [N])[N]


def exponential(encounter, K):
    """The sum of t^k/k! for k from 0 to K−1."""
    t = letters(encounter).t
    total, term, below = 1, 1, 1
    for k in range(1, K):
        term *= t.numerator
        total = total * k * t.denominator + term
        below *= k * t.denominator
    return total, below


def by_definition(encounter, N):
    """The terms c(0) to c(N−1), by the convolution; for a small N."""
    u, h, X, Y, _, a0 = letters(encounter)
    # "h^0 is 1 even where h is 0": so it is in Python too.
    F = [u ** (k + 1) + h ** (k + 1) / 2 + X * (k + 1) * h**k for k in range(N)]
    F[0] += Y
    a = [a0]
    for n in range(N - 1):
        a.append(sum(F[k] * a[n - k] for k in range(n + 1)) / (n + 1))
    return [a[n] / factorial(n + 1) for n in range(N)]


def fits(q):
    """Whether a fraction is a scaled number: an m below 2^32 times a power of two."""
    n, d = q.numerator, q.denominator
    # Of the largest odd divisor of n, or of 0.
    bits = n.bit_length() - (n & -n).bit_length() + 1 if n else 0
    return bits <= BITS and d & (d - 1) == 0


def exact_terms(encounter, N):
    """Request #105: "the count of leading terms, of the N summed, on whose way, on either side, nothing was lost".

    Also whether nothing was lost on the way to what the next term is formed of. By the rounded steps on exact
    fractions: while nothing is lost the numbers of both sides are these fractions, so a rounding loses something just
    where its fraction is no scaled number.
    """
    R, sx, sy, xm, ym = encounter
    c = Fraction(R * R, 2 * sx * sy)
    if not fits(c):
        return 0, False
    u, b = Fraction(R * R, 2 * sy * sy), Fraction(R * R, 2 * sx * sx)
    zx, zy = Fraction(xm * xm, 2 * sx * sx), Fraction(ym * ym, 2 * sy * sy)
    g = Fraction(sx * sx - sy * sy, sx * sx)
    h, X, Y = u * g, zx * b, zy * u
    p, v, y = u * c, c, c
    # What is rounded on the way of the next term and not on that of an earlier one.
    way = [u, b, zx, zy, g, h, X, Y, p]
    for n in range(1, N):
        # From c, p, v and y at n − 1 to c(n).
        hv, hy, Xy, Yc = h * v, h * y, X * y, Y * c
        sums = p + hv / 2, p + hv / 2 + Xy, p + hv / 2 + Xy + Yc
        c = sums[-1] / (n * (n + 1))
        if not all(map(fits, [*way, hv, Xy, Yc, *sums, c])):
            return n, False
        # And to p, v and y at n, which c(n+1) is formed of.
        parts = p / (n + 1), hv / (n + 1), hy / (n + 1)
        p, v = u * (c + parts[0]), c + parts[1]
        y = v + parts[2]
        way = [hy, *parts, c + parts[0], p, v, y]
    return N, all(map(fits, way))


def at_most(p, q):
    """Whether the fraction p is at most the fraction q, both as pairs."""
    return p[0] * q[1] <= q[0] * p[1]


def scaled_pair(a):
    """An end (m, e) or a number of rounded.py as a pair."""
    m, e = a[:2]
    return (m << e, 1) if e >= 0 else (m, 1 << -e)


def between(lower, series, exponential, upper):
    """Whether series over exponential is between the two ends, both included; the ends are scaled numbers."""
    quotient = series[0] * exponential[1], series[1] * exponential[0]
    return at_most(scaled_pair(lower), quotient) and at_most(quotient, scaled_pair(upper))
