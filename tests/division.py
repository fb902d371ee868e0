"""Request #107 of document 02, by exact arithmetic: the division of a scaled number by a whole number, and the numbers
and divisors at which it is tried.

"With an unsigned 32-bit divisor it answers D or U of the exact quotient, as asked. It refuses, as 10 and with zero as the
result, a divisor of 0, a number not in the scaled form, or one whose e is below −1,000,000,000."
"""

import itertools
from typing import NamedTuple

import drawn
import edges
import scaled
from reference import LARGEST_N
from scaled import LEAST, LIMIT, ZERO, Scaled

LOWEST = -1_000_000_000


class Divided(NamedTuple):
    """The refusal's number, or 0, and the quotient."""

    refusal: int
    quotient: Scaled


class Case(NamedTuple):
    up: bool
    number: Scaled
    divisor: int


REFUSED = Divided(10, ZERO)


def divided(up, number, divisor):
    if divisor == 0 or not scaled.is_scaled(number) or number.e < LOWEST:
        return REFUSED
    quotient = scaled.over(up, number, divisor)
    # By the definition of D and U, with 2^e divided out.
    q, shift = scaled.exact_over(number, divisor)
    assert scaled.is_rounded(up, quotient if quotient == ZERO else quotient._replace(e=quotient.e - shift), q)
    return Divided(0, quotient)


# At every limit of m, e and the divisor, and beside it.
MANTISSAS = (0, 1, 2, LEAST - 2, LEAST - 1, LEAST, LEAST + 1, 3 << 30, LIMIT - 2, LIMIT - 1)
EXPONENTS = (
    *(LOWEST + i for i in (-2, -1, 0, 1, 2, 31, 32, 33)),
    *(edges.LOW, edges.LOW + 1, edges.LOW + 32, -(1 << 30) - 1, -(1 << 30), -(1 << 28), -1074, -35, -32, -31, -1),
    *(0, 1, 31, 992, 1 << 28, (1 << 30) - 1, 1 << 30, edges.HIGH - 32, edges.HIGH - 1, edges.HIGH),
)
DIVISORS = (0, 1, 2, 3, 4, 5, 7, 10, LARGEST_N * (LARGEST_N + 1), (1 << 25) + 1)
DIVISORS += (*(LEAST + i for i in (-1, 0, 1)), LIMIT - 2, LIMIT - 1)


def at_limits():
    for m, e, divisor in itertools.product(MANTISSAS, EXPONENTS, DIVISORS):
        yield Scaled(m, e), divisor


def near_powers(rng):
    """A divisor at each power of two and beside it, and the mantissas beside which the quotient's length changes."""
    for k in range(32):
        for divisor in {(1 << k) - 1, 1 << k, (1 << k) + 1} - {0}:
            for m in (LEAST, LIMIT - 1, rng.randrange(LEAST, LIMIT)):
                yield Scaled(m, rng.choice(EXPONENTS)), divisor
            for m in (divisor << (32 - divisor.bit_length())) + rng.randrange(-1, 2), rng.randrange(LEAST, LIMIT) // divisor * divisor:
                yield Scaled(m % LIMIT, rng.randrange(-100, 100)), divisor


def at_random(rng):
    for _ in range(2000):
        e = rng.choice((rng.randrange(-200, 200), rng.randrange(edges.LOW, edges.HIGH), rng.choice(EXPONENTS)))
        m = rng.choice((rng.randrange(LEAST, LIMIT), rng.randrange(LEAST, LIMIT), drawn.whole(rng, LIMIT - 1)))
        yield Scaled(m, e), drawn.whole(rng, LIMIT - 1)


def cases(rng):
    """In both directions, none twice."""
    found = dict.fromkeys((*at_limits(), *near_powers(rng), *at_random(rng)))
    return [Case(up, *of) for of in found for up in (False, True)]


def shown_by(case):
    """What of the request a case has."""
    up, number, divisor = case
    if divisor == 0:
        yield "divisor 0"
    if number.m == 0 and number.e != 0:
        yield "zero with an e"
    if 0 < number.m < LEAST:
        yield "m below 2^31"
    if number.e < LOWEST and divisor and scaled.is_scaled(number):
        yield "e too low alone"
    refusal, quotient = divided(*case)
    if refusal:
        return
    if number == ZERO:
        yield "zero"
        return
    for e in LOWEST, edges.HIGH:
        if number.e == e:
            yield up, "e", e
    for m in LEAST, LIMIT - 1:
        if number.m == m:
            yield up, "m", m
    for k in 1, LIMIT - 1:
        if divisor == k:
            yield up, "divisor", k
    yield up, "e lower by", number.e - quotient.e
    yield up, "exact", scaled.over(not up, number, divisor) == quotient


# What of the request the cases are to have: among them every amount by which e can be lower, 0 to 32.
DUE = {"divisor 0", "zero with an e", "m below 2^31", "e too low alone", "zero"}
DUE |= {(up, "e", e) for up in (False, True) for e in (LOWEST, edges.HIGH)}
DUE |= {(up, "m", m) for up in (False, True) for m in (LEAST, LIMIT - 1)}
DUE |= {(up, "divisor", k) for up in (False, True) for k in (1, LIMIT - 1)}
DUE |= {(up, "e lower by", n) for up in (False, True) for n in range(33)}
DUE |= {(up, "exact", exact) for up in (False, True) for exact in (False, True)}
