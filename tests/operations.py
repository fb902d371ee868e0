#!/usr/bin/env python3
"""Compares the arithmetic of crate `encounter`, and `exact::Scaled::whole`, with scaled.py.

    python3 tests/operations.py [--root FOLDER] [--seed N]

The functions are in private modules, which scratch.py makes public in a copy of the crates. It runs a
program there, interpreted and compiled, that answers each case.
"""

import itertools
import random
import struct
import sys
from fractions import Fraction
from typing import NamedTuple

sys.dont_write_bytecode = True
import drawn
import drivers
import edges
import scaled
import scratch
from reference import LARGEST, LARGEST_N
from scaled import LEAST, LIMIT, ZERO, Scaled

# The numbers of a line.
FIELDS = [("m", False), ("e", True), ("lost", False)]


class Kind(NamedTuple):
    """An operation: whether it has a direction, its answer, and its exact result (see scaled.py)."""

    directed: bool
    answer: object
    exact: object


# In the order of the driver's numbers.
KINDS = {
    "product": Kind(True, scaled.product, scaled.exact_product),
    "sum": Kind(True, scaled.plus, scaled.exact_sum),
    "over": Kind(True, scaled.over, scaled.exact_over),
    "quotient": Kind(True, scaled.quotient, scaled.exact_quotient),
    "ratio": Kind(True, scaled.ratio, lambda n, d: (Fraction(n, d), 0)),
    "halved": Kind(False, lambda a, _: scaled.halved(a), lambda a, _: scaled.exact_over(a, 2)),
    "doubled": Kind(False, lambda a, _: scaled.doubled(a), lambda a, _: scaled.exact_double(a)),
    "at_most": Kind(False, lambda a, b: Scaled(int(scaled.at_most(a, b)), 0), None),
    "whole": Kind(False, lambda n, _: scaled.whole(n), lambda n, _: (Fraction(n), 0)),
    "over_by": Kind(True, scaled.over, scaled.exact_over),
    # These pass on what was lost before.
    "traced product": Kind(True, scaled.product, scaled.exact_product),
    "traced sum": Kind(True, scaled.plus, scaled.exact_sum),
    "traced over": Kind(True, scaled.over, scaled.exact_over),
    "traced halved": Kind(False, lambda a, _: scaled.halved(a), lambda a, _: scaled.exact_over(a, 2)),
}
NUMBERS = {kind: n for n, kind in enumerate(KINDS)}


class Case(NamedTuple):
    """An operation with its operands, and whether something was lost on the way to these."""

    kind: str
    up: bool
    x: object
    y: object = 0
    lost: tuple = (False, False)


def expected(case):
    """The answer by scaled.py, tested against the definition of D or U, or of both where it is exact; and what is lost.

    "Every rounding must say whether it lost anything, and everything built on rounding must pass that on."
    """
    kind = KINDS[case.kind]
    r = kind.answer(case.up, case.x, case.y) if kind.directed else kind.answer(case.x, case.y)
    if not kind.exact:
        return *r, 0
    q, shift = kind.exact(case.x, case.y)
    # With 2^shift divided out.
    a = r if r == ZERO else Scaled(r.m, r.e - shift)
    for up in [case.up] if kind.directed else [False, True]:
        assert scaled.is_rounded(up, a, q), case
    return *r, int(any(case.lost) or scaled.value(a) != q)


# The operands.

EDGES = [LEAST, LEAST + 1, LIMIT - 2, LIMIT - 1]
GAPS = [0, 1, 31, 32, 33, 62, 63, 64, 65, 1000000]
# The functions take an e from -2^28 to 2^28, and ratios of whole numbers below 2^48.
E_END = 1 << 28
N_END = 1 << 48
# The largest divisor with a reciprocal.
K_END = 1 << 25
# Document 01's fractions are of whole numbers up to this.
N_MOST = 2 * LARGEST**2


class Draw:
    """Random operands."""

    def __init__(self, seed):
        self.random = random.Random(seed)

    def whole(self, most):
        return drawn.whole(self.random, most)

    def m(self):
        return self.random.randrange(LEAST, LIMIT)

    def short(self):
        """A whole number of 16 bits."""
        return self.random.randrange(1 << 15, 1 << 16)

    def ms(self):
        return EDGES + [self.m(), self.m()]

    def e(self):
        near = self.random.randint(-100, 100)
        far = self.random.randint(-(10**8), 10**8)
        return self.random.choice([0, -31, E_END, -E_END, near, far])

    def number(self):
        return Scaled(self.m(), self.e())

    def apart(self, m, n, gap):
        """Two numbers, with these m and with exponents that differ by gap, in both orders."""
        e = max(self.e(), gap - E_END)
        return itertools.permutations([Scaled(m, e), Scaled(n, e - gap)])


def near_powers(end):
    """The powers of two and their neighbours, from 1 on and below end."""
    around = {(1 << k) + i for k in range(end.bit_length()) for i in (-1, 0, 1)}
    return sorted(n for n in around if 0 < n < end)


# The cases.


def both(kind, x, y):
    return [Case(kind, False, x, y), Case(kind, True, x, y)]


def pairs(draw):
    for gap in GAPS:
        for m, n in itertools.product(draw.ms(), repeat=2):
            yield from draw.apart(m, n, gap)
    for _ in range(1000):
        yield from draw.apart(draw.m(), draw.m(), draw.random.randint(0, 70))
    # Many of these have an exact product and an exact sum.
    for _ in range(100):
        yield from draw.apart(draw.short() << 16, draw.short() << 16, draw.random.randint(0, 20))


def of_pairs(draw):
    for a, b in pairs(draw):
        yield from both("product", a, b)
        yield from both("sum", a, b)
        yield from both("quotient", a, b)
        yield Case("at_most", False, a, b)


LOST = list(itertools.product((False, True), repeat=2))


def of_losses(draw):
    """Operands of which one or both or none is zero, with each way of having lost something before."""
    for _ in range(150):
        # Many of these have an exact product, an exact sum and an exact quotient.
        e = max(draw.e(), 20 - E_END)
        f = e - draw.random.randint(0, 20)
        a = draw.random.choice((ZERO, Scaled(draw.short() << 16, e), Scaled(draw.m(), e)))
        b = draw.random.choice((ZERO, Scaled(draw.short() << 16, f), Scaled(draw.m(), f)))
        k = draw.random.choice((1, 2, 3, 4, 6, draw.whole(LIMIT - 1)))
        for up, lost in itertools.product((False, True), LOST):
            yield Case("traced product", up, a, b, lost)
            yield Case("traced sum", up, a, b, lost)
        for up, before in itertools.product((False, True), repeat=2):
            yield Case("traced over", up, a, k, (before, False))
            yield Case("traced halved", False, a, 0, (before, False))


def of_far_exponents(draw):
    for a, b in itertools.permutations([Scaled(LIMIT - 1, 10**8), Scaled(LEAST, -(10**8))]):
        yield from both("sum", a, b)
        yield Case("at_most", False, a, b)


def of_zeros(draw):
    for a in [ZERO] + [draw.number() for _ in range(20)]:
        for x, y in (a, ZERO), (ZERO, a):
            yield from both("product", x, y)
            yield from both("sum", x, y)
            yield Case("at_most", False, x, y)
        if a != ZERO:
            yield from both("quotient", ZERO, a)
        yield from both("over", ZERO, draw.whole(LIMIT - 1))
        yield from both("over_by", ZERO, draw.whole(K_END))


def of_carries(draw):
    """Products just below 2^63, where U often carries at 2^32."""
    for m in EDGES + [draw.m() for _ in range(200)]:
        yield from both("product", Scaled(m, draw.e()), Scaled(((1 << 63) - 1) // m, draw.e()))


def of_divisors(draw):
    for k in [1, 2, 3, LEAST - 1, LEAST, LEAST + 1, LIMIT - 2, LIMIT - 1]:
        for m in draw.ms():
            yield from both("over", Scaled(m, draw.e()), k)
    # The divisors (n+1)(n+2) of the rounded steps.
    for n in range(LARGEST_N + 1):
        yield from both("over", draw.number(), (n + 1) * (n + 2))
    for _ in range(1000):
        yield from both("over", draw.number(), draw.whole(LIMIT - 1))
    # By a reciprocal: the divisors n+2, and others to the largest.
    for k in [*range(1, LARGEST_N + 3), *near_powers(K_END), K_END]:
        yield from both("over_by", draw.number(), k)
    for m, k in itertools.product(draw.ms(), [1, 2, 3, LARGEST_N + 1, LARGEST_N + 2, K_END - 1, K_END]):
        yield from both("over_by", Scaled(m, draw.e()), k)
    for _ in range(1000):
        yield from both("over_by", draw.number(), draw.whole(K_END))


def of_exact_quotients(draw):
    for _ in range(200):
        k = draw.short()
        a = Scaled(scaled.whole(k * draw.short()).m, draw.e())
        yield from both("over", a, k)
        yield from both("over_by", a, k)
        yield from both("quotient", a, Scaled(scaled.whole(k).m, draw.e()))


def of_document(draw):
    for n, d, lower, upper in edges.RATIOS:
        assert (scaled.ratio(False, n, d), scaled.ratio(True, n, d)) == (lower, upper)
        yield from both("ratio", n, d)


def of_ratios(draw):
    ends = near_powers(N_END) + [LARGEST**2, N_MOST - 1, N_MOST]
    for n in ends:
        for x, y in (0, n), (n, n), (n, 1), (1, n), (n, 3), (n - 1, n), (n, N_MOST), (N_MOST, n):
            yield from both("ratio", x, y)
    for _ in range(1000):
        yield from both("ratio", draw.random.choice(ends), draw.random.choice(ends))
        yield from both("ratio", draw.whole(N_MOST), draw.whole(N_MOST))
    # A whole quotient, and one just below it.
    for _ in range(200):
        d = draw.whole(N_MOST)
        n = d * draw.whole(N_MOST // d)
        yield from both("ratio", n, d)
        yield from both("ratio", n - 1, d)


def of_one_number(draw):
    edges = [Scaled(m, e) for m in EDGES for e in (0, 1, -1, -31, E_END, -E_END)]
    for a in [ZERO] + edges + [draw.number() for _ in range(200)]:
        yield Case("halved", False, a)
        yield Case("doubled", False, a)
        yield Case("at_most", False, a, a)
    for n in [0] + near_powers(LIMIT) + [draw.whole(LIMIT - 1) for _ in range(300)]:
        yield Case("whole", False, n)


PARTS = [
    of_pairs,
    of_losses,
    of_far_exponents,
    of_zeros,
    of_carries,
    of_divisors,
    of_exact_quotients,
    of_document,
    of_ratios,
    of_one_number,
]


def all_cases(seed):
    draw = Draw(seed)
    return [case for part in PARTS for case in part(draw)]


# The run.


def packed(operand):
    return struct.pack("<Ii", *operand) if isinstance(operand, Scaled) else struct.pack("<Q", operand)


def record(case):
    first, second = case.lost
    return bytes([NUMBERS[case.kind], case.up + 2 * first + 4 * second]) + packed(case.x) + packed(case.y)


def shown(x):
    return str(tuple(x)) if isinstance(x, Scaled) else str(x)


# The kinds of the cases, each with whether something was lost.
met = set()


def due(case):
    """The numbers that are due of a case."""
    m, e, lost = expected(case)
    met.add((case.kind, lost))
    return m, e, lost


def said(case):
    direction = [" D", " U"][case.up] if KINDS[case.kind].directed else ""
    before = ", lost before: %s" % (case.lost,) if any(case.lost) else ""
    return "%s%s %s %s%s" % (case.kind, direction, shown(case.x), shown(case.y), before)


def main():
    options = scratch.arguments("Compares the arithmetic of crate encounter with scaled.py.")
    print("operations: seed %d" % options.seed)
    cases = all_cases(options.seed)
    scratch.compare("operations", options.root, drivers.OPERATIONS, FIELDS, cases, record, due, said)
    unmet = {(name, lost) for name, kind in KINDS.items() if kind.directed for lost in (0, 1)} - met
    if unmet:
        sys.exit("operations: no case of %s" % sorted(unmet))
    print("operations: %d cases agree" % len(cases))


if __name__ == "__main__":
    main()
