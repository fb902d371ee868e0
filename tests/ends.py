"""Numbers to print in decimal: at the edges of request #103, at every exponent, drawn ones, and the ends of reads."""

from fractions import Fraction

import decimals
import drawn
import edges
import orders
import scaled
from encounters import ASTRIDE, AT_THRESHOLD, CLEAR_THEN_OPEN, DOCUMENTS, EDGES, SMALL, THIN
from reference import LARGEST_N
from scaled import BITS, LEAST, LIMIT, Scaled

# The exponents of m, from below where the table ends to above 1.
EXPONENTS = range(-300, 11)
# The whole parts and digits of which the request says something, and those beside them.
WHOLE_PARTS = (1000, 1001, 9999, 10_000, 10_001)


def next_to(q, steps):
    """D(q) with this many scaled numbers below it and above it, for a fraction q above 0."""
    a = scaled.down(q)
    for _ in range(steps):
        a = scaled.below(a)
    for _ in range(2 * steps + 1):
        yield a
        a = scaled.above(a)


def at_edges(rng):
    for m, e, *_ in edges.DECIMALS:
        yield Scaled(m, e)
    for _, m, e in edges.MORE_THAN_ONE:
        yield Scaled(m, e)


def at_exponents(rng):
    for e in EXPONENTS:
        for m in LEAST, LIMIT - 1, rng.randrange(LEAST, LIMIT), rng.randrange(LEAST, LIMIT):
            yield Scaled(m, e)


def at_whole_parts(rng):
    """Where the product with 10^k is about a whole number of four digits, for each k of the table and the next."""
    for k in range(decimals.LAST + 2):
        for n in WHOLE_PARTS:
            yield from next_to(Fraction(n, 10**k), 6)
        for _ in range(12):
            yield from next_to(Fraction(rng.randrange(1000, 10_000), 10**k), 3)


def of_reads(rng):
    """Both ends at the least order that is read, at the next one and at a later one."""
    tried = [*DOCUMENTS.values(), *EDGES.values(), SMALL, THIN, ASTRIDE, CLEAR_THEN_OPEN]
    tried += [inputs for inputs, *_ in AT_THRESHOLD]
    tried += [drawn.accepted(rng) for _ in range(100)]
    for inputs in filter(orders.begun, tried):
        session = orders.begun(inputs)
        for count in orders.least_of(session) - 1, 1, 10:
            if session.N + count <= LARGEST_N:
                session.add(count)
                answer = session.read()
                yield Scaled(*answer.lower)
                yield Scaled(*answer.upper)


def out_of_form(rng):
    """An m below 2^31, of any length, and zero with an e other than 0."""
    for _ in range(500):
        bits = rng.randrange(1, BITS)
        yield Scaled(rng.randrange(1 << (bits - 1), 1 << bits), rng.randrange(-180, 3))
    for bits in range(1, BITS):
        # The last number below 1 with this many bits, and 1.
        yield Scaled((1 << bits) - 1, -bits)
        yield Scaled(1 << (bits - 1), 1 - bits)
    for _ in range(20):
        yield Scaled(0, rng.randrange(edges.LOW, edges.HIGH))


def far_out(rng):
    """An e at the limits of 32 bits, and drawn ones."""
    for m in 0, 1, 2, LEAST - 1, LEAST, LIMIT - 1, drawn.whole(rng, LIMIT - 1):
        for near in range(3):
            yield Scaled(m, edges.LOW + near)
            yield Scaled(m, edges.HIGH - near)
        # Here a sum of e and the exponent of an entry is at the limits of 32 bits, or about that.
        for entry in range(0, 200, 7):
            yield Scaled(m, edges.LOW + entry)
            yield Scaled(m, edges.HIGH - entry)
        for _ in range(10):
            yield Scaled(m, rng.randrange(edges.LOW, edges.HIGH))


def numbers(rng):
    for part in at_edges, at_exponents, at_whole_parts, of_reads, out_of_form, far_out:
        yield from part(rng)
