"""Random whole numbers, encounters and scripts."""

import math

import orders
from edges import EMPTY_ADD, MOST_32
from encounters import MISSES, SIZES
from exact_series import Encounter, letters
from records import KINDS, MOST_COUNT, READ, add, packed, records
from reference import LARGEST, LARGEST_2M, LARGEST_N, LARGEST_T, Session, refusal_of


def whole(rng, most):
    """From 1 to most, each number of bits about as likely as another."""
    bits = rng.randint(1, most.bit_length())
    return min(rng.randrange(1 << (bits - 1), 1 << bits), most)


def of_either_sign(rng, x):
    return rng.choice((-x, x))


# Encounters.


def sigmas(rng, most=LARGEST):
    """sx, and sy up to it and to most."""
    sx = whole(rng, LARGEST)
    sy = rng.choice((sx, max(1, sx - 1), whole(rng, sx), rng.randint(1, sx)))
    return sx, min(sy, most)


def miss(rng, sigma):
    """0, or up to some sigmas, of either sign."""
    most = min(LARGEST, int(sigma * rng.choice((0, 0.1, 1, 3, 9))))
    return rng.randint(-most, most)


def radius(rng, sy):
    """Of any size, or of about that of sy."""
    about = int(sy * math.exp(rng.uniform(-6, 2.5)))
    return max(1, min(LARGEST, rng.choice((whole(rng, 8 * sy), about))))


def ordinary(rng):
    """Within the limits of tests 3 to 6; tests 7 and 11 refuse some."""
    sx, sy = sigmas(rng)
    return Encounter(radius(rng, sy), sx, sy, miss(rng, sx), miss(rng, sy))


def accepted(rng):
    while True:
        encounter = ordinary(rng)
        if orders.begun(encounter):
            return encounter


def with_least(rng, low, high, count):
    """Accepted ones whose least order is from low to high."""
    found = []
    while len(found) < count:
        encounter = accepted(rng)
        if low <= orders.least(encounter) <= high:
            found.append(encounter)
    return found


def beside_M(rng, M):
    """Two that differ by 1 in ym: the exact M of one is this number or below it, of the other above it.

    Both are off by less than 1, and no test but 11 refuses them.
    """
    while True:
        sx, sy = sigmas(rng)
        first = Encounter(radius(rng, sy), sx, sy, miss(rng, sx), 0)
        # Y is u × ym²/(2sy²).
        square = math.floor((M - orders.exact_M(first)) * 2 * sy * sy / letters(first).u)
        if square >= 0:
            found = [first._replace(ym=math.isqrt(square) + more) for more in (0, 1)]
            if all(abs(orders.exact_M(one) - M) < 1 and refusal_of(*one) in (0, 11) for one in found):
                return found


def beside_largest_M(rng):
    """Two beside the limit of test 11."""
    return beside_M(rng, LARGEST_2M // 2)


def beside_64(rng):
    """Two encounters of equal sigmas with t within 2^-26 of 64, or near that, below and above."""
    s = rng.randint(10**5, math.isqrt(LARGEST**2 // (2 * LARGEST_T)))
    rest = 2 * LARGEST_T * s * s
    R = math.isqrt(rest)
    rest -= R * R
    xm = math.isqrt(rest)
    ym = math.isqrt(rest - xm * xm)
    return Encounter(R, s, s, xm, -ym), Encounter(R, s, s, -xm, ym + 1)


def near_64(rng):
    """Two encounters whose R is the last whole number with t at most 64, or about that, and the next one.

    Test 11 does not refuse the first.
    """
    while True:
        sx, sy = sigmas(rng, LARGEST // 12)
        xm, ym = rng.randint(0, min(LARGEST, 7 * sx)), rng.randint(0, 7 * sy)
        R = math.isqrt(2 * LARGEST_T * sy * sy - xm * xm * sy * sy // (sx * sx) - ym * ym)
        xm, ym = of_either_sign(rng, xm), of_either_sign(rng, ym)
        if refusal_of(R, sx, sy, xm, ym) != 11:
            return Encounter(R, sx, sy, xm, ym), Encounter(R + 1, sx, sy, xm, ym)


def at_limits(rng):
    """Each input small, or at its limits or past them."""
    sizes, misses = SIZES + [2, 5, 10], MISSES + [5, -5]
    return Encounter(*(rng.choice(sizes) for _ in range(3)), *(rng.choice(misses) for _ in range(2)))


def within_limits(rng):
    """Each input small, or at its limits and not past them."""
    sizes = (1, 2, 3, LARGEST - 1, LARGEST)
    sy, sx = sorted(rng.choice(sizes) for _ in range(2))
    misses = (of_either_sign(rng, rng.choice((0, *sizes))) for _ in range(2))
    return Encounter(rng.choice(sizes), sx, sy, *misses)


def with_exact_terms(rng):
    """Accepted, with R/sx, R/sy, xm/sx and ym/sy odd numbers times powers of two, or 0: many have exact terms."""
    power = lambda: 1 << rng.randint(0, 20)
    odd = lambda: rng.choice((1, 1, 1, 3, 3, 5, 7, 9, 15, 255, 257))
    while True:
        # sx/sy is a power of two over this.
        w = rng.choice((1, 1, 1, 3, 3, 7, 15, (1 << 17) - 1))
        R, sx, sy, xm, ym = w * odd() * power(), power(), w * power(), odd() * power(), w * odd() * power()
        drawn = Encounter(R, sx, sy, rng.choice((0, xm, -xm)), rng.choice((0, ym, -ym)))
        if orders.begun(drawn):
            return drawn


def encounter(rng):
    """Of any of these; most are accepted."""
    way = rng.randrange(10)
    if way == 0:
        return at_limits(rng)
    if way == 1:
        return within_limits(rng)
    if way == 2:
        return rng.choice((*beside_64(rng), *near_64(rng), *beside_largest_M(rng)))
    if way == 3:
        return with_exact_terms(rng)
    return ordinary(rng)


def object_and_time(rng):
    """An object number and a time, at their limits or of any size; never the same number."""
    number = rng.choice((0, 1, MOST_32, whole(rng, MOST_32), whole(rng, MOST_32)))
    time = rng.choice((0, 1, MOST_32, whole(rng, MOST_32), whole(rng, MOST_32)))
    return (number, time) if number != time else object_and_time(rng)


def begin_inputs(rng, encounter):
    """The kind of a begin, 1 or 4, and its inputs."""
    return rng.choice(((1, *encounter), (4, *encounter, *object_and_time(rng))))


# Scripts.


def count_for(rng, session):
    """The count of an add: any, or one that comes to about the least order that is read, or past the limit."""
    if rng.random() < 0.05:
        return rng.choice((LARGEST_N - session.N, LARGEST_N - session.N + 1, MOST_COUNT))
    if session.N and rng.random() < 0.55:
        return orders.least_of(session) - session.N + rng.choice((-1, 0, 1))
    return rng.choice((0, 1, 2, 3, rng.randrange(60), rng.randrange(400), rng.randrange(LARGEST_N)))


def script(rng, most, terms):
    """Whole records, so many at most; the adds that are accepted have at most this many terms, all together."""
    written = b""
    session = Session()
    for _ in range(most):
        way = rng.random()
        if way < 0.3 or (session.N == 0 and way < 0.8):
            kind, *inputs = begin_inputs(rng, encounter(rng))
            written += packed(kind, *inputs)
            getattr(session, KINDS[kind].call)(*inputs)
        elif way < 0.65:
            count = max(0, min(count_for(rng, session), MOST_COUNT))
            if session.N + count <= LARGEST_N:
                if count > terms:
                    continue
                terms -= count
            written += add(count)
            session.add(count)
        else:
            written += READ
    return written


def cut_short(rng):
    whole_script = script(rng, 4, 50)
    return whole_script[: rng.randrange(len(whole_script) + 1)]


def random_bytes(rng):
    """Random bytes, with those of the kinds more often or not."""
    kinds = rng.choice(((), (*KINDS, 3)))
    return bytes(rng.choice((*kinds, rng.randrange(256))) for _ in range(rng.randrange(200)))


def random_bodies(rng):
    """Records of random bodies, with some bytes missing at the end."""
    written = b""
    for _ in range(rng.randrange(1, 20)):
        kind = rng.choice((*KINDS, 3))
        body = rng.randbytes(KINDS[kind].body.size)
        if KINDS[kind].said == "begun":
            # Some of the numbers below 2^24 or below 2^8.
            words = [body[i : i + 4] for i in range(0, len(body), 4)]
            body = b"".join(w[:k] + bytes(4 - k) for w in words for k in [rng.choice((4, 3, 3, 1, 1))])
        written += bytes([kind]) + body
    return written[: len(written) - rng.choice((0, 0, 1, 5))]


def changed(rng):
    return damaged(rng, script(rng, 10, 500))


def damaged(rng, written):
    """The script with some bytes put in, left out or changed."""
    written = bytearray(written)
    for _ in range(rng.randrange(1, 4)):
        at = rng.randrange(len(written) + 1)
        way = rng.randrange(3)
        if way == 0:
            written[at:at] = rng.randbytes(1)
        elif way == 1:
            del written[at : at + 1]
        elif at < len(written):
            written[at] ^= 1 << rng.randrange(8)
    return bytes(written)


# Scripts that operators may write by mistake.
WRONG = [cut_short, random_bytes, random_bodies, changed]


def with_empty_adds(rng, written):
    """The script with empty adds before some of its records, before what is no record, and at its end."""
    parts = [written[record.position : record.end] for record in records(written)]
    return b"".join(EMPTY_ADD * rng.choice((0, 0, 1, 1, 3)) + part for part in (*parts, b""))


def small_bytes(rng):
    """Bytes from 0 to 4, most of them those of an empty add."""
    return bytes(rng.choices(range(5), (5, 1, 5, 2, 1), k=rng.randrange(60)))
