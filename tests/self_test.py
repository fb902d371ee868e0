#!/usr/bin/env python3
"""Tests reference.py, rounded.py, decimals.py, doubles.py, week_reference.py and records.py.

    python3 tests/self_test.py

The arithmetic is compared with scaled.py, and every stored number with document 01's steps on scaled.py's numbers, with
what is lost on its way. Wrong counts of exact terms are told from the right ones. The decimals are compared with
request #103 by exact fractions, and its three promises are tested on them. The rounding of doubles is compared with
Python's own subtraction. The calls, the decimals and the listing are compared with the answers of edges.py, and so are
the advice, the ends as doubles and what is left of scripts without their empty adds. The week's sums are compared with
those of rounded.py, and wrong weeks are told from the right one.
"""

import copy
import functools
import math
import random
import struct
import sys
from fractions import Fraction
from unittest import mock

sys.dont_write_bytecode = True
import advice
import brackets
import decimals
import doubles
import drawn
import edges
import ends
import options
import orders
import records
import reference
import rounded
import scaled
import week_reference
from checks import Checks
from encounters import ALFANO_3, AT_64, DOCUMENTS, FIVE, HALF, HIGHEST, LATEST, LOST_B, LOST_P, LOWEST, SMALL, TEST_1
from records import MOST_COUNT
from reference import EXPONENTIAL_CUT, LARGEST, LARGEST_2M, LARGEST_N, Advice, Answer, Session, Side
from scaled import LEAST, LIMIT, ZERO, Scaled
from week_reference import DAYS, PLACES, Ends, Week

checks = Checks("self_test")


# The arithmetic.

MANTISSAS = [LEAST, LEAST + 1, LIMIT - 2, LIMIT - 1, 0xAAAAAAAA, 0xAAAAAAAB]
DIVISORS = [1, 2, 3, EXPONENTIAL_CUT - 1, EXPONENTIAL_CUT, (LARGEST_N - 1) * LARGEST_N, LARGEST_N * (LARGEST_N + 1)]
DIVISORS += [LEAST, LIMIT - 1, LIMIT, (1 << 64) - 1]


def number(rng, e):
    if rng.random() < 0.03:
        return ZERO
    return Scaled(rng.choice(MANTISSAS) if rng.random() < 0.3 else rng.randrange(LEAST, LIMIT), e)


def whole(rng):
    return rng.choice(DIVISORS) if rng.random() < 0.3 else drawn.whole(rng, 1 << 100)


def flagged(up, exact, *lost):
    """D or U of an exact result by scaled.py, and whether something was lost: by these, or by the rounding itself."""
    q, shift = exact
    a = scaled.rounded(up, q, shift)
    return *a, any(lost) or scaled.value(a) != q * scaled.power(shift)


def of_arithmetic(rng):
    """Every operation is D or U by definition, and the answer of scaled.py; it says what was lost."""

    def compare(name, up, answer, exact, *lost):
        q, shift = exact
        what = f"{name}, up = {up}: {answer} for {exact}, lost before: {lost}"
        ok = answer == flagged(up, exact, *lost)
        checks.check(ok and scaled.is_rounded(up, Scaled(*answer[:2]), q * scaled.power(shift)), "operations", what)

    for up, r in (False, rounded.DOWN), (True, rounded.UP):
        for _ in range(4000):
            a = number(rng, rng.randrange(-150, 150))
            b = number(rng, a.e + rng.choice([0, 1, -1, 31, -31, 32, -32, 33, -33, 64, rng.randrange(-80, 80)]))
            k, n = whole(rng), rng.choice([0, whole(rng), whole(rng), whole(rng)])
            lost = [rng.random() < 0.3 for _ in range(2)]
            x, y = (*a, lost[0]), (*b, lost[1])
            compare("product", up, r.product(x, y), scaled.exact_product(a, b), *lost)
            compare("plus", up, r.plus(x, y), scaled.exact_sum(a, b), *lost)
            compare("over", up, r.over(x, k), scaled.exact_over(a, k), lost[0])
            if b != ZERO:
                compare("quotient", up, r.quotient(x, y), scaled.exact_quotient(a, b), *lost)
            compare("ratio", up, r.ratio(n, k), (Fraction(n, k), 0))
            compare("halved", up, rounded.halved(x), scaled.exact_over(a, 2), lost[0])
            compare("doubled", up, rounded.doubled(x), scaled.exact_double(a), lost[0])
            value = scaled.value(a)
            checks.check(rounded.above(a, n) == (value > n), "operations", f"above: {a} {n}")
            checks.check(rounded.at_least(a, n, k) == (value >= Fraction(n, k)), "operations", f"at_least: {a} {n} {k}")


# The rounded steps.


def of(exact, *numbers):
    """An exact result of scaled.py on numbers with flags, and the flags."""
    return exact(*(Scaled(*a[:2]) for a in numbers)), *(lost for _, _, lost in numbers)


def steps(up, R, sx, sy, xm, ym, N):
    """A side, r(256), M, d(N) and the terms c(0) to c(N−1), in document 01's indices."""

    def ratio(n, d):
        return flagged(up, (Fraction(n, d), 0))

    def times(a, b):
        return flagged(up, *of(scaled.exact_product, a, b))

    def plus(a, b):
        return flagged(up, *of(scaled.exact_sum, a, b))

    def over(a, k):
        return flagged(up, *of(lambda x: scaled.exact_over(x, k), a))

    def halved(a):
        return over(a, 2)

    u, b = ratio(R**2, 2 * sy**2), ratio(R**2, 2 * sx**2)
    zx, zy = ratio(xm**2, 2 * sx**2), ratio(ym**2, 2 * sy**2)
    g = ratio(sx**2 - sy**2, sx**2)
    h, X, Y, t = times(u, g), times(zx, b), times(zy, u), plus(plus(zx, zy), u)
    c = [ratio(R**2, 2 * sx * sy)]
    p, v, y = [times(u, c[0])], [c[0]], [c[0]]
    for n in range(N):
        if n >= 1:
            p.append(times(u, plus(c[n], over(p[n - 1], n + 1))))
            v.append(plus(c[n], over(times(h, v[n - 1]), n + 1)))
            y.append(plus(v[n], over(times(h, y[n - 1]), n + 1)))
        inner = plus(p[n], halved(times(h, v[n])))
        c.append(over(plus(plus(inner, times(X, y[n])), times(Y, c[n])), (n + 1) * (n + 2)))
    total = c[0]
    for n in range(1, N):
        total = plus(total, c[n])
    r = [(*scaled.ONE, False)]
    for k in range(1, EXPONENTIAL_CUT + 1):
        r.append(over(times(r[k - 1], t), k))
    exponential = r[0]
    for k in range(1, EXPONENTIAL_CUT):
        exponential = plus(exponential, r[k])
    M = plus(plus(plus(u, halved(h)), X), Y)
    d = [c[0]]
    for n in range(1, N + 1):
        d.append(over(times(d[n - 1], M), n + 1))
    side = Side(u, h, X, Y, t, exponential, total, c[N - 1], p[N - 1], v[N - 1], y[N - 1])
    return side, r[EXPONENTIAL_CUT], M, d[N], c[:N]


def of_steps(rng):
    """Every stored number with what was lost on its way, the count of exact terms, and both ends."""
    reads = 0
    tried = HALF, LATEST, SMALL, TEST_1, FIVE, LOST_B, LOST_P, DOCUMENTS["CSM 1"], DOCUMENTS["CSM 2"]
    tried += (drawn.accepted(rng),)
    for inputs, N in [(inputs, N) for inputs in tried for N in (rng.randrange(1, 6), rng.randrange(6, 30))]:
        session = orders.at_order(inputs, N)
        lower, _, _, _, terms = steps(False, *inputs, N)
        upper, r256, M, d, upper_terms = steps(True, *inputs, N)
        lost = [n for n in range(N) if terms[n][2] or upper_terms[n][2]]
        due = Session(*inputs, 0, 0, N, lower, upper, r256, M, d, lost[0] if lost else N)
        checks.check(session == due, "sessions", f"the steps for {inputs} at {N}")
        answer = session.read()
        if answer.refusal == 0:
            reads += 1
            total, exponential, bound = (Scaled(*a[:2]) for a in (lower.sum, lower.exponential, d))
            below = scaled.plus(True, Scaled(*upper.exponential[:2]), scaled.doubled(Scaled(*r256[:2])))
            above = scaled.plus(True, Scaled(*upper.sum[:2]), scaled.doubled(bound))
            ends = scaled.quotient(False, total, below), scaled.quotient(True, above, exponential)
            ok = (answer.lower, answer.upper) == ends and answer.exact == due.exact
            checks.check(ok, "sessions", f"the read for {inputs} at {N}")
    checks.check(reads > 0, "sessions", "no read is accepted")


# Wrong counts of exact terms.


def forgets(r):
    """The operations with a product that forgets what its factors lost where one of them is zero."""
    return r._replace(product=lambda a, b: r.product(a, b) if a[0] and b[0] else rounded.ZERO)


def of_wrong_counts():
    """The cases of edges.py tell a wrong rule from the right one."""

    def told(what, found):
        checks.check(found != [tuple(due) for _, _, *due in cases], "wrong counts", what)

    cases = [case for case in edges.EXACT_TERMS if case[1] < 10]
    with mock.patch.multiple(reference, DOWN=forgets(rounded.DOWN), UP=forgets(rounded.UP)):
        sessions = [orders.at_order(inputs, N) for inputs, N, *_ in cases]
    # Only `lossless` tells: no count differs.
    told("a zero factor hides a loss", [(session.exact, session.lossless) for session in sessions])
    sessions = [[orders.at_order(inputs, n) for n in range(1, N + 1)] for inputs, N, *_ in cases]
    # The terms whose p, v and y are exact too.
    told("a lost p counts as a lost c", [(sum(s.lossless for s in one), one[-1].lossless) for one in sessions])


# The decimals.


def by_fractions(up, x):
    """Request #103 on fractions: the text of a scaled number for which the table has a k."""
    if scaled.value(x) >= 1:
        return "1.000e-00"
    for k in range(47):
        entry = scaled.rounded(up, Fraction(10) ** k)
        product = scaled.value(scaled.rounded(up, scaled.value(x) * scaled.value(entry)))
        if product >= 1000:
            break
    w = math.floor(product)
    if not up:
        w = 9999 if w == 10_000 else w
        return f"{w // 1000}.{w % 1000:03}e-{k - 3:02}"
    if w + 1 in (10_000, 10_001):
        return f"1.00{w + 1 - 10_000}e-{k - 4:02}"
    return f"{(w + 1) // 1000}.{(w + 1) % 1000:03}e-{k - 3:02}"


def of_table():
    for up, entries in decimals.TABLE.items():
        checks.check(len(entries) == 47, "decimals", f"the table has {len(entries)} entries")
        for k, entry in enumerate(entries):
            ok = scaled.is_rounded(up, entry, Fraction(10**k)) and (scaled.value(entry) == 10**k) == (k <= 13)
            checks.check(ok, "decimals", f"10^{k}, up = {up}: {entry}")


# The k for which the whole part of some number is 10,000.
LOWER_10_000 = {23, 25, 29, 40, 42, 45}
UPPER_10_000 = {7, 8, 10, 11, 14, 16, 18, 19, 20, 21, 23, 25, 29, 32, 35, 38, 40, 42, 44}


def of_10_000():
    """For which k the whole part may be 10,000; such a number is within some steps of 10^(4 − k)."""
    for up, due in (False, LOWER_10_000), (True, UPPER_10_000):
        found = [
            (k, x)
            for k in range(4, 47)
            for x in ends.next_to(Fraction(10**4, 10**k), 8)
            if decimals.least_power(up, x) == k and decimals.whole_part(decimals.times_power(up, x, k)) == 10_000
        ]
        checks.check({k for k, _ in found} == due, "decimals", f"10,000, up = {up}: {found}")
        # Every lower one stands in edges.py.
        listed = {(m, e) for m, e, *_ in edges.DECIMALS}
        checks.check(up or {x for _, x in found} <= listed, "decimals", f"10,000, up = {up}: {found}")


def of_least_end():
    """The table has a k for every end of an accepted read: lower ends are above 8 × 10^-43.

    c(0) is least for the least R and the largest sigmas, and the upper exponential is largest for t = 64.
    """
    session = orders.begun(AT_64)
    above = rounded.UP.plus(session.upper.exponential, rounded.doubled(session.r256))
    least = Scaled(*rounded.DOWN.quotient(rounded.DOWN.ratio(1, 2 * LARGEST**2), above)[:2])
    found = [decimals.text(decimals.decimal(up, least)) for up in (False, True)]
    ok = scaled.value(least) > Fraction(8, 10**43) and found == ["8.019e-43", "8.020e-43"]
    checks.check(ok, "decimals", f"no lower end is below {least}: {found}")


def promised(up, x):
    """Whether the request's promises hold of the decimal of x, and whether it is off by more than one."""
    a, q = decimals.decimal(up, x), scaled.value(x)
    found = q >= 1 or decimals.least_power(up, decimals.in_form(x)) is not None
    ok = 0 <= a.power <= 43 and (1000 <= a.digits <= 9999 if found else a.digits in (0, 1000))
    # "A printed lower end is never above its end, a printed upper end below 1 never below it"
    if not up:
        ok = ok and decimals.value(a) <= q
    elif q < 1:
        ok = ok and decimals.value(a) >= q
    # "and each print of an end below 1 is off by at most two in the last digit."
    if q >= 1 or not found:
        return ok, False
    off = decimals.off(a, x)
    return ok and off <= 2, off > 1


def of_decimals(rng):
    def check(ok, what):
        checks.check(ok, "decimals", what)

    of_table()
    of_10_000()
    of_least_end()
    for m, e, *due in edges.DECIMALS:
        found = [decimals.text(decimals.decimal(up, (m, e))) for up in (False, True)]
        check(found == due, f"{m} {e}: {found}")
    # A number whose e is far out is no fraction that can be formed.
    numbers = [x for x in ends.numbers(rng) if abs(x.e) < 1000]
    for up in False, True:
        powers, more = set(), 0
        for n, x in enumerate(numbers):
            ok, more_than_one = promised(up, x)
            check(ok, f"the promises for {x}, up = {up}")
            a = decimals.decimal(up, x)
            powers.add(a.power)
            more += more_than_one
            form = decimals.in_form(x)
            check(scaled.is_scaled(form) and scaled.value(form) == scaled.value(x), f"the form of {x}")
            if n % 10 == 0 and (scaled.value(x) >= 1 or decimals.least_power(up, form) is not None):
                check(decimals.text(a) == by_fractions(up, form), f"{x}, up = {up}: {a}")
        check(powers == set(range(44)), f"powers, up = {up}: {sorted(powers)}")
        # At most one in the last digit would be false.
        check(more > 100, f"off by more than one, up = {up}: {more}")
    for up, m, e in edges.MORE_THAN_ONE:
        off = decimals.off(decimals.decimal(up, (m, e)), (m, e))
        check(1 < off < 1 + Fraction(1, 10**5), f"{m} {e}, up = {up}, is off by {float(off)}")
    for _ in range(1000):
        a, b = rng.choice(numbers), number(rng, rng.randrange(-200, 20))
        if b != ZERO and scaled.is_scaled(a):
            check(decimals.at_least(a, b) == (scaled.value(a) >= scaled.value(b)), f"at_least: {a} {b}")


# The calls.


def of_calls(rng):
    """The tables in their order, what a refusal keeps, and adds in pieces."""

    def call(ok, what):
        checks.check(ok, "calls", what)

    empty = Session()
    for count, refusal in (0, 12), (1, 21), (256, 21), (MOST_COUNT, 21):
        call(empty.add(count) == Answer(refusal) and empty == Session(), f"{refusal} for add {count}")
    call(empty.read() == Answer(21) and empty == Session(), "21 for read")
    begins = [("begin", *one) for one in edges.BEGINS]
    begins += [("begin_conjunction", *one) for one in edges.conjunctions()]
    for kind, refusal, inputs in begins:
        session = Session()
        session.begin_conjunction(*SMALL, 11, 12)
        call(session.add(2) == Answer(N=3), "an add with an object")
        # A refusal keeps all of it; else nothing of it is left.
        due = copy.deepcopy(session) if refusal else orders.begun(inputs[:5])
        if not refusal:
            due.object, due.time = inputs[5:] or (0, 0)
        answer = getattr(session, kind)(*inputs)
        call(answer == (Answer(refusal) if refusal else Answer(N=1)), f"{kind} {inputs}: {answer}")
        call(session == due, f"the session after {kind} {inputs}")
        read = session.read()
        both = (0, 0) if read.refusal else (due.object, due.time)
        call((read.object, read.time) == both, f"the read after {kind} {inputs}: {read}")
    for N in 1, 3, LARGEST_N:
        session = orders.at_order(HALF, N)
        kept = copy.deepcopy(session)
        for count, refusal in (0, 12), (LARGEST_N - N + 1, 22), (MOST_COUNT, 22):
            call(session.add(count) == Answer(refusal) and session == kept, f"{refusal} for add {count} at {N}")
        call(session.read().refusal == 0 and session == kept, f"a read keeps the session at {N}")
    for inputs in [drawn.accepted(rng) for _ in range(20)] + [drawn.with_exact_terms(rng) for _ in range(60)] + [FIVE]:
        pieces = orders.begun(inputs)
        for count in 1, 0, 2, LARGEST_N, 1, 1, 33, 62:
            pieces.add(count)
            pieces.begin(*edges.REFUSED[0])
        call(pieces == orders.at_order(inputs, 101) and pieces.N == 101, f"adds in pieces {inputs}")


def stepped(M, steps):
    """The scaled number that is so many above the whole number M, or below it."""
    near = scaled.whole(M)
    for _ in range(abs(steps)):
        near = scaled.above(near) if steps > 0 else scaled.below(near)
    return near


def sign(q):
    return (q > 0) - (q < 0)


def of_test_11():
    """Request #109 at its limit: where M is, without rounding and by the steps of each side; of_calls makes the begins.

    A test of the lower side's M, or of the exact M, would let begins pass that are refused there.
    """
    largest = LARGEST_2M // 2
    for inputs, side, *off, refusal in edges.AT_TEST_11:
        found = [Scaled(*steps(up, *inputs, 1)[2][:2]) for up in (True, False)]
        ok = sign(orders.exact_M(inputs) - largest) == side and found == [stepped(largest, n) for n in off]
        checks.check(ok and refusal == (11 if off[0] > 0 else 0), "calls", f"M of {inputs}: {found}")
    passing = [(side <= 0, lower <= 0) for _, side, _, lower, refusal in edges.AT_TEST_11 if refusal]
    checks.check(all(map(any, zip(*passing))), "calls", f"the exact and the lower M of begins refused as 11: {passing}")


# The advice.


def of_table_of_orders():
    """The rule on fractions, at each entry and one below it."""

    def follows(M, N):
        return 2 * M <= N + 2 and 2 * Fraction(M) ** N / math.factorial(N + 1) <= Fraction(1, 1 << 32)

    for M, N in enumerate(advice.ORDERS, 1):
        ok = follows(M, N) and not follows(M, N - 1)
        checks.check(ok, "advice", f"the entry for M = {M}: {N}")
    # "for M = 1 it is 13"
    found = len(advice.ORDERS), advice.ORDERS[0], advice.ORDERS[-1]
    checks.check(found == (256, 13, 708), "advice", f"the table: {found}")


def of_advice(rng):
    """The orders of edges.py: at N = 1, after adds and after refused calls, and the session is as it was."""
    of_table_of_orders()
    empty = Session()
    for refused in [None, *edges.REFUSED]:
        if refused:
            empty.begin(*refused)
        found = empty.advise()
        checks.check(found == Advice(21) and empty == Session(), "advice", f"on an empty session: {found}")
    for M, inputs, side, steps, _ in edges.AT_WHOLE_M:
        exact, upper = orders.exact_M(inputs), Scaled(*orders.begun(inputs).M[:2])
        found = sign(exact - M), upper == stepped(M, steps)
        checks.check(found == (side, True), "advice", f"M of {inputs}: {exact} and {upper}")
    for inputs, order in edges.ADVISED:
        session = orders.begun(inputs)
        for count in 0, 1, rng.randrange(2, 40):
            session.add(count)
            session.begin(*edges.REFUSED[0])
            kept, found = copy.deepcopy(session), session.advise()
            ok = found == Advice(order=order) and session == kept
            checks.check(ok, "advice", f"{inputs} at {session.N}: {found}, due {order}")


# The ends as doubles.


def bits_of(x):
    """The bits of a float, as the machine has them."""
    return int.from_bytes(struct.pack(">d", x), "big")


def pairs(rng):
    """Two floats, the second at most the first: numbers of 32 bits with one e or two, and any."""
    for gap in [*range(60)] * 20:
        e = rng.randrange(-170, -31)
        yield math.ldexp(rng.randrange(LEAST, LIMIT), e), math.ldexp(rng.randrange(LEAST, LIMIT), e - gap)
        # The last bits of the lower one are 0, so that some are in the middle of two floats.
        low = rng.randrange(LEAST, LIMIT) >> gap % 32 << gap % 32
        yield math.ldexp(rng.randrange(LEAST, LIMIT), e), math.ldexp(low, e - gap)
    for _ in range(4000):
        high = rng.randrange(0x7FF << 52)
        low = max(0, high - rng.choice((0, 1, rng.randrange(1 << 52), rng.randrange(60 << 52))))
        yield tuple(struct.unpack(">d", n.to_bytes(8, "big"))[0] for n in (high, low))


def of_subtraction(rng):
    """doubles.py on fractions and Python's floats agree: the nearest double of a difference, and its bits."""
    ways = set()
    for first, second in pairs(rng):
        x, y = max(first, second), min(first, second)
        exact = Fraction(x) - Fraction(y)
        found = doubles.nearest(exact)
        ways.add(doubles.rounded(exact))
        ok = found == Fraction(x - y) and doubles.bits(found) == bits_of(x - y)
        checks.check(ok and doubles.bits(Fraction(x)) == bits_of(x), "doubles", f"{x!r} - {y!r}: {found}")
        # By the definition: neither double beside it is nearer, and where one is as near the last bit is 0.
        beside = (math.nextafter(x - y, to) for to in (-math.inf, math.inf))
        off = [abs(Fraction(z) - exact) - abs(found - exact) for z in beside if math.isfinite(z)]
        ok = min(off) > 0 or (min(off) == 0 and bits_of(x - y) % 2 == 0)
        checks.check(ok, "doubles", f"{x!r} - {y!r} is not the nearest: {found}")
    checks.check(ways == {"exact", "down", "up", "even below", "even above"}, "doubles", f"only {ways}")
    for q in Fraction(1, 3), Fraction((1 << 54) + 1), Fraction(1, 1 << 1075), Fraction(1 << 1024):
        try:
            checks.check(False, "doubles", f"the bits of {q}: {doubles.bits(q)}")
        except ValueError:
            pass


def of_doubles(rng):
    """Request #108: the cases of edges.py, with and without an object; refusals; and that the session is as it was."""
    of_subtraction(rng)
    for inputs, N, lower, upper, how in edges.AS_DOUBLES:
        for number in 0, 1, edges.MOST_32:
            session = orders.at_order(inputs, N)
            session.object = number
            kept = copy.deepcopy(session)
            found, plotted = session.read_doubles(), session.read_plot_record()
            checks.check(session == kept, "doubles", f"the session after the host calls, {inputs} at {N}")
            exact = [Fraction(m * 2 ** max(e, 0), 2 ** max(-e, 0)) for m, e in (lower, upper)]
            ok = found == (0, exact[0], exact[1] if exact[1] < 1 else None) and (how is None) == (exact[1] >= 1)
            checks.check(ok, "doubles", f"{inputs} at {N}: {found}")
            due = (0, None)
            if how:
                due = (0, (number, *exact, Fraction(float(exact[1]) - float(exact[0]))))
                checks.check(doubles.rounded(exact[1] - exact[0]) == how, "doubles", f"{inputs} at {N}: not {how}")
            checks.check(plotted == due, "doubles", f"{inputs} at {N}, object {number}: {plotted}")
    hows = {how for *_, how in edges.AS_DOUBLES}
    checks.check(hows == {None, "exact", "down", "up", "even below", "even above"}, "doubles", f"only {hows}")
    empty = Session()
    for session, refusal in (empty, 21), (orders.begun(LATEST), 23), (orders.at_order(LATEST, LARGEST_N - 1), 23):
        found = session.read_doubles(), session.read_plot_record()
        checks.check(found == ((refusal, None, None), (refusal, None)), "doubles", f"{refusal} is due: {found}")
    # No read has equal ends, and no end is too small or too large for a double.
    for inputs in [drawn.accepted(rng) for _ in range(200)]:
        session = orders.begun(inputs)
        orders.add_up_to(session, min(orders.least_of(session) + rng.choice((0, 0, 1, 20)), LARGEST_N))
        read, record = session.read(), session.read_plot_record().record
        ends = [scaled.value(Scaled(*end)) for end in (read.lower, read.upper)]
        ok = ends[0] < ends[1] and all(doubles.nearest(end) == end for end in ends)
        checks.check(ok and (record is None or record.difference > 0), "doubles", f"{inputs}: {read}")


# The week.


def of_week(rng):
    """Request #111: some weeks with what is due of them, and all lists by another arithmetic."""

    def check(ok, what):
        checks.check(ok, "weeks", what)

    week, test_1, chan_1 = Week(), orders.at_order(TEST_1, 66), orders.at_order(DOCUMENTS["Chan 1"], 13)
    check(week.ends() == (ZERO, ZERO) and week.held() == [], f"an empty week: {week.ends()}")
    for day, session, refusal, *due in (
        (2, test_1, 0, (2627622691, -35), (2627623085, -35)),
        (0, chan_1, 0, (2627622691, -35), (2962338876, -35)),
        (7, test_1, 13, (2627622691, -35), (2962338876, -35)),
        (2, test_1, 0, (2627622691, -35), (2794980981, -34)),
        (1, orders.at_order(ALFANO_3, 597), 0, (3449859490, -35), (2640538694, 133)),
    ):
        kept = copy.deepcopy(session)
        found = week.enter(day, session), *week.ends()
        check(found == (refusal, *due) and session == kept, f"on day {day}: {found}, due: {refusal} {due}")
    # The largest upper end and the smallest ends.
    for encounter, N, due in (HIGHEST, LARGEST_N, (2999941209, 350)), (LOWEST, 1, (3381151276, -168)):
        check(orders.at_order(encounter, N).read().upper == due, f"the upper end of {encounter}")
    for name, calls in week_reference.chosen_lists(rng):
        week = Week()
        for n, entry in enumerate(week_reference.entries(calls)):
            before = copy.deepcopy(week.days)
            refusal = week.enter(entry.day, entry)
            what = f"{name}, entry {n}"
            check((week.days == before) == (refusal > 0), f"{what}: refused {refusal}")
            total = rounded.ZERO
            for held in week.held():
                total = rounded.UP.plus(total, (*held.upper, False))
            lower, upper = week.ends()
            check(upper == total[:2], f"{what}: the upper end {upper}")
            lowers = [scaled.value(held.lower) for held in week.held()]
            check(scaled.value(lower) == max(lowers, default=0), f"{what}: the lower end {lower}")
            if lowers:
                check(scaled.at_most(lower, upper), f"{what}: the ends {lower} and {upper}")


class WrongWeek(Week):
    """A week whose ends and tests are those of the request, each as one function, for one of them to be another."""

    def __init__(self, lower=None, order=None, add=None, upper=None, tests=None, place=None):
        super().__init__()
        self.lower, self.order, self.add, self.upper = lower, order, add, upper
        self.tests, self.place, self.entered = tests, place, []

    def enter(self, day, session):
        refusal = self.tests(self, day, session) if self.tests else None
        if refusal is None:
            if self.place and day < DAYS and not session.read().refusal:
                return self.place(self, day, Ends(*(Scaled(*end) for end in session.read()[2:4])))
            before = self.held()
            refusal = super().enter(day, session)
            if not refusal:
                self.entered += [one for one in self.held() if not any(one is old for old in before)]
        return refusal

    def ends(self):
        held = self.held()
        if not held:
            return super().ends()
        lower = self.lower([one.lower for one in held]) if self.lower else super().ends().lower
        if self.upper:
            return Ends(lower, self.upper([one.upper for one in held]))
        total, add = ZERO, self.add or week_reference.plus_up
        for one in self.order(self) if self.order else held:
            total = add(total, one.upper)
        return Ends(lower, total)


def occupied(week, place, day):
    return [week.days[day][place]] if week.days[day][place] else []


def tests_24_first(week, day, session):
    """24 before the read's own tests."""
    return 24 if day < DAYS and None not in week.days[day] else None


def tests_13_last(week, day, session):
    """13 after the read's own tests."""
    return session.read().refusal or None


def tests_above_7(week, day, session):
    """13 from day 8 on; day 7 is day 0."""
    return Week.enter(week, 0, session) if day == 7 else None


def tests_of_a_byte(week, day, session):
    """The day in one byte."""
    return Week.enter(week, day % 256, session)


def takes_a_place(week, day, session):
    """A refused read takes a place, with zero for both ends."""
    if day < DAYS and session.read().refusal and None in week.days[day]:
        week.days[day][week.days[day].index(None)] = Ends(ZERO, ZERO)
        return session.read().refusal
    return None


def of_last_place(week, day, ends):
    """The last empty place."""
    empty = [place for place in range(PLACES) if not week.days[day][place]]
    if not empty:
        return 24
    week.days[day][empty[-1]] = ends
    return 0


def of_ninth(week, day, ends):
    """A ninth bracket takes the place of the eighth."""
    if None not in week.days[day]:
        week.days[day][-1] = ends
        return 24
    week.days[day][week.days[day].index(None)] = ends
    return 0


def of_next_day(week, day, ends):
    """A ninth bracket goes to the next day."""
    for later in range(day, DAYS):
        if None in week.days[later]:
            week.days[later][week.days[later].index(None)] = ends
            return 0
    return 24


def rounded_once(uppers):
    """U of the exact sum."""
    return scaled.upward(sum(map(scaled.value, uppers)))


def at_most_1(uppers):
    """The sum of the request, or 1 where it is above 1."""
    return min(functools.reduce(week_reference.plus_up, uppers), scaled.ONE, key=scaled.value)


WRONG_WEEKS = {
    "the least lower end": dict(lower=lambda lowers: min(lowers, key=scaled.value)),
    "the first lower end": dict(lower=lambda lowers: lowers[0]),
    "the last lower end": dict(lower=lambda lowers: lowers[-1]),
    "the lower end by m": dict(lower=max),
    "the lower end by e alone": dict(lower=lambda lowers: max(lowers, key=lambda end: end.e)),
    "lower ends added": dict(lower=lambda lowers: scaled.down(sum(map(scaled.value, lowers)))),
    "addition D": dict(add=lambda a, b: scaled.plus(False, a, b)),
    "a sum that is rounded once": dict(upper=rounded_once),
    "the greatest upper end": dict(upper=lambda uppers: max(uppers, key=scaled.value)),
    "an upper end of at most 1": dict(upper=at_most_1),
    "the order of entries": dict(order=lambda week: week.entered),
    "from the last day": dict(order=lambda week: [one for day in week.days[::-1] for one in day if one]),
    "from the last bracket": dict(order=lambda week: week.held()[::-1]),
    "each day from its last place": dict(order=lambda week: [one for day in week.days for one in day[::-1] if one]),
    "place by place": dict(
        order=lambda week: [one for place in range(PLACES) for day in range(DAYS) for one in occupied(week, place, day)]
    ),
    "without the last day": dict(order=lambda week: [one for day in week.days[:-1] for one in day if one]),
    "24 before the read": dict(tests=tests_24_first),
    "13 after the read": dict(tests=tests_13_last),
    "day 7 is day 0": dict(tests=tests_above_7),
    "a day in one byte": dict(tests=tests_of_a_byte),
    "a refused entry takes a place": dict(tests=takes_a_place),
    "the last empty place": dict(place=of_last_place),
    "a ninth bracket replaces the eighth": dict(place=of_ninth),
    "a ninth bracket on the next day": dict(place=of_next_day),
}


def of_wrong_weeks(rng):
    """The lists of week_reference.py tell each wrong week from the right one, and that from none."""
    lists = [list(week_reference.entries(calls)) for _, calls in week_reference.chosen_lists(rng)]

    def differs(rules):
        for entries in lists:
            right, wrong = Week(), WrongWeek(**rules)
            for entry in entries:
                found = [(week.enter(entry.day, entry), week.numbers(), week.ends()) for week in (right, wrong)]
                if found[0] != found[1]:
                    return True
        return False

    checks.check(not differs({}), "wrong weeks", "no rule is another")
    for name, rules in WRONG_WEEKS.items():
        checks.check(differs(rules), "wrong weeks", name)


# The script.


def of_scripts():
    for name, script, due in edges.scripts():
        checks.check(records.listing(script) == due, "listings", name)
    for name, script, due in edges.of_decimals():
        line = due.splitlines()[-1]
        ok = brackets.has_its_decimals(records.printed(line), records.printed_decimals(line))
        checks.check(ok, "listings", f"the promises, {name}")
    # At the end of a script there is no kind byte.
    script = records.begin(*HALF)
    for position in len(script), len(script) + 1:
        checks.check(records.record_at(script, position).refusal == 1, "listings", "no kind byte")
    minus = records.begin(8, 1, 1, -8, 0)
    checks.check(minus[13:17] == b"\xf8\xff\xff\xff", "listings", "two's complement")


def of_dropping(rng):
    """Request #110: what is left of a script, its answers, and that dropping twice is dropping once."""
    for name, script, due in edges.dropped():
        checks.check(records.dropped(script) == due, "dropped", name)
    tried = [(name, script) for name, script, _ in (*edges.dropped(), *edges.scripts()) if len(script) < 1000]
    tried += [(f"drawn {n}", drawn.with_empty_adds(rng, drawn.script(rng, 8, 100))) for n in range(60)]
    tried += [(f"small bytes {n}", drawn.small_bytes(rng)) for n in range(200)]
    counts = set()
    for name, script in tried:
        new = records.dropped(script)
        kept, gone = records.parted(script, records.listing(script))
        checks.check(records.answers(records.listing(new)) == kept, "dropped", f"the answers left, {name}")
        checks.check(set(gone) <= {"refused 12"} and "refused 12" not in kept, "dropped", f"what is dropped, {name}")
        checks.check(records.dropped(new) == new and (new == script) == (not gone), "dropped", f"once more, {name}")
        counts.add(len(gone))
    checks.check(counts >= set(range(8)), "dropped", f"how many are dropped: {counts}")


def main():
    rng = random.Random(options.SEED)
    of_arithmetic(rng)
    of_steps(rng)
    of_wrong_counts()
    of_decimals(rng)
    of_calls(rng)
    of_test_11()
    of_advice(rng)
    of_doubles(rng)
    for part in of_week, of_wrong_weeks:
        part(random.Random(options.SEED))
    of_scripts()
    of_dropping(rng)
    checks.end()


if __name__ == "__main__":
    main()
