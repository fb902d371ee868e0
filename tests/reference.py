"""The rounded steps, the session and the calls of document 01, as requests #101 to #106 and #108 to #110 change them;
division.py has #107, week_reference.py #111.

A number of the steps is a triple (m, e, lost), as in rounded.py: so each number's way is what the steps say. An end is
a pair (m, e). records.py has the script and its listing.
"""

import itertools
from dataclasses import dataclass, field
from typing import NamedTuple

import doubles
import scaled
from advice import order_for
from rounded import DOWN, ONE, UP, ZERO, above, at_least, doubled, halved

# Document 01's numbers. The largest R, sx, sy and miss, in centimetres:
LARGEST = 10_000_000
LARGEST_T = 64
# Request #109: "no order went above 1,024. That becomes the limit in place of 4,096, and 22 falls above it."
LARGEST_N = 1024
# Request #109, test 11: "a begin whose 2M is above 1,026".
LARGEST_2M = 1026
# In bytes.
LONGEST_SCRIPT = 65_536
# The rounded exponential sums have the terms r(0) to r(255), and r(256) is the next one.
EXPONENTIAL_CUT = 256
# Request #101: "Alert remains where the lower end × 10,000 ≥ 1. Clear now needs the upper end × 10,000 below 1."
THRESHOLD_FACTOR = 10_000

# Both tables of refusals, in their order, with what request #104 adds: "Kind 4 joins the accepted kinds in refusal 1."
# Request #109 has 11 "after test 7 and before 9", request #110 12 "after test 2 and before 21". Request #111 has 13
# "before the read's own tests" and 24 "after those tests", and request #107 has 10: no record meets these three.
REFUSALS = {
    8: "script file longer than 65,536 bytes",
    1: "no kind byte, or kind is not 1, 2, 3 or 4",
    2: "body shorter than its kind needs",
    3: "R is 0 or above 10,000,000",
    4: "sx or sy is 0 or above 10,000,000",
    5: "sy above sx",
    6: "a miss outside −10,000,000 to 10,000,000",
    7: "upper t above 64",
    11: "begin: 2M above 1,026",
    9: "kind 4: object number is 0",
    12: "add: count is 0",
    13: "enter: day number above 6",
    21: "add or read with no encounter begun",
    22: "add: N + count above 1,024",
    23: "read: 2M above N + 2",
    24: "enter: a ninth bracket for a day",
    10: "divide: divisor 0, number not in the scaled form, or e below −1,000,000,000",
}


# The rounded steps.


@dataclass
class Side:
    """What the session holds of one side."""

    u: tuple = ZERO
    h: tuple = ZERO
    X: tuple = ZERO
    Y: tuple = ZERO
    t: tuple = ZERO
    # "both exponential sums"
    exponential: tuple = ZERO
    # "each side's sum of c(0) to c(N−1), with c, p, v and y at N−1"
    sum: tuple = ZERO
    c: tuple = ZERO
    p: tuple = ZERO
    v: tuple = ZERO
    y: tuple = ZERO


def first(r, R, sx, sy, xm, ym):
    """The side at N = 1; its exponential sum is still to come."""
    u = r.ratio(R * R, 2 * sy * sy)
    b = r.ratio(R * R, 2 * sx * sx)
    zx = r.ratio(xm * xm, 2 * sx * sx)
    zy = r.ratio(ym * ym, 2 * sy * sy)
    g = r.ratio(sx * sx - sy * sy, sx * sx)
    c = r.ratio(R * R, 2 * sx * sy)
    return Side(
        u=u,
        h=r.product(u, g),
        X=r.product(zx, b),
        Y=r.product(zy, u),
        t=r.plus(r.plus(zx, zy), u),
        sum=c,
        c=c,
        p=r.product(u, c),
        v=c,
        y=c,
    )


# "Upper side only: M = U(U(U(u + h/2) + X) + Y)"
def M_of(upper):
    """M of the upper side."""
    return UP.plus(UP.plus(UP.plus(upper.u, halved(upper.h)), upper.X), upper.Y)


# "The exponential has r(0) = 1, r(k) = D(D(r(k−1) × t)/k), added likewise for k to 255."
def rounds(r, t):
    """r(k) and the sum of r(0) to r(k), for k from 0 on."""
    total = term = ONE
    for k in itertools.count(1):
        yield term, total
        term = r.over(r.product(term, t), k)
        total = r.plus(total, term)


def exponential(r, t):
    """The sum of the terms below the cut, and the next term."""
    made = list(itertools.islice(rounds(r, t), EXPONENTIAL_CUT + 1))
    return made[-2][1], made[-1][0]


def advance(r, side, N, count):
    """The side from order N to order N + count. Gives the terms c(N) to c(N+count−1)."""
    _, product, plus, over, _ = r
    u, h, X, Y = side.u, side.h, side.X, side.Y
    total, c, p, v, y = side.sum, side.c, side.p, side.v, side.y
    terms = []
    for n in range(N, N + count):
        # The document's n of c(n+1) is n − 1 here: p, v, y and c are those at n − 1.
        c = over(
            plus(plus(plus(p, halved(product(h, v))), product(X, y)), product(Y, c)),
            n * (n + 1),
        )
        p = product(u, plus(c, over(p, n + 1)))
        v = plus(c, over(product(h, v), n + 1))
        y = plus(v, over(product(h, y), n + 1))
        total = plus(total, c)
        terms.append(c)
    side.sum, side.c, side.p, side.v, side.y = total, c, p, v, y
    return terms


# Request #105: "the count of leading terms, of the N summed, on whose way, on either side, nothing was lost."
def exact_terms(lower, upper):
    """How many leading ones of these terms of both sides have lost nothing on either side."""
    return len(list(itertools.takewhile(lambda pair: not (pair[0][2] or pair[1][2]), zip(lower, upper))))


def next_is_formed_of(side):
    """The numbers that the next term is formed of."""
    return side.h, side.X, side.Y, side.c, side.p, side.v, side.y


# The session and the calls.


# "A refusal answers its number, with zero in every other field of the answer (class `clear`)".
class Answer(NamedTuple):
    refusal: int = 0
    N: int = 0
    lower: tuple = scaled.ZERO
    upper: tuple = scaled.ZERO
    class_name: str = "clear"
    # Request #104: "a read answers both".
    object: int = 0
    time: int = 0
    # Request #105: "A read then answers the count".
    exact: int = 0


# Request #106: "The session answers the entry for its upper M, taken up to a whole number, or `none` above 256".
class Advice(NamedTuple):
    """A refusal's number, or 0; then the order, or None."""

    refusal: int = 0
    order: int | None = None


def class_of(lower, upper):
    """Request #101, the class of two ends: "Anything between is `open`"."""
    if at_least(lower, 1, THRESHOLD_FACTOR):
        return "alert"
    return "open" if at_least(upper, 1, THRESHOLD_FACTOR) else "clear"


def refusal_of(R, sx, sy, xm, ym):
    """Tests 3 to 7 and 11: the number of the first that refuses the five inputs, or 0."""
    if R == 0 or R > LARGEST:
        return 3
    if sx == 0 or sx > LARGEST or sy == 0 or sy > LARGEST:
        return 4
    if sy > sx:
        return 5
    if abs(xm) > LARGEST or abs(ym) > LARGEST:
        return 6
    upper = first(UP, R, sx, sy, xm, ym)
    if above(upper.t, LARGEST_T):
        return 7
    # Request #109: "It refuses, as 11 after test 7 and before 9, a begin whose 2M is above 1,026."
    return 11 if above(doubled(M_of(upper)), LARGEST_2M) else 0


# "It starts empty, with zero in every field." An encounter is begun just where N is not 0.
@dataclass
class Session:
    R: int = 0
    sx: int = 0
    sy: int = 0
    xm: int = 0
    ym: int = 0
    # Request #104: "The session keeps both", the object number and the time of closest approach.
    object: int = 0
    time: int = 0
    N: int = 0
    lower: Side = field(default_factory=Side)
    upper: Side = field(default_factory=Side)
    # "the upper r(256), and M" and "the upper d(N)"
    r256: tuple = ZERO
    M: tuple = ZERO
    d: tuple = ZERO
    # Request #105: how many of the N terms are exact.
    exact: int = 0

    @property
    def lossless(self):
        """1 where nothing was lost, on either side, on the way to the numbers that the next term is formed of; else 0."""
        numbers = *next_is_formed_of(self.lower), *next_is_formed_of(self.upper)
        return int(self.N > 0 and not any(lost for _, _, lost in numbers))

    def begin(self, R, sx, sy, xm, ym):
        """The begin of kind 1."""
        # Request #104: "After a kind 1 begin both are 0."
        return self._begun(refusal_of(R, sx, sy, xm, ym), R, sx, sy, xm, ym, 0, 0)

    def begin_conjunction(self, R, sx, sy, xm, ym, object, time):
        """The begin of kind 4."""
        refusal = refusal_of(R, sx, sy, xm, ym)
        # Request #104: "It refuses, as 9 after test 7, a kind 4 record whose object number is 0."
        if refusal == 0 and object == 0:
            refusal = 9
        return self._begun(refusal, R, sx, sy, xm, ym, object, time)

    def _begun(self, refusal, R, sx, sy, xm, ym, object, time):
        if refusal:
            return Answer(refusal)
        lower, upper = first(DOWN, R, sx, sy, xm, ym), first(UP, R, sx, sy, xm, ym)
        lower.exponential, _ = exponential(DOWN, lower.t)
        upper.exponential, self.r256 = exponential(UP, upper.t)
        self.R, self.sx, self.sy, self.xm, self.ym, self.object, self.time = R, sx, sy, xm, ym, object, time
        self.lower, self.upper = lower, upper
        self.M = M_of(upper)
        self.d = upper.c
        self.exact = exact_terms([lower.c], [upper.c])
        self.N = 0
        self._bound(1)
        return Answer(N=self.N)

    def _bound(self, count):
        """The order and d(N), count terms further."""
        for n in range(self.N + 1, self.N + count + 1):
            self.d = UP.over(UP.product(self.d, self.M), n + 1)
        self.N += count

    def add(self, count):
        # Request #110: "It refuses, as 12 after test 2 and before 21, an add with count 0."
        if count == 0:
            return Answer(12)
        if self.N == 0:
            return Answer(21)
        if self.N + count > LARGEST_N:
            return Answer(22)
        lower, upper = advance(DOWN, self.lower, self.N, count), advance(UP, self.upper, self.N, count)
        # "leading": none is counted after one that is not.
        if self.exact == self.N:
            self.exact += exact_terms(lower, upper)
        self._bound(count)
        return Answer(N=self.N)

    def read(self):
        if self.N == 0:
            return Answer(21)
        if above(doubled(self.M), self.N + 2):
            return Answer(23)
        lower = DOWN.quotient(self.lower.sum, UP.plus(self.upper.exponential, doubled(self.r256)))
        upper = UP.quotient(UP.plus(self.upper.sum, self.tail_bound()), self.lower.exponential)
        lower, upper = lower[:2], upper[:2]
        return Answer(0, self.N, lower, upper, class_of(lower, upper), self.object, self.time, self.exact)

    def advise(self):
        # Request #106: "an empty session is refused as 21."
        if self.N == 0:
            return Advice(21)
        return Advice(order=order_for(scaled.value(scaled.Scaled(*self.M[:2]))))

    # Request #108: "The host call works on a session".
    def read_doubles(self):
        return doubles.of_read(self.read())

    def read_plot_record(self):
        return doubles.record_of(self.read())

    def tail_bound(self):
        """The upper side's 2d(N)."""
        return doubled(self.d)
