"""What is due of the ends, the class and the decimals of an accepted read, by exact fractions."""

import math
import re
from fractions import Fraction

import exact_series
from encounters import PROBABILITY
from exact_series import at_most, scaled_pair
from reference import THRESHOLD_FACTOR, EXPONENTIAL_CUT

# The least cut of the exponential, the next one, and one where it has converged.
CUTS = (EXPONENTIAL_CUT, EXPONENTIAL_CUT + 1, 2 * EXPONENTIAL_CUT)


def enclosures(encounter, answers):
    """Whether the exact quotients are between the ends of each accepted read, at its order and at later cuts.

    Gives a pair for each read and each two cuts: whether it holds, and which it is.
    """
    orders = {N for answer in answers for N in (answer.N, answer.N + 1, answer.N + 60)}
    sums = exact_series.series_at(encounter, orders)
    exponentials = [exact_series.exponential(encounter, K) for K in CUTS]
    for answer in answers:
        for N in sorted(N for N in orders if N >= answer.N):
            for K, exponential in zip(CUTS, exponentials):
                ok = exact_series.between(answer.lower, sums[N], exponential, answer.upper)
                yield ok, f"read at {answer.N}, series cut at {N}, exponential at {K}"


def is_near(answer, bits, power=1):
    """Whether the upper end is at most the lower end × (1 + 2^-bits)^power."""
    n, d = scaled_pair(answer.lower)
    return at_most(scaled_pair(answer.upper), (n * ((1 << bits) + 1) ** power, d << (bits * power)))


def is_close(session):
    """Demand 3: "the tail bound is at most 2^-31 of the lower sum"."""
    n, d = scaled_pair(session.lower.sum)
    return at_most(scaled_pair(session.tail_bound()), (n, d << 31))


def within_closeness(answer):
    """Demand 3: "the upper end is also at most the lower end × (1 + 2^-31)^(18N + 2,600)"."""
    return is_near(answer, 31, 18 * answer.N + 2600)


def reaches_threshold(end):
    """Whether the end × 10,000 is at least 1."""
    return at_most((1, THRESHOLD_FACTOR), scaled_pair(end))


def has_its_class(answer):
    """Whether the ends fall under the answer's class, and under no other."""
    falls_under = {
        "alert": reaches_threshold(answer.lower),
        "clear": not reaches_threshold(answer.upper),
        "open": not reaches_threshold(answer.lower) and reaches_threshold(answer.upper),
    }
    return [name for name, holds in falls_under.items() if holds] == [answer.class_name]


# "d.ddd, then `e-` and k − 3 in two decimal digits"
DECIMAL = re.compile(r"[1-9]\.[0-9]{3}e-[0-9]{2}")


def has_its_decimals(answer, printed):
    """Request #103: whether the promises hold of the two decimals, as they are printed."""
    if len(printed) != 2 or not all(map(DECIMAL.fullmatch, printed)):
        return False
    ends = [Fraction(*scaled_pair(end)) for end in (answer.lower, answer.upper)]
    # "An end of 1 or more prints as 1.000e-00."
    if any(end >= 1 and text != "1.000e-00" for end, text in zip(ends, printed)):
        return False
    lower, upper = map(Fraction, printed)
    # "A printed lower end is never above its end, a printed upper end below 1 never below it"
    if lower > ends[0] or (upper < ends[1] and ends[1] < 1):
        return False
    # "and each print of an end below 1 is off by at most two in the last digit": of d.ddde-kk that is 0.002e-kk.
    near = (abs(Fraction(text) - end) <= Fraction("0.002" + text[5:]) for text, end in zip(printed, ends) if end < 1)
    return all(near)


def as_float(a):
    return math.ldexp(*a)


def of_probability(name, answer):
    """Whether both ends are the documents' probability to its digits, where they print one for this name.

    Gives a pair for each end: whether it holds, and what it is.
    """
    if name in PROBABILITY:
        due = PROBABILITY[name]
        digits = due.index("e") - due.index(".") - 1
        for end in answer.lower, answer.upper:
            found = as_float(end)
            yield f"{found:.{digits}e}" == due, f"{found} is not {due}"
