#!/usr/bin/env python3
"""The encounters of documents 000 and 003, read by reference.py and compared with exact fractions.

    python3 tests/cases.py

For each encounter: the least order N at which a read is accepted, or the refusal that is due; at that
order and at two later ones the exact quotients are between the two ends, and the class is that of the ends.
Then encounters with an end next to 1/10,000, document 01's "Encounters on each edge", those on both sides of test 11,
the count of exact terms of these and of drawn encounters, and reads at the advised order and at later ones. Exits with 1
where anything differs.
"""

import random
import sys
from fractions import Fraction

sys.dont_write_bytecode = True
import brackets
import drawn
import edges
import exact_series
import options
import orders
from advice import LARGEST_M
from brackets import as_float
from checks import Checks
from encounters import AT_64, AT_THRESHOLD, DOCUMENTS, EDGES, FULL, HALF, IN_CENTIMETRES, LATEST
from exact_series import Encounter
from orders import at_order
from reference import LARGEST_N, THRESHOLD_FACTOR, Answer, M_of, Session, first
from rounded import DOWN, UP, ZERO
from scaled import LEAST

# The convolution itself is formed to this cut.
BY_DEFINITION = 16

checks = Checks("cases")


def edge(ok, what):
    checks.check(ok, "other checks", what)


def readings(name, encounter):
    """The reads at the least order that is read, at the least one where the tail bound is small, and at the last one.

    Each with whether the tail bound is small there.
    """
    least = orders.least(encounter)
    # M is rounded up: where 2M is just below a whole number, that may give the next order.
    edge(least - orders.exact_least(encounter) in (0, 1), f"{name}: the least order is {least}")
    if least > 1:
        edge(at_order(encounter, least - 1).read() == Answer(23), f"{name}: read below {least}")
    session = at_order(encounter, least)
    answers = [(session.read(), brackets.is_close(session))]
    while not brackets.is_close(session) and session.N < LARGEST_N:
        session.add(1)
    answers.append((session.read(), brackets.is_close(session)))
    orders.add_up_to(session, LARGEST_N)
    answers.append((session.read(), brackets.is_close(session)))
    return answers


def tabulate(name, encounter):
    """Checks one case; the table's row."""
    row = f"{name:9}" + "".join(f"{x:>10}" for x in encounter)
    begun = Session().begin(*encounter)
    # In none of these cases does the rounding of t or of M decide.
    edge(begun.refusal == orders.exact_refusal(encounter), f"{name}: {begun}")
    if begun.refusal:
        return f"{row}   refused {begun.refusal}"
    answers = readings(name, encounter)
    for answer, close in answers:
        edge(answer.refusal == 0 and brackets.has_its_class(answer), f"{name}: {answer}")
        if close:
            checks.check(brackets.within_closeness(answer), "closeness bounds", f"{name}: closeness at {answer.N}")

    definition = sum(exact_series.by_definition(encounter, BY_DEFINITION))
    exact = Fraction(*exact_series.series(encounter, BY_DEFINITION))
    edge(exact == definition, f"{name}: the exact series")
    for ok, what in brackets.enclosures(encounter, [answer for answer, _ in answers]):
        checks.check(ok, "enclosures", f"{name}: {what}")
    (first, _), (small, _), _ = answers
    for ok, what in brackets.of_probability(name, small):
        edge(ok, f"{name}: {what}")
    shown = [f"{a.N:6} {as_float(a.lower):13.7e} {as_float(a.upper):13.7e}" for a in (first, small)]
    return f"{row}{' '.join(shown)}  {small.class_name}"


def table():
    print("N is the least order that is read; then the least order where the tail bound is at most 2^-31 of")
    print("the lower sum. Lower and upper end at both.")
    head = f"{'case':9}" + "".join(f"{x:>10}" for x in Encounter._fields)
    print(head + 2 * f"{'N':>6} {'lower end':13} {'upper end':13} " + " class")
    for name, encounter in [*DOCUMENTS.items(), *EDGES.items()]:
        print(tabulate(name, encounter))
    for name, given in IN_CENTIMETRES.items():
        edge(DOCUMENTS[name] == given, f"{name}: {DOCUMENTS[name]} is not document 01's {given}")


def at_threshold():
    """Each end next to 1/10,000, on each side of it."""
    for inputs, end, side, name in AT_THRESHOLD:
        answer = orders.begun(inputs).read()
        *nearest, _ = (DOWN if side == "below" else UP).ratio(1, THRESHOLD_FACTOR)
        edge((getattr(answer, end), answer.class_name) == (tuple(nearest), name), f"{inputs}: {answer}")
        edge(brackets.has_its_class(answer), f"{inputs}: class")


def on_edges():
    """Document 01, "Encounters on each edge"; its begins and its listing are in edges.py, for self_test.py."""
    for n, d, *both in edges.RATIOS:
        # Something is lost just where D and U differ.
        lost = both[0] != both[1]
        edge([r.ratio(n, d) for r in (DOWN, UP)] == [(*a, lost) for a in both], f"D and U of {n}/{d}")

    half, quarter, eighth = ((LEAST, e, False) for e in (-32, -33, -34))
    session = at_order(HALF, 1)
    edge(session.M == half, "(10, 10, 10, 0, 0): M")
    for side in (session.lower, session.upper):
        edge(side.u == side.c == half and side.h == ZERO, "(10, 10, 10, 0, 0): u, c(0), h")
    for side in (at_order(HALF, 2).lower, at_order(HALF, 2).upper):
        edge(side.c == eighth, "(10, 10, 10, 0, 0): c(1)")
    edge(exact_series.by_definition(HALF, 3)[2] == Fraction(1, 48), "(10, 10, 10, 0, 0): exact c(2)")
    edge(session.tail_bound() == quarter and session.read().refusal == 0, "(10, 10, 10, 0, 0) at N = 1")

    lower, upper = (first(r, *FULL) for r in (DOWN, UP))
    edge(lower.t == upper.t == DOWN.ratio(64, 1), "(8, 1, 1, 8, 0): t = 64")
    edge(M_of(upper) == DOWN.ratio(1056, 1), "(8, 1, 1, 8, 0): M = 1,056")
    for name, encounter, N in edges.LEAST_ORDERS:
        edge(orders.least(encounter) == N, f"{name}: the least order")
        edge(at_order(encounter, N - 1).read() == Answer(23), f"{name} at {N - 1}")
        edge(at_order(encounter, N).read().refusal == 0, f"{name} at {N}")
    for N in (1, LARGEST_N - 1, LARGEST_N):
        edge(at_order(LATEST, N).read() == at_order(LATEST._replace(xm=-36), N).read(), f"xm = -36 at {N}")
    edge(at_order(HALF, LARGEST_N).N == LARGEST_N, "N = 1, and an add to the largest order")


def at_largest_order():
    """Request #109: "Encounters that could then never be read should be stopped at the start", and no others."""
    rng = random.Random(options.SEED)
    tried = [inputs for inputs, *_ in edges.AT_TEST_11] + [AT_64, FULL]
    tried += [inputs for _ in range(20) for inputs in drawn.beside_largest_M(rng)]
    for inputs in tried:
        M = Fraction(*exact_series.scaled_pair(M_of(first(UP, *inputs))))
        due = 11 if orders.least_for(M) > LARGEST_N else 0
        found = Session().begin(*inputs).refusal
        checks.check(found == due, "largest orders", f"begin {inputs}: {found}, due {due}")
        if not found:
            answer = at_order(inputs, LARGEST_N).read()
            checks.check(answer.N == LARGEST_N, "largest orders", f"{inputs} at {LARGEST_N}: {answer}")


# The orders of the drawn encounters: no term is known to be exact after the fifth.
ORDERS = 8


def exact_terms():
    """Request #105: the exact terms, by the flags of the steps and by exact fractions."""
    rng = random.Random(options.SEED)
    for inputs, N, *due in edges.EXACT_TERMS:
        session = at_order(inputs, N)
        found = (session.exact, session.lossless), exact_series.exact_terms(inputs, N)
        checks.check(found == (tuple(due), tuple(due)), "counts", f"{tuple(inputs)} at {N}: {found}, due {due}")
    tried = [*DOCUMENTS.values(), *EDGES.values(), *(inputs for inputs, *_ in edges.EXACT_TERMS)]
    tried += [drawn.accepted(rng) for _ in range(200)] + [drawn.with_exact_terms(rng) for _ in range(800)]
    met = set()
    for inputs in filter(orders.begun, tried):
        session = orders.begun(inputs)
        for N in range(1, ORDERS + 1):
            found, due = (session.exact, session.lossless), exact_series.exact_terms(inputs, N)
            checks.check(found == due, "counts", f"{inputs} at {N}: {found}, due {due}")
            met.add((N, *found))
            session.add(1)
    # Up to four terms: nothing is lost yet, or on the way of the next one, or on that of an earlier one.
    due = {(N, N, lossless) for N in range(1, 5) for lossless in (0, 1)}
    due |= {(N, exact, 0) for N in range(1, 6) for exact in range(N)}
    checks.check(due <= met, "counts", f"not met: {sorted(due - met)}")


def advised():
    """Request #106: at the advised order, and at later ones, a read is accepted and the tail bound is small."""
    rng = random.Random(options.SEED)
    tried = [*DOCUMENTS.values(), *EDGES.values(), *(inputs for inputs, _ in edges.ADVISED)]
    tried += [drawn.accepted(rng) for _ in range(60)]
    tried += [inputs for M in rng.sample(range(1, LARGEST_M + 1), 12) for inputs in drawn.beside_M(rng, M)]
    for n, inputs in enumerate(filter(orders.begun, tried)):
        session = orders.begun(inputs)
        order = session.advise().order
        if order is None:
            continue
        later = [order + 1, order + rng.randint(2, 200), *([LARGEST_N] if n % 16 == 0 else [])]
        for N in order, *later:
            orders.add_up_to(session, N)
            answer = session.read()
            ok = answer.refusal == 0 and brackets.is_close(session)
            checks.check(ok, "advised orders", f"{inputs} at {N}, where {order} is advised: {answer}")
            if N == order:
                checks.check(brackets.within_closeness(answer), "closeness bounds", f"{inputs}: closeness at {N}")
    # Here M is 1, and 13 is advised. Two terms fewer are too few.
    edge(not brackets.is_close(at_order((1, 1, 1, 1, 1), 11)), "(1, 1, 1, 1, 1) at 11")


def main():
    table()
    at_threshold()
    on_edges()
    at_largest_order()
    exact_terms()
    advised()
    checks.end()


if __name__ == "__main__":
    main()
