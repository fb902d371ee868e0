"""The least order that is read, and sessions at an order."""

import math
from fractions import Fraction

import exact_series
from reference import LARGEST_2M, LARGEST_T, Session


def begun(encounter):
    """A session at order 1, or None where the begin is refused."""
    session = Session()
    return None if session.begin(*encounter).refusal else session


def at_order(encounter, N):
    """A session at order N, for an encounter that is accepted."""
    session = begun(encounter)
    add_up_to(session, N)
    return session


def add_up_to(session, N):
    """Adds the terms that are missing to order N, if any: an add of 0 is refused."""
    if N > session.N:
        session.add(N - session.N)


def least_for(M):
    """The least N from 1 on with 2M at most N + 2, for a fraction M: test 23, were there no largest order."""
    return max(1, math.ceil(2 * M) - 2)


def least_of(session):
    """The least order that is read, by the session's M."""
    return least_for(Fraction(*exact_series.scaled_pair(session.M)))


def least(encounter):
    """The same for an encounter that is accepted."""
    return least_of(begun(encounter))


def advised(encounter):
    """Request #106: the advised order of an encounter that is accepted, or None."""
    return begun(encounter).advise().order


def exact_M(encounter):
    """M without rounding."""
    u, h, X, Y, _, _ = exact_series.letters(encounter)
    return u + h / 2 + X + Y


def exact_refusal(encounter):
    """Tests 7 and 11 by the exact t and M, for an encounter that tests 3 to 6 pass: the number, or 0."""
    if exact_series.letters(encounter).t > LARGEST_T:
        return 7
    return 11 if 2 * exact_M(encounter) > LARGEST_2M else 0


def exact_least(encounter):
    """The least order that is read by the exact M."""
    return least_for(exact_M(encounter))
