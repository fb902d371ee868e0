"""Request #106 of document 02: the table of orders, and what a session answers by it."""

import math

# "one for each whole M from 1 to 256"
LARGEST_M = 256


def is_enough(M, N):
    """'2M ≤ N + 2 and 2 × M^N/(N+1)! ≤ 2^-32', for a whole M: the second multiplied crosswise."""
    return 2 * M <= N + 2 and 2 * M**N * 2**32 <= math.factorial(N + 1)


def least_enough(M):
    """'the least N': every N from 0 on is tried."""
    N = 0
    while not is_enough(M, N):
        N += 1
    return N


# "a table of 256 orders": the entry for M stands at M − 1.
ORDERS = [least_enough(M) for M in range(1, LARGEST_M + 1)]


def order_for(M):
    """The entry for M, a fraction above 0, "taken up to a whole number, or `none` above 256"."""
    whole = math.ceil(M)
    return ORDERS[whole - 1] if whole <= LARGEST_M else None
