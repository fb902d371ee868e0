#!/usr/bin/env python3
"""Holds the rows of crates/encounter/specs/Stars.antt to the reference and to exact fractions.

    python3 tests/stars.py

The check proves that the two sides of a row are equal. It cannot tell that a row says anything: a row with the same text
on both sides is proved too. Here each left side is computed by the reference, each right side has numbers alone (that of
an answer for xm = -8 is the same answer for 8), no left side stands twice, and each case has all its rows.
Exits with 1 where a row does not hold or says nothing.
"""

import re
import sys
from fractions import Fraction
from math import factorial

sys.dont_write_bytecode = True
import exact_series
import options
import orders
import reference
import rounded
import scaled
from checks import Checks

STARS = options.ROOT / "crates/encounter/specs/Stars.antt"
# The rows of each case, in document 01's order, and of the encounter beside them.
ROWS = [2, 2, 2, 2, 14, 4, 3, 3, 5, 4, 2, 2, 1, 1, 22]
ENCOUNTERS = {
    "E₁": (10, 10, 10, 0, 0),
    "E₂": (8, 1, 1, 8, 0),
    "E₃": (8, 1, 1, 8, 1),
    "E₄": (8, 1, 1, -8, 0),
    "E₅": (6, 10, 5, 7, -4),
    "E₆": (131071, 131072, 131071, 0, 0),
    "E₇": (18, 4, 3, 36, 9),
}
# What a right side may have besides numbers.
LITERALS = {"scaled", "negsuc", "pos", "over", "whole", "nought", "a_half", "an_eighth", "^", "+", "(", ")"}
TOKEN = re.compile(r"\s*([()]|\d+|[+^⊗]|\.?[^\s()+^⊗.]+)")

checks = Checks("stars")


def exact(E):
    """The exact letters by their names, and the exact a(n)."""
    R, sx, sy, xm, ym = E
    u, h, X, Y, t, a0 = exact_series.letters(exact_series.Encounter(*E))
    b, zx = Fraction(R * R, 2 * sx * sx), Fraction(xm * xm, 2 * sx * sx)
    zy, g = Fraction(ym * ym, 2 * sy * sy), Fraction(sx * sx - sy * sy, sx * sx)
    F = lambda k: u ** (k + 1) + h ** (k + 1) / 2 + X * (k + 1) * h**k + (Y if k == 0 else 0)
    a = [a0]
    for n in range(3):
        a.append(sum(F(k) * a[n - k] for k in range(n + 1)) / (n + 1))
    return {"u": u, "b": b, "zx": zx, "zy": zy, "g": g, "h": h, "X": X, "Y": Y, "t": t, "F": F, "a": a}


def side(up, E, N):
    session = orders.at_order(exact_series.Encounter(*E), N)
    return session.upper if up else session.lower


def at(E, N):
    return orders.at_order(exact_series.Encounter(*E), N)


def begun(E):
    return reference.Session().begin(*E)


def pair(a):
    return (a[0], a[1])


def value(a):
    return scaled.value(scaled.Scaled(*a))


# Each name with the number of its arguments.
NAMES = {
    "pos": (1, lambda n: n),
    "negsuc": (1, lambda n: -n - 1),
    "scaled": (2, lambda m, e: (m, e)),
    "whole": (1, Fraction),
    "value": (1, value),
    "D": (1, lambda q: pair(scaled.down(Fraction(q)))),
    "U": (1, lambda q: pair(scaled.upward(Fraction(q)))),
    **{name: (1, lambda E, name=name: exact(E)[name]) for name in ["u", "b", "zx", "zy", "g", "h", "X", "Y", "t"]},
    "F": (2, lambda E, k: exact(E)["F"](k)),
    "c": (2, lambda E, n: exact(E)["a"][n] / factorial(n + 1)),
    "series": (2, lambda E, N: sum(exact(E)["a"][n] / factorial(n + 1) for n in range(N))),
    "exponential": (2, lambda E, K: sum(exact(E)["t"] ** k / factorial(k) for k in range(K))),
    "side_letters": (2, lambda up, E: reference.first(rounded.UP if up else rounded.DOWN, *E)),
    "side_start": (2, lambda up, E: pair(side(up, E, 1).c)),
    "side_terms": (3, lambda up, E, n: side(up, E, n + 1)),
    "M": (1, lambda E: pair(reference.M_of(reference.first(rounded.UP, *E)))),
    "d": (2, lambda E, n: pair(at(E, n).d)),
    "tail_bound": (2, lambda E, N: 2 * value(pair(at(E, N).d))),
    "lower_end": (2, lambda E, N: pair(at(E, N).read().lower)),
    "upper_end": (2, lambda E, N: pair(at(E, N).read().upper)),
    "begins": (1, lambda E: lambda session: begun(E)),
    "adds": (1, lambda count: lambda session: session.add(count)),
    # The encounter with an object number and a time of 0, as a begin of kind 1 has it.
    "no_object": (1, lambda E: E),
    "state": (2, at),
    "call": (2, lambda c, session: {"answer": c(session)}),
}
VALUES = {
    **ENCOUNTERS,
    "true": True,
    "false": False,
    "nought": (0, 0),
    "a_half": (1 << 31, -32),
    "an_eighth": (1 << 31, -34),
    "empty": reference.Session(),
    "reads": lambda session: session.read(),
}
INFIX = {
    "^": (3, lambda a, b: a**b),
    "⊗": (2, lambda a, b: a * b),
    "over": (2, Fraction),
    "+": (1, lambda a, b: a + b),
}


def field(x, name):
    x = x[name] if isinstance(x, dict) else getattr(x, name)
    # A number of the steps is a triple, an end a pair.
    return pair(x) if isinstance(x, tuple) and len(x) in (2, 3) else x


def applied(tokens):
    """A name with its arguments, or one argument alone."""
    if tokens[0] not in NAMES:
        return argument(tokens)
    arity, function = NAMES[tokens.pop(0)]
    return function(*[argument(tokens) for _ in range(arity)])


def argument(tokens):
    """A text in parentheses, a number or a name, and its fields."""
    token = tokens.pop(0)
    if token == "(":
        result = computed(tokens)
        tokens.pop(0)
    else:
        result = int(token) if token.isdecimal() else VALUES[token]
    while tokens and tokens[0].startswith("."):
        result = field(result, tokens.pop(0)[1:])
    return result


def computed(tokens, least=0):
    """A text up to its end or to a closing parenthesis."""
    result = applied(tokens)
    while tokens and tokens[0] in INFIX and INFIX[tokens[0]][0] > least:
        strength, function = INFIX[tokens.pop(0)]
        result = function(result, computed(tokens, strength))
    return result


def sides(text):
    """The two arguments of a row."""
    tokens, parts = TOKEN.findall(text), []
    while tokens:
        depth, part = 0, []
        # Up to the end of an argument and of its fields.
        while not part or depth or (tokens and tokens[0].startswith(".")):
            token = tokens.pop(0)
            part.append(token)
            depth += (token == "(") - (token == ")")
        parts.append(part)
    return parts


def cases():
    """The rows under each comment of the table."""
    found = []
    for line in STARS.read_text().split("stars =\n")[1].split("\n"):
        line = line.strip().removeprefix("∷ ")
        if line.startswith("--"):
            found.append([])
        elif "_is " in line:
            found[-1].append(line)
    return found


def main():
    table = cases()
    checks.check([len(rows) for rows in table] == ROWS, "tables", f"rows of each case: {[len(rows) for rows in table]}")
    seen = set()
    for row in (row for rows in table for row in rows):
        kind, text = row.split(" ", 1)
        left, right = sides(text)
        checks.check(computed(list(left)) == computed(list(right)), "rows", f"does not hold: {row}")
        if kind == "answer_is":
            says = [token.replace("E₄", "E₂") for token in left] == right and left != right
        else:
            says = all(token.isdecimal() or token in LITERALS for token in right)
            says = says and any(token in NAMES and token not in LITERALS for token in left)
        checks.check(says, "sides", f"says nothing: {row}")
        checks.check(tuple(left) not in seen, "lefts", f"stands twice: {row}")
        seen.add(tuple(left))
    encounters = STARS.read_text().split("stars =\n")[0]
    for name, inputs in ENCOUNTERS.items():
        R, sx, sy, xm, ym = inputs
        sign = lambda z: f"pos {z}" if z >= 0 else f"negsuc {-z - 1}"
        due = f"{name} = record {{ R = {R}; sx = {sx}; sy = {sy}; xm = {sign(xm)}; ym = {sign(ym)} }}"
        checks.check(due in encounters, "encounters", f"not in the table: {due}")
    checks.end()


if __name__ == "__main__":
    main()
