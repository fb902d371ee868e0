#!/usr/bin/env python3
"""Several solutions of one encounter, each as likely as the others: the probability over all of them.

    python3 examples/equal-weights.py R sx sy xm ym [R sx sy xm ym ..]

Five numbers for each solution, in whole centimetres. Each solution is read at its advised order, and its ends are
divided by the number of solutions: the lower end rounded down, the upper end up. The sum of the quotients is exact.
examples/equal-weights.md is the text on it. It calls the library by bindings/python/jinthuol.py, after
`tools/build jinthuol`.

Exit status: 0 every solution was read; 1 one was not, and what is printed says why; 2 wrong use.
"""

import argparse
import decimal
import struct
import sys

sys.dont_write_bytecode = True
import library


def arguments():
    """The five numbers of each solution."""
    description = "The probability over several solutions of one encounter, each as likely as the others."
    parser = argparse.ArgumentParser(description=description, epilog="Lengths are whole centimetres.")
    parser.add_argument("number", type=int, nargs="+", help="R, sx, sy, xm and ym of a solution, then of the next")
    numbers = parser.parse_args().number
    if len(numbers) % 5:
        parser.error("give five numbers for each solution")
    found = [tuple(numbers[at : at + 5]) for at in range(0, len(numbers), 5)]
    try:
        for inputs in found:
            struct.pack("=IIIii", *inputs)
    except struct.error:
        parser.error("a number does not fit 32 bits, or R, sx or sy is negative")
    return found


def in_digits(up, q):
    """A fraction in four significant digits, rounded down, or where up is true up; 1.000e-00 where it is 1 or more.

    So the library prints an end.
    """
    if q >= 1:
        return "1.000e-00"
    rounding = decimal.ROUND_CEILING if up else decimal.ROUND_FLOOR
    quotient = decimal.Context(prec=4, rounding=rounding).divide(decimal.Decimal(q.numerator), q.denominator)
    return f"{float(quotient):.3e}" if quotient < 1 else "1.000e-00"


def not_read(why):
    print(why)
    print("Not computed: it needs every solution. A refusal says nothing about the probability.")
    sys.exit(1)


def main():
    solutions = arguments()
    jinthuol = library.load("equal-weights.py")
    count = len(solutions)
    lower = upper = 0
    for n, inputs in enumerate(solutions, 1):
        session = jinthuol.Session.empty()
        begun = session.begin(jinthuol.Encounter(*inputs))
        if begun.refusal:
            not_read(f"Solution {n}: the begin was {begun}.")
        order = session.advise().order
        if not order:
            not_read(f"Solution {n}: no order is advised, since M is above 256.")
        session.add(order - begun.N)
        # At the advised order no read is refused: that is proved.
        read = session.read()
        # Nor is a division of an end of a read, by a divisor above 0.
        down, up = read.lower.divided_down(count), read.upper.divided_up(count)
        print(f"Solution {n}: from {read.decimals[0]} to {read.decimals[1]}, {read.class_name}.")
        print(f"  Divided by {count}: from {down.quotient.decimal_down()} to {up.quotient.decimal_up()}.")
        lower, upper = lower + down.quotient.fraction, upper + up.quotient.fraction
    print(f"Over all {count}: the probability is from {in_digits(False, lower)} to {in_digits(True, upper)}.")


if __name__ == "__main__":
    main()
