#!/usr/bin/env python3
"""Compares the program `drop_empty_adds` (request #110) with records.py, byte for byte.

    python3 tests/dropping.py [--drop_empty_adds PROGRAM] [--screen PROGRAM] [--seed N]

The scripts: those of edges.py, with what is left of them or with a listing, those of examples/, some cut short at every
length, freshly drawn and wrong ones with empty adds put in, the longest ones, and some that come in small pieces. Of
each that is not too long: `screen` answers the records that are left as it answered them in the old script, where it
refused the dropped ones as 12; and the program leaves what it wrote as it is. Then reads and writes that fail.
Exits with 1 where anything differs.
"""

import random
import sys
import tempfile

sys.dont_write_bytecode = True
import drawn
import edges
import options
from checks import Checks, shortened
from edges import BEGIN_FULL, BEGIN_HALF, BEGIN_LATEST, BEGIN_OBJECT, EMPTY_ADD
from encounters import SMALL, TEST_1
from program import Ended, Program, program_option
from records import READ, add, answers, begin, begin_conjunction, dropped, parted
from reference import LONGEST_SCRIPT

EXAMPLES = options.ROOT / "examples"
TOO_LONG = b"drop_empty_adds: the script is longer than 65,536 bytes (refusal 8): nothing was written\n"
UNREAD = b"drop_empty_adds: the script could not be read\n"
UNWRITTEN = b"drop_empty_adds: the new script could not be written\n"
# What the old scripts are answered, all together: every call and every refusal of a record but 8.
ANSWERED = {"begun", "added", "read"} | {f"refused {answer}" for _, answer in edges.ANSWERS if answer}
ANSWERED |= {"refused 1", "refused 2"}

checks = Checks("dropping")
drop = screen = None
seen = set()


def shown(script):
    return shortened(script.hex(), 400)


def compare(name, script, new=None, ended=None):
    """One script: what is written is what is left of it, which is that of records.py where none is given."""
    ended = drop.run(input=script) if ended is None else ended
    due = Ended(0, dropped(script) if new is None else new, TOO_LONG if len(script) > LONGEST_SCRIPT else b"")
    what = f"{name}\nscript: {shown(script)}\n found: {ended.status} {shown(ended.stdout)} {ended.stderr}"
    checks.check(ended == due, "scripts", f"{what}\n   due: {shown(due.stdout)} {due.stderr}")
    if ended == due and len(script) <= LONGEST_SCRIPT:
        of_answers(name, script, ended.stdout)


def of_answers(name, old, new):
    """What `screen` answers the two scripts, and what is left of the new one.

    "The answers of the remaining records, offsets aside, must be those that the old script gives them".
    """
    listings = [screen.run(input=script).text for script in (old, new)]
    what = f"{name}\nold: {shown(old)}\n{shortened(listings[0])}\nnew: {shown(new)}\n{shortened(listings[1])}"
    kept, gone = parted(old, listings[0])
    checks.check(answers(listings[1]) == kept, "listings", f"other answers: {what}")
    ok = len(old) - len(new) == len(EMPTY_ADD) * len(gone) and set(gone) <= {"refused 12"}
    checks.check(ok and "refused 12" not in kept, "listings", f"what is dropped: {what}")
    seen.update(answer if answer.startswith("refused") else answer.split()[0] for answer in kept + gone)
    if gone:
        checks.check(drop.run(input=new) == Ended(0, new), "listings", f"dropped again: {what}")


def of_edges():
    for name, script, new in edges.dropped():
        compare(name, script, new)
    for name, script, _ in edges.scripts():
        compare(name, script)
    for refusal, record in edges.begins():
        compare(f"a begin, {refusal}", EMPTY_ADD + record + EMPTY_ADD + add(1) + EMPTY_ADD + READ)


def of_examples():
    for path in sorted(EXAMPLES.glob("*.script")):
        script = path.read_bytes()
        compare(path.name, script)
        # From a file to a file, as stored scripts are passed.
        with path.open("rb") as file, tempfile.TemporaryFile() as new:
            ended = drop.run(stdin=file, stdout=new)
            new.seek(0)
            compare(f"{path.name}, from a file to a file", script, None, ended._replace(stdout=new.read()))


def of_cut_short():
    """A script with every kind of record, cut short at every length, and three that it is the start of."""
    script = EMPTY_ADD + READ + begin(*TEST_1) + EMPTY_ADD + add(35) + READ + 2 * EMPTY_ADD + add(256) + EMPTY_ADD
    script += READ + begin(*edges.REFUSED[0]) + EMPTY_ADD + BEGIN_FULL + READ + BEGIN_LATEST + EMPTY_ADD + READ
    script += BEGIN_OBJECT + EMPTY_ADD + begin_conjunction(*SMALL, 2, 2) + READ + begin(2, 2, 2, 0, 0) + 3 * EMPTY_ADD
    for length in range(len(script) + 1):
        compare(f"cut short at {length}", script[:length])
    for rest in b"\0" + 2 * EMPTY_ADD, 2 * b"\2\0" + EMPTY_ADD, b"\4" + 9 * EMPTY_ADD:
        for length in range(1, len(rest) + 1):
            compare(f"cut short at {length} of {rest.hex()}", script + rest[:length])


def of_drawn(rng):
    for n in range(150):
        compare(f"drawn {n}", drawn.with_empty_adds(rng, drawn.script(rng, rng.randrange(1, 30), 1000)))
        script = drawn.with_empty_adds(rng, drawn.script(rng, rng.randrange(1, 10), 200))
        compare(f"damaged {n}", drawn.damaged(rng, script))
        compare(f"cut short {n}", script[: rng.randrange(len(script) + 1)])
        compare(f"small bytes {n}", drawn.small_bytes(rng))
    for n in range(40):
        for wrong in drawn.WRONG:
            compare(f"{wrong.__name__} {n}", drawn.with_empty_adds(rng, wrong(rng)))


def longest(rng):
    """A begin and records of a few bytes, up to the greatest length, where the last one may be cut short."""
    written = BEGIN_HALF
    while len(written) < LONGEST_SCRIPT:
        written += rng.choice((EMPTY_ADD, EMPTY_ADD, READ, add(1), add(256)))
    return written[:LONGEST_SCRIPT]


def of_lengths(rng):
    for n in range(4):
        script = longest(rng)
        compare(f"the longest {n}", script)
        compare(f"one byte more {n}", script + READ)
        compare(f"an empty add more {n}", script + EMPTY_ADD)


def of_pipes(rng):
    """Short reads: the program gets what one write brought, and must go on to the end. Then a slow reader."""
    script = EMPTY_ADD + BEGIN_HALF + EMPTY_ADD + add(2) + 2 * EMPTY_ADD + READ + BEGIN_OBJECT + EMPTY_ADD + READ
    long = longest(rng)
    for name, bytes_, pieces, pause in (
        ("one byte at a time", script, (1,), 0.002),
        ("pieces of 1 to 7 bytes", script, (1, 7, 3, 2), 0.004),
        ("pieces cut at record ends", script, (3, 21, 3, 3, 6, 1, 29, 3), 0.01),
        ("cut short within an empty add", script + EMPTY_ADD[:2], (5,), 0.004),
        ("a bad kind", EMPTY_ADD + b"\5" + script, (2,), 0.004),
        ("the longest", long, (4096, 1, 4095), 0.002),
        ("too long by 1", long + READ, (LONGEST_SCRIPT, 1), 0.05),
        ("too long by 1, small pieces", long + READ, (1021,), 0.001),
        ("the longest at once", long, (LONGEST_SCRIPT,), 0.05),
    ):
        compare(f"in pieces: {name}", bytes_, None, drop.in_pieces(bytes_, pieces, pause))
    for script in long, LONGEST_SCRIPT * READ:
        compare("a slow reader", script, None, drop.read_slowly(script))


def of_failures():
    """A read that fails is not the script's end, and a write that fails is told; for refusal 8 none is made."""
    script = BEGIN_HALF + READ
    for what, found, due in (
        ("standard input is a folder", drop.read_fails(), Ended(0, b"", UNREAD)),
        ("standard output is full", drop.write_fails(script), Ended(0, b"", UNWRITTEN)),
        ("a write is cut short", drop.write_is_cut(EMPTY_ADD + script, 5), Ended(0, script[:5], UNWRITTEN)),
        ("too long, and standard output is full", drop.write_fails(LONGEST_SCRIPT * EMPTY_ADD), Ended(0, b"", TOO_LONG)),
    ):
        checks.check(found == due, "failures", f"{what}: {found}")


def main():
    global drop, screen
    parser = options.parser("Compares the program drop_empty_adds with records.py.")
    program_option(parser, "drop_empty_adds")
    program_option(parser, "screen")
    arguments = parser.parse_args()
    drop, screen = Program(arguments.drop_empty_adds), Program(arguments.screen)
    rng = random.Random(arguments.seed)
    of_edges()
    of_examples()
    of_cut_short()
    of_drawn(rng)
    of_lengths(rng)
    of_pipes(rng)
    of_failures()
    checks.check(seen == ANSWERED, "listings", f"answers that no record had, or that none may have: {seen ^ ANSWERED}")
    checks.end()


if __name__ == "__main__":
    main()
