#!/usr/bin/env python3
"""Compares the program `screen` with records.py, listing by listing, byte for byte.

    python3 tests/screen.py [--screen PROGRAM] [--seed N]

The scripts: those of edges.py with their listings, those of examples/, the begins of edges.py, freshly drawn ones, one
cut short at every length, wrong ones, the longest ones, and some that come in small pieces. Then reads and writes that
fail, and the encounters of documents 000 and 003: the exact quotients are between the ends that `screen` prints, its
decimals are as near these ends as request #103 says, and it counts the exact terms.
Exits with 1 where anything differs.
"""

import random
import sys

sys.dont_write_bytecode = True
import brackets
import drawn
import edges
import exact_series
import fields
import options
import orders
from checks import Checks, shortened
from edges import BEGIN_FULL, BEGIN_HALF, BEGIN_LATEST, BEGIN_OBJECT, EMPTY_ADD, MOST_32
from encounters import ALFANO_3, ALFANO_5, AT_THRESHOLD, DOCUMENTS, FULL, HALF, LATEST, SMALL, TEST_1
from program import Ended, Program, program_option
from records import READ, add, begin, begin_conjunction, listing, packed, printed, printed_decimals
from reference import LARGEST, LARGEST_N, LONGEST_SCRIPT, Answer

EXAMPLES = options.ROOT / "examples"
REFUSALS = {8, 1, 2} | {answer for _, answer in edges.ANSWERS if answer}

checks = Checks("screen")
refusals_seen = set()
screen = None


def check(ok, what):
    """A check other than that of a whole listing."""
    checks.check(ok, "other checks", what)


def compare(name, script, due=None, ended=None):
    """One script: the listing found is the one due, which is that of records.py where none is given. Gives it."""
    found = (screen.run(input=script) if ended is None else ended).text
    due = listing(script) if due is None else due
    what = f"{name}\nscript: {shortened(script.hex())}\nscreen:\n{shortened(found)}\ndue:\n{shortened(due)}"
    checks.check(found == due, "scripts", what)
    for line in found.splitlines():
        fields = line.split()
        if fields[1:2] == ["refused"]:
            refusals_seen.add(fields[2])
    return found


# What document 01 gives.


def of_edges():
    for name, script, due in edges.scripts():
        compare(name, script, due)
    for name, encounter, N in edges.LEAST_ORDERS:
        found = compare(name, begin(*encounter) + add(N - 2) + READ + add(1) + READ)
        due = f"0 begun 1\n21 added {N - 1}\n24 refused 23\n25 added {N}\n28 read {N} "
        check(found.startswith(due), f"{name}: {found}")
    check(" read 1 " in compare("(10, 10, 10, 0, 0) at N = 1", BEGIN_HALF + READ), "(10, 10, 10, 0, 0) at N = 1")
    calls = READ + add(LARGEST_N - 2) + READ + add(1) + READ
    for record, other in (BEGIN_FULL, FULL._replace(xm=-8)), (BEGIN_LATEST, LATEST._replace(xm=-36)):
        compare(f"xm = {other.xm}", begin(*other) + calls, compare(f"xm = {-other.xm}", record + calls))
    # Each begin stands between an encounter at N = 3 and an add of 1, whose answer tells the order before it.
    for refusal, record in edges.begins():
        found = compare(f"begin {record.hex()}", BEGIN_OBJECT + add(2) + record + add(1) + READ)
        at = 32 + len(record)
        due = [f"32 refused {refusal}", f"{at} added 4"] if refusal else ["32 begun 1", f"{at} added 2"]
        check(found.splitlines()[2:4] == due, f"begin {record.hex()}: {found}")
        compare(f"begin {record.hex()} first", record + EMPTY_ADD + add(1) + READ)


def of_examples():
    """The stored scripts and listings, and examples/make.py."""
    sys.path.insert(0, str(EXAMPLES))
    import make

    stored = sorted(path.stem for path in EXAMPLES.glob("*.script"))
    check(stored == sorted(make.SCRIPTS), f"the scripts in examples/ are not those of make.py: {stored}")
    for name in stored:
        path = EXAMPLES / f"{name}.script"
        script = path.read_bytes()
        check(script == make.SCRIPTS.get(name), f"{path.name} is not what make.py writes")
        check((EXAMPLES / f"{name}.md").is_file(), f"{name}.md is not there")
        due = (EXAMPLES / f"{name}.listing").read_text()
        check(compare(path.name, script) == due, f"{name}.listing")
        with path.open("rb") as file:
            compare(f"{path.name} from a file", script, due, screen.run(stdin=file))


def of_long_work():
    """The longest listing and the longest work."""
    first = begin_conjunction(*HALF, MOST_32, MOST_32 - 1)
    compare("an encounter and reads", first + READ * (LONGEST_SCRIPT - len(first)))
    # Encounters of the largest order, one after another. reference.py would take minutes; only the offsets differ here.
    one = BEGIN_LATEST + add(LARGEST_N - 1)
    times = LONGEST_SCRIPT // len(one)
    begun, added, read = (line.split(" ", 1)[1] for line in listing(one + READ).splitlines())
    starts = [len(one) * n for n in range(times)]
    lines = [f"{at} {begun}\n{at + len(BEGIN_LATEST)} {added}\n" for at in starts]
    due = "".join(lines) + f"{len(one) * times} {read}\n"
    compare(f"{times} encounters of the largest order", one * times + READ, due)


# Drawn scripts.


def of_drawn(rng):
    for n in range(400):
        compare(f"drawn {n}", drawn.script(rng, rng.randrange(1, 30), 3000))
    # One encounter each: a read at every order up to 40, and at some later ones.
    for n in range(150):
        inputs = drawn.encounter(rng)
        script = packed(*drawn.begin_inputs(rng, inputs)) + (READ + add(1)) * 40
        for _ in range(5):
            script += add(rng.randrange(100)) + READ
        compare(f"encounter {inputs}", script)
    for n in range(170):
        for wrong in drawn.WRONG:
            compare(f"{wrong.__name__} {n}", wrong(rng))


def of_classes():
    """Probabilities near 1/10,000, by exact fractions: each class is met."""
    classes = set()
    scripts = [begin(R, LARGEST, LARGEST, 0, 0) + (READ + add(1)) * 4 for R in range(141415, 141436)]
    scripts += [begin(*inputs) + READ for inputs, *_ in AT_THRESHOLD]
    scripts += [begin(1000, 1000, 1000, xm, 0) + add(6) + (READ + add(1)) * 14 for xm in range(-5200, -3000, 50)]
    for script in scripts:
        for line in compare("class", script).splitlines():
            if " read " in line:
                read = printed(line)
                check(brackets.has_its_class(read), f"class: {line}")
                check(brackets.has_its_decimals(read, printed_decimals(line)), f"decimals: {line}")
                classes.add(read.class_name)
    check(classes == set(fields.CLASSES), f"only the classes {classes}")


def of_cut_short(rng):
    """One script with every kind of record, cut short at every length."""
    script = READ + BEGIN_HALF + READ + add(3) + READ + begin(*edges.REFUSED[0]) + add(258) + READ + add(LARGEST_N - 1)
    script += begin(*TEST_1) + add(34) + READ + add(1) + READ + begin(1, 2, 3, 0, 0) + READ
    script += begin(*SMALL) + EMPTY_ADD + READ + begin(*ALFANO_5) + add(30) + READ + BEGIN_FULL + READ
    script += BEGIN_LATEST + READ
    script += BEGIN_OBJECT + READ + begin_conjunction(*edges.REFUSED_CONJUNCTIONS[-1]) + READ + BEGIN_HALF + READ
    script += drawn.script(rng, 12, 300)
    for length in range(len(script) + 1):
        compare(f"cut short at {length}", script[:length])


def of_pipes(rng):
    """Short reads: the program gets what one write brought, and must go on to the end. Then a slow reader."""
    script = BEGIN_LATEST + READ + add(LARGEST_N - 1) + READ + BEGIN_OBJECT + READ
    script += begin(*ALFANO_3) + add(596) + READ + add(1)
    for name, bytes_, pieces, pause in (
        ("one byte at a time", script, (1,), 0.002),
        ("pieces of 1 to 7 bytes", script, (1, 7, 3, 2), 0.004),
        ("pieces cut at record ends", script, (21, 1, 3, 1, 29, 1), 0.01),
        ("one piece, then a pause", BEGIN_HALF, (len(BEGIN_HALF),), 0.05),
        ("cut short within a body", script[:40], (5,), 0.004),
        ("the longest", READ * LONGEST_SCRIPT, (4096, 1, 4095), 0.002),
        ("too long by 1", READ * (LONGEST_SCRIPT + 1), (LONGEST_SCRIPT, 1), 0.05),
        ("too long by 1, small pieces", READ * (LONGEST_SCRIPT + 1), (1021,), 0.001),
        ("the longest at once", READ * LONGEST_SCRIPT, (LONGEST_SCRIPT,), 0.05),
        ("a drawn script", drawn.script(rng, 40, 2000), (1, 2, 4, 8, 16), 0.001),
    ):
        compare(f"in pieces: {name}", bytes_, None, screen.in_pieces(bytes_, pieces, pause))
    bytes_ = BEGIN_HALF + READ * 5000
    compare("a slow reader", bytes_, None, screen.read_slowly(bytes_))


UNREAD = b"screen: the script could not be read\n"
UNWRITTEN = b"screen: the listing could not be written\n"


def of_failures():
    """A read that fails is not the script's end, and a write that fails is told."""
    check(screen.read_fails() == Ended(0, b"", UNREAD), "standard input is a folder")
    check(screen.write_fails(BEGIN_HALF + READ) == Ended(0, b"", UNWRITTEN), "standard output is full")
    check(screen.write_is_cut(BEGIN_HALF + READ, 5) == Ended(0, b"0 beg", UNWRITTEN), "a write is cut short")


# The encounters of documents 000 and 003.


def of_documents(name, encounter):
    """One encounter: reads at every order. The refusal that is due, or the exact quotients between the ends."""
    failures = checks.failures
    found = compare(name, begin(*encounter) + READ + (add(1) + READ) * (LARGEST_N - 1))
    if checks.failures > failures:
        return
    lines = found.splitlines()
    due = orders.exact_refusal(encounter)
    check(printed(lines[0]).refusal == due, f"{name}: {lines[0]}")
    reads = [printed(line) for line in lines[1::2]]
    check(len(reads) == LARGEST_N, f"{name}: {len(reads)} reads")
    if due:
        check(all(read == Answer(21) for read in reads), f"{name}: reads after refusal {due}")
        return
    # In none of these cases is 2M so near a whole number that its rounding decides.
    least = orders.exact_least(encounter)
    check(all(read == Answer(23) for read in reads[: least - 1]), f"{name}: 23 below {least}")
    accepted = reads[least - 1 :]
    ok = [(read.refusal, read.N) for read in accepted] == [(0, N) for N in range(least, LARGEST_N + 1)]
    check(ok and accepted, f"{name}: read from {least} on")
    if not ok or not accepted:
        return
    near = next((read for read in accepted if brackets.is_near(read, 20)), accepted[-1])
    later = reads[min(near.N + 100, LARGEST_N) - 1]
    answers = [accepted[0], near, later]
    for ok, what in [*brackets.enclosures(encounter, answers), *brackets.of_probability(name, near)]:
        check(ok, f"{name}: {what}")
    for read in answers:
        check(brackets.has_its_class(read), f"{name}: class at {read.N}")
        exact, _ = exact_series.exact_terms(encounter, read.N)
        check(read.exact == exact, f"{name}: {read.exact} exact terms at {read.N}")
        line = lines[2 * read.N - 1]
        check(brackets.has_its_decimals(read, printed_decimals(line)), f"{name}: decimals, {line}")


def main():
    global screen
    parser = options.parser("Compares the program screen with records.py.")
    program_option(parser, "screen")
    arguments = parser.parse_args()
    screen = Program(arguments.screen)
    rng = random.Random(arguments.seed)
    of_edges()
    of_examples()
    of_long_work()
    of_drawn(rng)
    of_classes()
    of_cut_short(rng)
    of_pipes(rng)
    of_failures()
    for name, encounter in DOCUMENTS.items():
        of_documents(name, encounter)
    seen = {int(r) for r in refusals_seen if r.isdecimal()}
    check(seen == REFUSALS, f"refusals seen: {sorted(seen)}")
    checks.end()


if __name__ == "__main__":
    main()
