#!/usr/bin/env python3
"""Compares the calls of libjinthuol.a from C, C++, Python and Rust with reference.py and records.py.

    python3 tests/bindings.py [--library FOLDER] [--seed N]

The folder holds the library; `tools/build jinthuol` writes it to target/staticlib. Encounters go through
bindings/c/example.c, compiled as C and as C++, which enters each that is read into a week (week.py has more weeks);
guard.c tries that no call writes past a session. The divisions of division.py go through quotients.c, compiled so too,
and through bindings/python. The tests of bindings/rust are run. Scripts go through bindings/python and bindings/rust,
and their records as calls through bindings/python, where every number of the session, its advice and its ends as
doubles are compared too. The same calls go through doubles.c, compiled as C and as C++, for the ends as doubles. What is
built goes to target/bindings. Exits with 1 at the first difference.
"""

import itertools
import math
import os
import random
import re
import struct
import subprocess
import sys
from typing import NamedTuple

sys.dont_write_bytecode = True
import division
import doubles
import drawn
import edges
import encounters
import fields
import options
import orders
import records
from checks import shortened
from compiled import BINDINGS, BUILT, COMPILERS, LONGEST_RUN, built, differs, library_of, library_option, output
from doubles import Doubles, Plotted
from encounters import AT_THRESHOLD, DOCUMENTS, EDGES, SMALL, THIN
from options import ROOT
from records import MOST_COUNT, READ
from reference import LARGEST_N, REFUSALS, Answer, Session
from scaled import LEAST, LIMIT, Scaled
from week_reference import Week

EXAMPLES = sorted((ROOT / "examples").glob("*.script"))


# Encounters, through the program in C.


def cases(rng):
    """The five inputs and an order for each, or 0 for the advised one; then an object number and a time, or not."""
    for case in inputs_and_orders(rng):
        yield rng.choice((case, (*case, *drawn.object_and_time(rng))))
    for _, encounter in edges.BEGINS:
        yield *encounter, 3
    for _, (*encounter, number, time) in edges.conjunctions():
        yield *encounter, 3, number, time


def inputs_and_orders(rng):
    for encounter in [*DOCUMENTS.values(), *EDGES.values(), SMALL, THIN]:
        for N in (0, 1, 6, *chosen(rng, encounter, LARGEST_N)):
            yield *encounter, N
    for encounter, _ in edges.ADVISED:
        yield *encounter, 0
    for encounter, *_ in AT_THRESHOLD:
        yield *encounter, 1
    for encounter, N, *_ in (*edges.AT_DECIMAL_EDGES, *edges.EXACT_TERMS, *edges.AS_DOUBLES):
        yield *encounter, N
    for encounter in encounters.at_limits():
        yield *encounter, rng.choice((0, 2, 5))
    for _ in range(60):
        for encounter in (*drawn.beside_64(rng), *drawn.near_64(rng)):
            yield *encounter, rng.choice((1, 2, 20))
    for n in range(2000):
        encounter = drawn.encounter(rng)
        for N in chosen(rng, encounter, LARGEST_N if n % 50 == 0 else 150):
            yield *encounter, N


def chosen(rng, encounter, most):
    """The least order that is read and one beside it, unless it is above most; else any. Some are too large, or 0."""
    if rng.random() < 0.05:
        yield 0
    if rng.random() < 0.02:
        yield rng.choice((LARGEST_N, LARGEST_N + 1, MOST_COUNT + 1))
    least = orders.least(encounter) if orders.begun(encounter) else 0
    if 1 <= least <= most:
        yield least
        yield max(1, least + rng.choice((-1, 1)))
    else:
        yield drawn.whole(rng, most)


WORDS = {kind.call: kind.said for kind in records.KINDS.values()}


def as_double(m, e):
    """An end in 17 digits, or `none` where e does not fit a double."""
    return "%.17g" % math.ldexp(m, e) if -1074 <= e <= 992 else "none"


def of_the_host(call, answer):
    """What it prints for the plotting tool; of a refusal nothing, since the read's line has it."""
    if answer.refusal:
        return []
    if call == "read_doubles":
        _, *ends = answer
        lower, upper = ("%.17g" % float(end) if end is not None else None for end in ends)
        because = "unbounded, since the upper end is 1 or more"
        return [f"as doubles: from {lower} to {upper}" if upper else f"as doubles: at least {lower}, {because}"]
    if answer.record is None:
        return ["no plot record"]
    number, *of_doubles = answer.record
    return [f"plot record: object {number}, lower %.17g, upper %.17g, difference %.17g" % tuple(map(float, of_doubles))]


def lines_of(call, answer):
    """What the program prints of a call."""
    if call in ("read_doubles", "read_plot_record"):
        return of_the_host(call, answer)
    if call == "week_ends":
        decimals = records.decimal_text(False, answer.lower), records.decimal_text(True, answer.upper)
        return [" ".join(map(str, (f"week of {answer.held}:", *answer.lower, *answer.upper, *decimals)))]
    if answer.refusal:
        return [f"refused {answer.refusal}: {REFUSALS[answer.refusal].replace('−', '-')}"]
    if call == "enter":
        return [f"entered on day {answer.day}"]
    if call == "advise":
        return [f"advised {answer.order}" if answer.order is not None else "no order is advised: M is above 256"]
    words = [WORDS[call], answer.N]
    if call != "read":
        return [" ".join(map(str, words))]
    words += [*answer.lower, *answer.upper, answer.class_name]
    words += [records.decimal_text(False, answer.lower), records.decimal_text(True, answer.upper)]
    words += [answer.object, answer.time, answer.exact]
    words += [as_double(*answer.lower), as_double(*answer.upper)]
    rounded = f"rounding starts at term {answer.exact + 1} of {answer.N}"
    return [" ".join(map(str, words)), "every term so far is exact" if answer.exact == answer.N else rounded]


class Entry(NamedTuple):
    refusal: int
    day: int


class WeekEnds(NamedTuple):
    """How many brackets are held, and both ends."""

    held: int
    lower: Scaled
    upper: Scaled


MINUTES_A_DAY = 1440


def called(week, R, sx, sy, xm, ym, N, *of_object):
    """The calls by reference.py. A session that is read is entered into the week, by its time."""
    session = Session()
    if of_object:
        yield "begin_conjunction", session.begin_conjunction(R, sx, sy, xm, ym, *of_object)
    else:
        yield "begin", session.begin(R, sx, sy, xm, ym)
    if N == 0:
        advice = session.advise()
        yield "advise", advice
        if advice.order is None:
            return
        N = advice.order
    if N > 1:
        yield "add", session.add(N - 1)
    read = session.read()
    yield "read", read
    yield "read_doubles", session.read_doubles()
    yield "read_plot_record", session.read_plot_record()
    if not read.refusal:
        day = read.time // MINUTES_A_DAY
        yield "enter", Entry(week.enter(day, session), day)


def fails(what, program, **given):
    """The program ends with status 1 and a line on standard error."""
    given.setdefault("stdout", subprocess.DEVNULL)
    ended = subprocess.run([program], stderr=subprocess.PIPE, timeout=LONGEST_RUN, **given)
    if ended.returncode != 1 or ended.stderr.count(b"\n") != 1:
        differs(what, f"{ended.returncode}, {ended.stderr}", "1, a line on standard error")


# Lines that the program does not take: numbers that are missing, too many, out of range or none, and a line that is too
# long for it.
WRONG_LINES = (
    "8 1 1 8 0",
    "8 1 1 8 0 -1",
    "8 1 1 8 0 65537",
    "4294967296 1 1 0 0 1",
    "8 1 1 2147483648 0 1",
    "8 1 1 8 0 1 25544",
    "8 1 1 8 0 1 4294967296 0",
    "8 1 1 8 0 1 25544 -1",
    "8 1 1 8 0 1 25544 1440 0",
    "8 1 1 8 0 1 object",
    "8 1 1 8 0 1" + 2000 * " " + "25544 1440",
    "R",
)


def of_c(rng, library):
    """Gives how many encounters were compared."""
    programs = {compiler: built(compiler, library, BINDINGS / "c/example.c") for compiler in COMPILERS}
    for compiler in COMPILERS:
        output([built(compiler, library, ROOT / "tests/guard.c")])
    tried, week = list(cases(rng)), Week()
    made = [(case, *call) for case in tried for call in called(week, *case)]
    answered = {(call, answer.refusal) for _, call, answer in made}
    reads = [answer for _, call, answer in made if call == "read" and not answer.refusal]
    classes, counts = {answer.class_name for answer in reads}, {answer.exact for answer in reads}
    # The program makes no add of 0, and no entry of a session that is not read.
    answers = edges.ANSWERS - {("add", 12)} | edges.ENTRIES - {("enter", 21), ("enter", 23)}
    if answered != answers or classes != set(fields.CLASSES) or not counts >= set(range(6)):
        sys.exit(f"bindings: the encounters have only {answered}, the classes {classes} and the counts {counts}")
    made.append(("all", "week_ends", WeekEnds(len(week.held()), *week.ends())))
    due = [(line, call, case) for case, call, answer in made for line in lines_of(call, answer)]
    lines = "".join(" ".join(map(str, case)) + "\n" for case in tried).encode()
    for compiler, program in programs.items():
        found = output([program], input=lines).decode().splitlines()
        if len(found) != len(due):
            differs(f"lines by {compiler}", len(found), len(due))
        for printed, (line, call, case) in zip(found, due):
            if printed != line:
                differs(f"by {compiler}, {call} of {case}", printed, line)
        for wrong in WRONG_LINES:
            fails(f"{compiler}, {wrong}", program, input=wrong.encode())
        with open("/dev/full", "wb") as full:
            fails(f"{compiler}, a full device", program, input=b"8 1 1 8 0 1", stdout=full)
    return len(tried)


# Divisions, through C and Python.


def of_divisions(rng, library):
    """Gives how many were compared."""
    import jinthuol as python

    tried = division.cases(rng)
    due = [division.divided(*case) for case in tried]
    found = {}
    for compiler in COMPILERS:
        lines = "".join(f"{case.up:d} {case.number.m} {case.number.e} {case.divisor}\n" for case in tried).encode()
        printed = output([built(compiler, library, ROOT / "tests/quotients.c")], input=lines).decode()
        found[compiler] = [tuple(map(int, line.split())) for line in printed.splitlines()]
    for up, number, divisor in tried:
        number = python.Scaled(*number)
        answer = number.divided_up(divisor) if up else number.divided_down(divisor)
        numbers = answer.refusal, answer.quotient.m, answer.quotient.e
        found.setdefault("Python", []).append(numbers)
    for language, answers in found.items():
        if len(answers) != len(tried):
            differs(f"divisions by {language}", len(answers), len(tried))
        for case, answer, (refusal, quotient) in zip(tried, answers, due):
            if answer != (refusal, *quotient):
                differs(f"by {language}, {case}", answer, (refusal, *quotient))
    return len(tried)


# Scripts, through Python and Rust; their calls through Python, and for the ends as doubles through C.


def scripts(rng):
    """The name and the script of each."""
    for path in EXAMPLES:
        yield path.name, path.read_bytes()
    for name, script, _ in edges.scripts():
        yield name, script
    yield "an encounter and reads", edges.BEGIN_OBJECT + READ * 2000
    for refusal, record in edges.begins():
        yield f"a begin, {refusal}", edges.BEGIN_OBJECT + record + READ
    for inputs, N, *_ in edges.AS_DOUBLES:
        for begin in records.begin(*inputs), records.begin_conjunction(*inputs, edges.MOST_32, 3):
            # The last term comes after a refused begin and a read.
            first, last = records.add(N - 2) if N > 2 else b"", records.add(1) if N > 1 else b""
            between = records.begin(*edges.REFUSED[0]) + READ
            yield f"{tuple(inputs)} at {N}, kind {begin[0]}", begin + first + between + last + READ
    for n in range(200):
        yield f"drawn {n}", drawn.script(rng, rng.randrange(1, 25), 300)
    for n in range(40):
        for wrong in drawn.WRONG:
            yield f"{wrong.__name__} {n}", wrong(rng)


def arguments(record, python):
    """What Python's call of a record takes."""
    if record.kind.call == "begin":
        return [python.Encounter(*record.inputs)]
    if record.kind.call == "begin_conjunction":
        return [python.Conjunction(python.Encounter(*record.encounter), *record.inputs[5:])]
    return record.inputs


class Made(NamedTuple):
    """A call on the session that the call before left: its name, its line for doubles.c, and three answers after it."""

    name: str
    line: str
    read: Answer
    doubles: Doubles
    plotted: Plotted


def made_on(session, name, kind, inputs=()):
    """The call, after which this is the session."""
    line = " ".join(map(str, (kind, *inputs, 0, 0, 0, 0, 0, 0, 0)[:8]))
    return Made(name, line, session.read(), session.read_doubles(), session.read_plot_record())


def call_by_call(name, script, python):
    """The script's first records as calls from Python: every number of the answer, of the session and of its advice.

    The ends as doubles too, which are asked for first. Gives the calls.
    """
    found, due = python.Session.empty(), Session()
    calls = [made_on(due, f"{name}, no call yet", 0)]
    of_both(calls[0].name, found, calls[0], python)
    for record in itertools.islice(records.records(script), 100):
        if record.refusal:
            break
        a = getattr(found, record.kind.call)(*arguments(record, python))
        expected = fields.answer_numbers(record.called(due))
        what = f"{name}, {record.kind.call} {record.inputs} at {record.position}"
        calls.append(made_on(due, what, script[record.position], record.inputs))
        of_both(what, found, calls[-1], python)
        answer = [a.refusal, a.N, a.lower.m, a.lower.e, a.upper.m, a.upper.e, a.class_, a.object, a.time]
        advice = found.advise()
        numbers = [*answer, a.exact_terms, *found.kept.words, advice.refusal, advice.has_order, advice.order]
        # Python has the session's words unsigned.
        expected += [number % (1 << 32) for number in fields.session_numbers(due)] + fields.advice_numbers(due.advise())
        if numbers != expected:
            names = [field for (field, _), a, b in zip(fields.FIELDS, numbers, expected) if a != b]
            differs(f"from Python, {what}: {', '.join(names)}", numbers, expected)
    return calls


def bits(x):
    """The bits of a float."""
    return int.from_bytes(struct.pack(">d", x), "big")


def of_both(what, session, due, python):
    """The ends as doubles and the record from Python, and every field of the two structs that the library answers."""
    answers = session.read_doubles(), session.read_plot_record()
    unbounded = due.doubles.lower is not None and due.doubles.upper is None
    # A float is compared as the fraction that it is.
    if answers != (due.doubles, due.plotted) or {a.unbounded for a in answers} != {unbounded}:
        differs(f"from Python, {what}", answers, (due.doubles, due.plotted))
    a = python.LIBRARY.jinthuol_read_doubles(session.kept)
    b = python.LIBRARY.jinthuol_read_plot_record(session.kept)
    numbers = [a.refusal, a.tag, bits(a.lower), bits(a.upper), b.refusal, b.tag, b.record.object]
    numbers += map(bits, (b.record.lower, b.record.upper, b.record.difference))
    told(f"from Python, {what}", numbers, fields.host_numbers(due.doubles, due.plotted))


def told(what, numbers, due):
    """The numbers of both answers are those that are due; else the names of those that differ are printed."""
    if numbers != due:
        names = [name for name, a, b in zip(fields.HOST, numbers, due) if a != b]
        differs(f"{what}: {', '.join(names)}", numbers, due)


def of_doubles(library, made):
    """The same calls through C and C++, where every number of both answers is printed, and C's own subtraction."""
    shown = {what for one in made for what in shown_by(one)}
    if not shown >= DUE:
        sys.exit(f"bindings: of the ends as doubles no call has {sorted(DUE - shown, key=str)}")
    for compiler in COMPILERS:
        program = built(compiler, library, ROOT / "tests/doubles.c")
        lines = output([program], input="".join(f"{one.line}\n" for one in made).encode()).decode().splitlines()
        if len(lines) != len(made):
            differs(f"calls by {compiler}", len(lines), len(made))
        for line, one in zip(lines, made):
            *numbers, subtracted = map(int, line.split())
            due = fields.host_numbers(one.doubles, one.plotted)
            told(f"by {compiler}, {one.name}", numbers, due)
            # Where there is no record, it is 0 − 0.
            if subtracted != due[-1]:
                differs(f"{compiler} subtracts, {one.name}", subtracted, due[-1])


def shown_by(one):
    """What of request #108 a call has."""
    refusal, lower, upper = one.doubles
    if refusal:
        yield "refused", refusal
        return
    if one.read.upper in NEXT_TO_1:
        yield "upper end", one.read.upper
    if upper is None:
        yield "unbounded", one.read.object > 0
        return
    yield "both", 2 * upper >= 1
    yield "difference", doubles.rounded(upper - lower)
    if one.read.object in (0, edges.MOST_32):
        yield "object", one.read.object


# The last end below 1, 1, and the first one above it.
NEXT_TO_1 = (LIMIT - 1, -32), (LEAST, -31), (LEAST + 1, -31)
# What of the request the calls are to have.
DUE = {("refused", 21), ("refused", 23), *(("upper end", end) for end in NEXT_TO_1)}
DUE |= {(ends, which) for ends in ("unbounded", "both") for which in (False, True)}
DUE |= {("difference", how) for how in ("exact", "down", "up", "even below", "even above")}
DUE |= {("object", number) for number in (0, edges.MOST_32)}


def of_scripts(rng, rust):
    """Gives how many scripts were compared, and the calls from Python."""
    import jinthuol as python

    count, calls = 0, []
    for count, (name, script) in enumerate(scripts(rng), 1):
        file = BUILT / "script"
        file.write_bytes(script)
        due = records.listing(script)
        found = {"Python": python.run(script), "Rust": output([rust, file])}
        if name.endswith(".script"):
            found["Python's program"] = output([sys.executable, BINDINGS / "python/jinthuol.py", file])
            found["examples/"] = (ROOT / "examples" / name).with_suffix(".listing").read_bytes()
        for language, listing in found.items():
            if listing != due.encode():
                pairs = itertools.zip_longest(listing.decode(errors="replace").splitlines(), due.splitlines())
                first = next((pair for pair in pairs if pair[0] != pair[1]), ("a line end", "another"))
                differs(f"by {language}, {name}: {shortened(script.hex(), 300)}", *first)
        calls += call_by_call(name, script, python)
    of_wrong_numbers(python)
    return count, calls


def of_wrong_numbers(python):
    """Python takes no number that does not fit."""
    session, encounter = python.Session.empty(), python.Encounter(1, 1, 1, 0, 0)
    number, week = python.Scaled(1 << 31, 0), python.Week.empty()
    for call, wrong in (
        (python.Scaled, 1 << 32),
        (python.Scaled, -1),
        (lambda e: python.Scaled(0, e), 1 << 31),
        (number.divided_down, 1 << 32),
        (number.divided_up, -1),
        (lambda day: week.enter(day, session), 1 << 32),
        (lambda day: week.enter(day, session), -1),
        (session.begin, encounter._replace(R=1 << 32)),
        (session.begin_conjunction, python.Conjunction(encounter._replace(R=1 << 32), 1, 2)),
        (session.begin_conjunction, python.Conjunction(encounter, 1 << 32, 2)),
        (session.begin_conjunction, python.Conjunction(encounter, 1, 1 << 32)),
        (session.begin_conjunction, python.Conjunction(encounter, 1, -1)),
    ):
        try:
            sys.exit(f"bindings: Python takes {wrong}: {call(wrong)}")
        except struct.error:
            pass


def of_rust():
    """Runs the tests of bindings/rust. Gives their number and the program that `screen.rs` is built to."""
    said = output(["cargo", "test", "--release", "--offline", "--locked"], cwd=BINDINGS / "rust").decode()
    passed = sum(map(int, re.findall(r"^test result: ok\. (\d+) passed; 0 failed; 0 ignored", said, re.M)))
    if not passed:
        sys.exit(f"bindings: no tests in bindings/rust\n{said}")
    of_another_version()
    return passed, BUILT / "rust/release/examples/screen"


FUNCTIONS = ("empty", "begin", "begin_conjunction", "add", "read", "advise", "read_doubles", "read_plot_record")
FUNCTIONS += ("to_decimal", "divide", "empty_week", "enter", "week_ends", "run")


def of_another_version():
    """With a library of another version the crate calls none of its other functions."""
    folder = BUILT / "another"
    folder.mkdir(exist_ok=True)
    calls = "".join(f"void jinthuol_{name}(void) {{ _exit(0); }}\n" for name in FUNCTIONS)
    (folder / "own.c").write_text("#include <unistd.h>\nunsigned jinthuol_version(void) { return 99; }\n" + calls)
    output(["gcc", "-c", folder / "own.c", "-o", folder / "own.o"])
    output(["ar", "rc", folder / "libjinthuol.a", folder / "own.o"])
    environment = {**os.environ, "JINTHUOL_LIB_DIR": str(folder), "CARGO_TARGET_DIR": str(folder / "rust")}
    tests = [["test", "--test", "calls", name] for name in ("brackets", "decimals", "divisions")]
    tests.append(["test", "--test", "weeks", "empty"])
    for command in ["run", "--example", "screen", EXAMPLES[0]], *tests:
        command = ["cargo", command[0], "--offline", "--locked", *map(str, command[1:])]
        ended = subprocess.run(command, cwd=BINDINGS / "rust", env=environment, capture_output=True, timeout=LONGEST_RUN)
        said = (ended.stdout + ended.stderr).decode()
        if ended.returncode != 101 or "of another version" not in said:
            differs(f"another version, {command}", f"{ended.returncode}: {said}", "101, of another version")


def main():
    parser = options.parser("Compares the calls of libjinthuol.a with reference.py and records.py.")
    library_option(parser)
    arguments = parser.parse_args()
    library = library_of(arguments)
    # For bindings/python and bindings/rust.
    os.environ["JINTHUOL_LIB_DIR"] = str(library)
    os.environ.update(CARGO_TARGET_DIR=str(BUILT / "rust"), RUSTFLAGS="-D warnings")
    sys.path.insert(0, str(BINDINGS / "python"))
    rng = random.Random(arguments.seed)
    compared = of_c(rng, library)
    tests, rust = of_rust()
    count, calls = of_scripts(rng, rust)
    of_doubles(library, calls)
    divisions = of_divisions(rng, library)
    print(
        f"bindings: {compared} encounters from C and C++, {divisions} divisions and {len(calls)} calls from Python too, "
        f"{count} scripts from Python and Rust, {tests} tests of Rust, 0 disagreements"
    )


if __name__ == "__main__":
    main()
