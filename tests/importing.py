#!/usr/bin/env python3
"""Tries bindings/python/jinthuol.py: importing it, and what it adds to the library's answers.

    python3 tests/importing.py [--seed N]

`tools/build jinthuol` has written the library to target/staticlib. Importing is tried where the library is missing, of
another version or no library, without gcc, twice, from other folders and where the shared object cannot be written.
Floats and fractions are compared with exact ones, decimals with decimals.py, ends as doubles with edges.py, weeks with
week_reference.py. Exits with 1 where anything differs.
"""

import ctypes
import importlib
import itertools
import math
import os
import pathlib
import random
import shutil
import struct
import subprocess
import sys
import tempfile
from fractions import Fraction

sys.dont_write_bytecode = True
import decimals
import ends
import options
import orders
import scaled
import week_reference
from checks import Checks
from edges import ADVISED, AS_DOUBLES, EXACT_TERMS
from encounters import ALFANO_3, AT_THRESHOLD, FULL, HIGHEST, LATEST, LOWEST, TEST_1
from options import ROOT
from reference import LARGEST_N, REFUSALS, Session

MODULE = ROOT / "bindings/python/jinthuol.py"
LIBRARY = ROOT / "target/staticlib/libjinthuol.a"
EXAMPLE = ROOT / "examples/test-1"
# Seconds for one run.
LONGEST_RUN = 60
NO_GCC = {"PATH": "/nowhere"}

checks = Checks("importing")


def python(*arguments, module=MODULE, library=None, **given):
    """Status, standard output and standard error of Python, which finds the module and the library in these folders."""
    environment = {"PATH": os.environ["PATH"], "PYTHONPATH": str(module.parent), "PYTHONDONTWRITEBYTECODE": "1"}
    environment |= {"JINTHUOL_LIB_DIR": str(library)} if library else {}
    environment |= given.pop("env", {})
    command = [sys.executable, *map(str, arguments)]
    ended = subprocess.run(command, capture_output=True, text=True, timeout=LONGEST_RUN, env=environment, **given)
    return ended.returncode, ended.stdout, ended.stderr


# The caller's program goes on after an import that fails.
CALLER = """
try:
    import jinthuol
    print(jinthuol.Session.empty().begin(jinthuol.Encounter(500, 5000, 100, 1000, 0)))
except ImportError as error:
    print("ImportError:", error)
print("the caller goes on")
"""
IMPORTED = 0, "N = 1\nthe caller goes on\n", ""


def imports(what, **given):
    found = python("-c", CALLER, **given)
    checks.check(found == IMPORTED, "imports", f"{what}: {found}")


def fails(what, *says, **given):
    """The import raises ImportError with these words, and the caller goes on."""
    status, stdout, stderr = found = python("-c", CALLER, **given)
    ok = status == 0 and stderr == "" and stdout.startswith("ImportError: ")
    ok = ok and stdout.endswith("\nthe caller goes on\n") and all(words in stdout for words in says)
    checks.check(ok, "imports", f"{what}: {found}")


def archive(folder, code):
    """A library of the test's own."""
    folder.mkdir()
    (folder / "own.c").write_text(code)
    subprocess.run(["gcc", "-fPIC", "-c", folder / "own.c", "-o", folder / "own.o"], check=True)
    subprocess.run(["ar", "rc", folder / "libjinthuol.a", folder / "own.o"], check=True)
    return folder


def of_wrong_libraries(folder):
    run = "tools/build jinthuol"
    fails("no library", "there is no", str(folder), run, library=folder)
    fails("no folder", "there is no", run, library=folder / "nothing")
    later = archive(folder / "later", "unsigned jinthuol_version(void) { return 99; }")
    fails("another version", "version 99", run, library=later)
    other = archive(folder / "other", "int other(void) { return 0; }")
    fails("another library", "is not the library", run, library=other)
    (folder / "broken").mkdir()
    (folder / "broken/libjinthuol.a").write_bytes(b"no archive\n")
    fails("no archive", "could not link", library=folder / "broken")
    status, stdout, stderr = found = python(MODULE, EXAMPLE.with_suffix(".script"), library=folder)
    ok = status == 1 and stdout == "" and stderr.count("\n") == 1 and stderr.startswith("jinthuol.py: there is no")
    checks.check(ok, "imports", f"the program without a library: {found}")


def of_linking(folder):
    """The shared object is made once, and again where the library is another."""
    place = folder / "a folder"
    place.mkdir()
    shutil.copy(LIBRARY, place)
    shared = place / "libjinthuol.so"
    fails("no gcc", "gcc has to link", library=place, env=NO_GCC)
    checks.check(not shared.exists(), "imports", "a shared object without gcc")
    imports("first", library=place)
    made = shared.stat()
    imports("again, without gcc", library=place, env=NO_GCC)
    imports("from another folder", library=place, cwd="/", env=NO_GCC)
    imports("by a path from here", library="a folder", cwd=folder, env=NO_GCC)
    checks.check(shared.stat() == made or shared.stat().st_ino == made.st_ino, "imports", "made twice")
    for seconds in 5, -5:
        time = LIBRARY.stat().st_mtime + seconds
        os.utime(place / "libjinthuol.a", (time, time))
        fails("another library, no gcc", "gcc has to link", library=place, env=NO_GCC)
        imports("another library", library=place)
        checks.check(shared.stat().st_ino != made.st_ino, "imports", "not made again")
        made = shared.stat()
    names = sorted(path.name for path in place.iterdir())
    checks.check(names == ["libjinthuol.a", "libjinthuol.so"], "imports", f"left over: {names}")
    elsewhere = folder / "elsewhere"
    elsewhere.mkdir()
    copy = pathlib.Path(shutil.copy(MODULE, elsewhere))
    imports("a copy of the module", module=copy, library=place, cwd=folder)
    fails("a copy without a library", "there is no", module=copy)
    shared.unlink()
    shared.mkdir()
    fails("where it cannot be written", "cannot be used", str(shared), library=place)
    names = sorted(path.name for path in place.iterdir())
    checks.check(names == ["libjinthuol.a", "libjinthuol.so"], "imports", f"left over: {names}")
    fails("a name that is too long", "cannot be used", library="x" * 5000)


def of_the_program(folder):
    due = 0, EXAMPLE.with_suffix(".listing").read_text(), ""
    for cwd in ROOT, folder, "/":
        found = python(MODULE, EXAMPLE.with_suffix(".script"), cwd=cwd)
        checks.check(found == due, "runs", f"in {cwd}: {found}")
    for arguments in [], [1, 2], ["--help"], [folder / "nothing"], [folder], [""]:
        one_line(arguments, python(MODULE, *arguments), 2)
    # Standard output that cannot be written.
    for to in "> /dev/full", ">&-":
        command = f"exec '{sys.executable}' '{MODULE}' '{EXAMPLE}.script' {to}"
        ended = subprocess.run(["sh", "-c", command], capture_output=True, text=True, timeout=LONGEST_RUN)
        one_line(to, (ended.returncode, ended.stdout, ended.stderr), 1)


def one_line(what, found, status):
    """The program ends with this status and one line on standard error."""
    ended, stdout, stderr = found
    ok = ended == status and stdout == "" and stderr.count("\n") == 1 and "Traceback" not in stderr
    checks.check(ok, "runs", f"{what}: {found}")


# What it adds to the answers.


def of_floats(module, rng):
    """The fraction of a scaled number, and the floats beside it."""
    mantissas = 1 << 31, (1 << 31) + 1, (1 << 32) - 1, 3 << 30
    exponents = *range(-1107, -1070), -33, 0, *range(990, 995)
    numbers = [(0, 0), *itertools.product(mantissas, exponents)]
    for least, most in (-1110, -1040), (-200, 200):
        numbers += [(rng.randrange(1 << 31, 1 << 32), rng.randrange(least, most)) for _ in range(1000)]
    for m, e in numbers:
        x, exact = module.Scaled(m, e), scaled.value(scaled.Scaled(m, e))
        down, up = x.float_down(), x.float_up()
        ok = x.fraction == exact and is_next(down, exact, False) and is_next(up, exact, True)
        ok = ok and (down == up) == (exact <= Fraction(sys.float_info.max) and Fraction(down) == exact)
        checks.check(ok, "floats", f"{m} {e}: {down} {up}")
    # So far out that no fraction is formed.
    for e, due in (-(1 << 31), (0.0, 5e-324)), ((1 << 31) - 1, (sys.float_info.max, math.inf)):
        x = module.Scaled(1 << 31, e)
        checks.check((x.float_down(), x.float_up()) == due, "floats", f"2^31 × 2^{e}")


def of_decimals(module, rng):
    """A scaled number in decimal, in both directions."""
    for m, e in ends.numbers(rng):
        x = module.Scaled(m, e)
        for up, found in (False, x.decimal_down()), (True, x.decimal_up()):
            due = decimals.decimal(up, (m, e))
            ok = (found.digits, found.power, str(found)) == (*due, decimals.text(due))
            checks.check(ok and found.fraction == decimals.value(due), "decimals", f"{m} {e}: {found!r}, due: {due}")


def is_next(x, exact, up):
    """Whether x is the float on this side of the fraction with none between."""
    sign, away = (1, -math.inf) if up else (-1, math.inf)
    value = lambda y: Fraction(y) if math.isfinite(y) else None
    here, nearer = value(x), value(math.nextafter(x, away))
    on_its_side = x == math.inf if here is None else sign * here >= sign * exact
    return on_its_side and (nearer is None or sign * nearer < sign * exact or here == exact)


# Test 1 with 55 terms, without an object.
ENDS_55 = "N = 55: 2627622691 × 2^-35 to 2627623074 × 2^-35, alert, 7.647e-02 to 7.648e-02"
AT_55 = f"{ENDS_55}, exact terms: 1"


def of_answers(module):
    session, wrong, test_1 = module.Session.empty(), (0, 1, 1, 0, 0), (500, 5000, 100, 1000, 0)
    conjunction = module.Conjunction(module.Encounter(*test_1), object=25544, time=1440)
    full = module.Conjunction(module.Encounter(*FULL), object=7, time=8)
    of_advice(module)
    for answer, due in (
        (session.add(0), "refused 12: add: count is 0"),
        (session.read(), "refused 21: add or read with no encounter begun"),
        (session.begin(module.Encounter(*wrong)), "refused 3: R is 0 or above 10,000,000"),
        (session.begin(module.Encounter(*test_1)), "N = 1"),
        (session.add(54), "N = 55"),
        (session.add(0), "refused 12: add: count is 0"),
        (session.read(), AT_55),
        (session.begin_conjunction(conjunction._replace(object=0)), "refused 9: kind 4: object number is 0"),
        (session.begin_conjunction(full._replace(object=0)), "refused 11: begin: 2M above 1,026"),
        (session.begin(full.encounter), "refused 11: begin: 2M above 1,026"),
        (session.read(), AT_55),
        (session.begin_conjunction(conjunction), "N = 1"),
        (session.add(54), "N = 55"),
        (session.begin_conjunction(full), "refused 11: begin: 2M above 1,026"),
        (session.read(), f"{ENDS_55}, object 25544 at minute 1440, exact terms: 1"),
        (session.begin(conjunction.encounter), "N = 1"),
        (session.add(54), "N = 55"),
        (session.read(), AT_55),
    ):
        checks.check(str(answer) == due, "answers", f"printed: {answer}, due: {due}")
    for (inputs, _, _, name), number in zip(AT_THRESHOLD, (2, 1, 0, 2), strict=True):
        other = module.Session.empty()
        other.begin(module.Encounter(*inputs))
        answer = other.read()
        named = answer.class_, answer.class_name, str(answer).split(", ")[1]
        checks.check(named == (number, name, name), "answers", f"class of {inputs}: {named}")
    answer = session.read()
    both = "lower=Scaled(m=2627622691, e=-35), upper=Scaled(m=2627623074, e=-35)"
    due = f"Answer(refusal=0, N=55, {both}, class_=1, object=0, time=0, exact_terms=1)"
    checks.check(repr(answer) == due, "answers", f"repr: {answer!r}")
    checks.check(answer == session.read() and answer != session.add(1), "answers", "equal answers")
    floats = answer.lower.m * 2.0**-35, answer.upper.m * 2.0**-35
    checks.check(answer.floats == floats, "answers", f"floats: {answer.floats}")
    other = module.Session.empty()
    other.begin_conjunction(conjunction)
    other.add(54)
    ok = answer != other.read() and (other.read().object, other.read().time) == (25544, 1440)
    checks.check(ok and session.kept != other.kept, "answers", f"of an object: {other.read()!r}")
    for inputs, N, exact, _ in EXACT_TERMS:
        begin_and_add(module, other, inputs, N)
        if other.read().has_ends:
            found = other.read().exact_terms, str(other.read()).split(", ")[-1]
            checks.check(found == (exact, f"exact terms: {exact}"), "answers", f"{tuple(inputs)} at {N}: {found}")
    checks.check(module.REFUSALS == REFUSALS, "answers", "texts of the refusals")
    for number in REFUSALS:
        printed = str(module.Answer(refusal=number))
        checks.check(printed == f"refused {number}: {REFUSALS[number]}", "answers", printed)
    checks.check(str(module.Scaled(0, 0)) == "0", "answers", "zero")
    kept = module.Session.empty().kept, module.Session.empty().kept
    checks.check(kept[0] == kept[1] and kept[0] != session.kept, "answers", "equal sessions")
    # An answer without ends has no class, no floats and no decimals.
    for answer in session.add(1), session.add(0), module.Session.empty().read():
        for property_ in "class_name", "floats", "decimals":
            try:
                checks.check(False, "answers", f"{property_} of {answer!r}: {getattr(answer, property_)}")
            except ValueError as error:
                checks.check(str(answer) in str(error), "answers", f"{error}")
    script = EXAMPLE.with_suffix(".script").read_bytes()
    listing = EXAMPLE.with_suffix(".listing").read_bytes()
    for given in script, bytearray(script), memoryview(script):
        checks.check(module.run(given) == listing, "answers", f"the listing of {type(given)}")
    for given in "text", 7, None:
        try:
            checks.check(False, "answers", f"the listing of {given!r}: {module.run(given)}")
        except TypeError:
            pass


def begin_and_add(module, session, inputs, N):
    """Begins an encounter and adds the terms that are missing to order N, if any."""
    session.begin(module.Encounter(*inputs))
    if N > 1:
        session.add(N - 1)


def of_advice(module):
    """Request #106: what advise answers, in fields and in words, and that it keeps the session."""
    session = module.Session.empty()
    refused = session.advise(), False, "refused 21: add or read with no encounter begun"
    session.begin(module.Encounter(*LATEST))
    none = session.advise(), False, "no order: M above 256"
    session.begin(module.Encounter(*TEST_1))
    kept = module.Kept.from_buffer_copy(session.kept)
    order = session.advise(), True, "order 66"
    checks.check(session.kept == kept, "advice", "the session after advise")
    session.add(54)
    checks.check(session.advise() == order[0] != none[0], "advice", "equal advice")
    for (found, *due), numbers in zip((refused, none, order), ((21, 0), (0, 0), (0, 66)), strict=True):
        ok = (found.refusal, found.order) == numbers and [found.has_order, str(found)] == due
        ok = ok and repr(found) == "Advice(refusal=%d, order=%d)" % numbers
        checks.check(ok, "advice", f"{found!r}, {found}, due: {numbers}, {due}")
    for inputs, due in ADVISED:
        session.begin(module.Encounter(*inputs))
        found = session.advise().order
        checks.check(found == (due or 0), "advice", f"{inputs}: {found}, due: {due}")


def of_doubles(module):
    """Request #108: the ends as floats and the record, in fields and in words, and that both calls keep the session."""
    sizes = [ctypes.sizeof(struct) for struct in (module.DoublesOutput, module.RecordOutput, module.PlottedOutput)]
    offsets = module.DoublesOutput.lower.offset, module.RecordOutput.lower.offset, module.PlottedOutput.record.offset
    checks.check((sizes, offsets) == ([24, 32, 40], (8, 8, 8)), "doubles", f"the structs: {sizes} {offsets}")
    session = module.Session.empty()
    refused = "refused 21: add or read with no encounter begun"
    with_words(session, module.Doubles(21, None, None), refused, module.Plotted(21, None), refused)
    session.begin(module.Encounter(*TEST_1))
    refused = "refused 23: read: 2M above N + 2"
    with_words(session, module.Doubles(23, None, None), refused, module.Plotted(23, None), refused)
    session.begin_conjunction(module.Conjunction(module.Encounter(*TEST_1), 25544, 1440))
    session.add(54)
    lower, upper = session.read().floats
    both = "0.07647388530313037 to 0.07647389644989744"
    record = module.PlotRecord(25544, lower, upper, upper - lower)
    words = f"object 25544: {both}, difference 1.1146767064929008e-08"
    with_words(session, module.Doubles(0, lower, upper), both, module.Plotted(0, record), words)
    session.begin(module.Encounter(40, 10, 10, 0, 0))
    session.add(13)
    words = "at least 0.9824074702337384, unbounded", "no record: the upper end is 1 or more"
    ends = module.Doubles(0, session.read().floats[0], None)
    with_words(session, ends, words[0], module.Plotted(0, None), words[1])
    for inputs, N, lower, upper, how in AS_DOUBLES:
        begin_and_add(module, session, inputs, N)
        kept = module.Kept.from_buffer_copy(session.kept)
        exact = [scaled.value(scaled.Scaled(*end)) for end in (lower, upper)]
        found, record = session.read_doubles(), session.read_plot_record().record
        ok = found == (0, exact[0], exact[1] if how else None) and found.unbounded == (how is None)
        ok = ok and (record is None) == (how is None) and session.kept == kept
        if record and ok:
            ok = record == (0, *exact, found.upper - found.lower) and type(record.difference) is float
        checks.check(ok, "doubles", f"{inputs} at {N}: {found} {record}")


def with_words(session, ends, said, plotted, said_of_it):
    """Both answers on the session, and their words."""
    found, record = session.read_doubles(), session.read_plot_record()
    ok = (found, record, str(found), str(record)) == (ends, plotted, said, said_of_it)
    ok = ok and found.unbounded == ("unbounded" in said) and (type(found), type(record)) == (type(ends), type(plotted))
    checks.check(ok, "doubles", f"{found!r}, {record!r}: {found}, {record}")


def of_week(module):
    """Request #111: a week in fields and in words, what it does not take, and that no answer is another later."""
    sizes = [ctypes.sizeof(one) for one in (module.Bracket, module.KeptWeek, module.EnteredOutput, module.Ends)]
    offsets = module.Bracket.upper.offset, module.EnteredOutput.week.offset, module.Ends.upper.offset
    checks.check((sizes, offsets) == ([20, 1120, 1124, 16], (12, 4, 8)), "weeks", f"the structs: {sizes} {offsets}")
    week, session, due = module.Week.empty(), module.Session.empty(), week_reference.Week()
    checks.check(str(week.ends()) == "0 to 0, 0.000e-00 to 0.000e-00", "weeks", f"an empty week: {week.ends()}")
    checks.check(week.days == [[None] * 8 for _ in range(7)] and not any(bytes(week.kept)), "weeks", "an empty week")
    kept, before = week.kept, module.Week.empty()
    for inputs, N, day, words in (
        (None, 0, 7, "refused 13: enter: day number above 6"),
        (None, 0, 6, "refused 21: add or read with no encounter begun"),
        (TEST_1, 35, 6, "refused 23: read: 2M above N + 2"),
        (TEST_1, 35, (1 << 32) - 1, "refused 13: enter: day number above 6"),
        (TEST_1, 66, 6, "entered"),
        (LOWEST, 1, 0, "entered"),
        (ALFANO_3, 597, 6, "entered"),
        (HIGHEST, LARGEST_N, 3, "entered"),
        *((TEST_1, 66, 6, "entered") for _ in range(6)),
        (TEST_1, 66, 6, "refused 24: enter: a ninth bracket for a day"),
        (TEST_1, 35, 6, "refused 23: read: 2M above N + 2"),
    ):
        if inputs:
            begin_and_add(module, session, inputs, N)
        held = [place for of in week.days for place in of if place]
        of_held = list(map(str, held))
        found = week.enter(day, session)
        number = due.enter(day, orders.at_order(inputs, N) if inputs else Session())
        ok = (str(found), found, repr(found)) == (words, module.Entered(number), f"Entered(refusal={number})")
        checks.check(ok, "weeks", f"{inputs} at {N} on day {day}: {found!r}, {found}, due: {words}")
        places = [[place and tuple(tuple(end.values()) for end in place.values()) for place in of] for of in week.days]
        checks.check(places == due.days, "weeks", f"{inputs} at {N} on day {day}: {places}")
        lower, upper = due.ends()
        ends_found, exact = week.ends(), (scaled.value(lower), scaled.value(upper))
        ok = (ends_found.lower.fraction, ends_found.upper.fraction) == exact == tuple(map(Fraction, ends_found.floats))
        decimal_due = [decimals.text(decimals.decimal(up, end)) for up, end in ((False, lower), (True, upper))]
        ok = ok and list(map(str, ends_found.decimals)) == decimal_due
        printed = [f"{end.m} × 2^{end.e}" if end.m else "0" for end in (lower, upper)]
        ok = ok and str(ends_found) == "{} to {}, {} to {}".format(*printed, *decimal_due)
        checks.check(ok, "weeks", f"the ends after {inputs} at {N} on day {day}: {ends_found!r}, due: {lower} {upper}")
        ok = list(map(str, held)) == of_held and not any(bytes(kept))
        checks.check(ok, "weeks", f"what was answered before {inputs} at {N} on day {day}")
    checks.check(week.kept != before.kept == module.Week.empty().kept, "weeks", "equal weeks")
    due_words = "Ends(lower=Scaled(m=2627622691, e=-35), upper=Scaled(m=2627623085, e=-35))"
    checks.check(repr(week.days[6][0]) == due_words, "weeks", f"repr: {week.days[6][0]!r}")
    kept = bytes(week.kept)
    for wrong in None, 7, TEST_1, session.kept, week:
        try:
            checks.check(False, "weeks", f"an entry of {wrong!r}: {week.enter(0, wrong)}")
        except TypeError:
            pass
    for wrong in -1, 1 << 32, 1.0, "1", None:
        try:
            checks.check(False, "weeks", f"an entry on day {wrong!r}: {week.enter(wrong, session)}")
        except struct.error:
            pass
    checks.check(bytes(week.kept) == kept, "weeks", "the week after calls that raise")


def main():
    arguments = options.parser("Tries bindings/python/jinthuol.py.").parse_args()
    if not LIBRARY.is_file():
        sys.exit("importing: no library; `tools/build jinthuol` writes it")
    # The module says where it looks otherwise.
    os.environ.pop("JINTHUOL_LIB_DIR", None)
    for part in of_wrong_libraries, of_linking, of_the_program:
        with tempfile.TemporaryDirectory() as folder:
            part(pathlib.Path(folder).resolve())
    sys.path.insert(0, str(MODULE.parent))
    module = importlib.import_module("jinthuol")
    of_floats(module, random.Random(arguments.seed))
    of_decimals(module, random.Random(arguments.seed))
    of_answers(module)
    of_doubles(module)
    of_week(module)
    checks.end()


if __name__ == "__main__":
    main()
