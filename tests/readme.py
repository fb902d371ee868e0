#!/usr/bin/env python3
"""Runs the commands of README.md and of six examples, advised-order.md, equal-weights.md, plot-records.md,
stored-script.md, week.md and without-empty-adds.md, as they stand there, and compares what they print.

    python3 tests/readme.py

After `tools/build screen`, `tools/build drop_empty_adds` and `tools/build jinthuol`. What is built goes to target/. Exits
with 1 where anything differs.
"""

import decimal
import doctest
import itertools
import math
import re
import subprocess
import sys
from decimal import Decimal
from fractions import Fraction
from itertools import starmap

sys.dont_write_bytecode = True
import division
import options
import orders
import records
import scaled
import week_reference
from brackets import as_float
from checks import Checks
from encounters import ASTRIDE, DOCUMENTS, FULL, TEST_1
from exact_series import Encounter
from markdown import README, blocks, section
from options import ROOT
from reference import LONGEST_SCRIPT, REFUSALS, Session, refusal_of
from scaled import Scaled
from week_reference import DAYS, PLACES, Week

# Seconds for one command.
LONGEST_RUN = 120
# At its advised order the upper end is a little above 1.
NEXT_TO_1 = Encounter(8, 1, 1, 0, 0)
LISTING = (ROOT / "examples/test-1.listing").read_text().splitlines()
# How a command begins that drops empty adds.
DROP = "./drop_empty_adds examples/"

checks = Checks("readme")


def prints(command, due, status=0):
    """The command, in the repository's folder, prints these lines; on standard error only cargo says something."""
    ended = subprocess.run(command, shell=True, cwd=ROOT, capture_output=True, text=True, timeout=LONGEST_RUN)
    quiet = ended.stderr == "" or command.startswith("cargo ")
    ok = ended.returncode == status and quiet and ended.stdout.splitlines() == due
    checks.check(ok, "commands", f"{command}\n  found: {ended.returncode} {ended.stdout}{ended.stderr}\n    due: {due}")


def due_as_advised():
    """What the example in C prints of Test 1 at the advised order."""
    read = orders.at_order(TEST_1, orders.advised(TEST_1)).read()
    listing = records.listing(records.begin(*TEST_1) + records.add(read.N - 1) + records.READ)
    begun, added, line = (line.split(" ", 1)[1] for line in listing.splitlines())
    doubles = f"{as_float(read.lower):.17g}", f"{as_float(read.upper):.17g}"
    rounding = f"rounding starts at term {read.exact + 1} of {read.N}"
    apart = f"{as_float(read.upper) - as_float(read.lower):.17g}"
    as_doubles = "as doubles: from {} to {}".format(*doubles)
    record = "plot record: object 0, lower {}, upper {}, difference {}".format(*doubles, apart)
    # A week of one bracket has its ends.
    ends = *read.lower, *read.upper, records.decimal_text(False, read.lower), records.decimal_text(True, read.upper)
    week = ["entered on day 0", "week of 1: {} {} {} {} {} {}".format(*ends)]
    return [begun, f"advised {read.N}", added, f"{line} {' '.join(doubles)}", rounding, as_doubles, record, *week]


def of_c(lines):
    """The lines of C, in a program of their own: with their encounter, and with others of each class in its place."""
    header, *code = lines
    source, program = ROOT / "target/readme.c", ROOT / "target/readme"
    compiler = "gcc -std=c99 -Wall -Wextra -Werror -I bindings/c target/readme.c target/staticlib/libjinthuol.a -lm"
    braced = lambda encounter: "{%d, %d, %d, %d, %d}" % encounter
    for encounter, class_ in (TEST_1, "alert"), (DOCUMENTS["Chan 5"], "clear"), (ASTRIDE, "open"):
        read = orders.at_order(encounter, 55).read()
        due = [
            f"{records.decimal_text(False, read.lower)} to {records.decimal_text(True, read.upper)}, {class_}",
            f"about {as_float(read.lower):.9g} to {as_float(read.upper):.9g}",
            f"object 27386 at minute 642, {read.exact} of 55 terms exact",
        ]
        read = orders.at_order(encounter, orders.advised(encounter)).read()
        ends = f"{as_float(read.lower):.9g} to {as_float(read.upper):.9g}"
        due.append(f"advised {read.N}, read at {read.N}: about {ends}")
        thirds = [division.divided(up, Scaled(*end), 3) for up, end in ((False, read.lower), (True, read.upper))]
        due.append("a third: about {:.9g} to {:.9g}".format(*(as_float(third.quotient) for third in thirds)))
        due.append(f"plot from {as_float(read.lower):.9g} to {as_float(read.upper):.9g}")
        due.append(f"record of object 0, difference {as_float(read.upper) - as_float(read.lower):.9g}")
        week = week_reference.Week()
        for day, session in (2, orders.at_order(encounter, read.N)), (0, orders.at_order(DOCUMENTS["Chan 1"], 13)):
            checks.check(week.enter(day, session) == 0, "commands", f"an entry on day {day}")
        due.append("a week: about {:.9g} to {:.9g}".format(*map(as_float, week.ends())))
        main = "\n".join(code).replace(braced(TEST_1), braced(encounter))
        checks.check(braced(encounter) in main, "commands", f"no encounter {encounter} in the lines of C")
        source.write_text("\n".join(["#include <math.h>", "#include <stdio.h>", header, "int main(void) {", main, "}"]))
        prints(f"{compiler} -o {program}", [])
        prints(str(program), due)
        told = [line for line in due[2:] if re.search(f"(prints|and) `{re.escape(line)}`", section("From C and C++"))]
        checks.check(len(told) == (6 if encounter == TEST_1 else 0), "commands", f"what README says is printed: {told}")


def of_advised_order():
    """examples/advised-order.py, as its text has it: it reads and may write a script, or its status is 1."""
    parts = blocks((ROOT / "examples/advised-order.md").read_text())
    pairs = list(zip(parts[::2], parts[1::2]))
    [command] = [first for [first, *more], _ in pairs if more]
    _, _, *inputs, _, path = command.split()
    encounter, path = Encounter(*map(int, inputs)), ROOT / path
    path.unlink(missing_ok=True)
    # The one that writes the script comes last.
    for commands, due in sorted(pairs, key=lambda pair: command in pair[0]):
        is_read = due[0].startswith("Advised: ")
        prints(" && ".join(commands), due, status=0 if is_read else 1)
        if not is_read:
            prints(f"{commands[0]} --script {path}", [*due, "No script is written."], status=1)
            checks.check(not path.exists(), "commands", f"a script is written by: {commands[0]}")
    due = records.begin(*encounter) + records.add(orders.advised(encounter) - 1) + records.READ
    checks.check(path.read_bytes() == due, "commands", f"another script is written by: {command}")
    [[command]] = blocks(section("How many terms"))
    checks.check([command] in parts, "commands", f"not in advised-order.md: {command}")
    read = orders.at_order(ASTRIDE, orders.advised(ASTRIDE)).read()
    ends = f"{records.decimal_text(False, read.lower)} to {records.decimal_text(True, read.upper)}"
    due = [
        f"Advised: order {read.N}. The begin has 1 term; {read.N - 1} more are added.",
        f"Read with {read.N} terms: the probability is from {ends}.",
        "The class is open: this read does not tell on which side of 1/10,000 the probability is; one with fewer terms may.",
    ]
    program, inputs = "python3 examples/advised-order.py", " ".join(map(str, ASTRIDE))
    prints(f"{program} {inputs}", due)
    is_wrong_use(
        program,
        ("", "1 2 3 4", "1 2 3 4 x", "-1 2 2 0 0", f"{1 << 32} 2 2 0 0", f"{inputs} --script target/none/of"),
    )


def is_wrong_use(program, lines):
    """The program's status is 2 with each, and it says something on standard error."""
    for wrong in lines:
        ended = subprocess.run(f"{program} {wrong}", shell=True, cwd=ROOT, capture_output=True, text=True)
        checks.check(ended.returncode == 2 and ended.stderr, "commands", f"{wrong}: {ended.returncode} {ended.stdout}")


def of_equal_weights():
    """examples/equal-weights.py, as its text has it, with ends and quotients by the references."""
    parts = blocks((ROOT / "examples/equal-weights.md").read_text())
    for [command], due in zip(parts[::2], parts[1::2], strict=True):
        numbers = list(map(int, command.split()[2:]))
        solutions = [Encounter(*numbers[at : at + 5]) for at in range(0, len(numbers), 5)]
        lines, refusal = as_weighted(solutions)
        checks.check(lines == due, "commands", f"{command}\n  text: {due}\n   due: {lines}")
        prints(command, due, status=1 if refusal else 0)
    program, inputs = "python3 examples/equal-weights.py", " ".join(map(str, TEST_1))
    # One solution alone; and two of which one has an upper end above 1.
    for solutions in [TEST_1], [NEXT_TO_1, TEST_1], [NEXT_TO_1]:
        lines, _ = as_weighted(solutions)
        prints(" ".join([program, *(str(number) for inputs in solutions for number in inputs)]), lines)
    for other in DOCUMENTS["Alfano 3"], FULL:
        lines, _ = as_weighted([TEST_1, other])
        prints(f"{program} {inputs} {' '.join(map(str, other))}", lines, status=1)
    is_wrong_use(program, ("", "1 2 3 4", f"{inputs} 1", "1 2 3 4 x", "-1 2 2 0 0", f"{1 << 32} 2 2 0 0"))


def as_weighted(solutions):
    """What examples/equal-weights.py prints of the solutions, and whether one of them is not read."""
    lines, sums = [], [0, 0]
    for n, encounter in enumerate(solutions, 1):
        refusal = refusal_of(*encounter)
        order = None if refusal else orders.advised(encounter)
        if not order:
            why = "no order is advised, since M is above 256."
            if refusal:
                why = f"the begin was refused {refusal}: {REFUSALS[refusal]}."
            lines.append(f"Solution {n}: {why}")
            lines.append("Not computed: it needs every solution. A refusal says nothing about the probability.")
            return lines, True
        read = orders.at_order(encounter, order).read()
        ends = list(zip((False, True), (Scaled(*read.lower), Scaled(*read.upper))))
        quotients = [(up, division.divided(up, end, len(solutions)).quotient) for up, end in ends]
        lines.append("Solution {}: from {} to {}, {}.".format(n, *starmap(records.decimal_text, ends), read.class_name))
        words = "  Divided by {}: from {} to {}.".format(len(solutions), *starmap(records.decimal_text, quotients))
        lines.append(words)
        sums = [total + scaled.value(quotient) for total, (_, quotient) in zip(sums, quotients)]
    texts = [in_digits(up, total) for up, total in zip((False, True), sums)]
    lines.append("Over all {}: the probability is from {} to {}.".format(len(solutions), *texts))
    return lines, False


def of_plot_records():
    """examples/plot-records.py, as its text has it, and with each script of the examples, by the references."""
    text = (ROOT / "examples/plot-records.md").read_text()
    parts, words = blocks(text), "The exit status is 0 where every line is a record, and otherwise 1."
    checks.check(len(parts) == 4 and words in text, "commands", f"plot-records.md: {len(parts)} parts, and {words}")
    for [command], due in zip(parts[::2], parts[1::2], strict=True):
        *_, path = command.split()
        lines = as_plotted((ROOT / path).read_bytes())
        checks.check(lines == due, "commands", f"{command}\n  text: {due}\n   due: {lines}")
        is_plotted(command, due)
    program = "python3 examples/plot-records.py"
    found = set()
    for path in sorted((ROOT / "examples").glob("*.script")):
        lines = as_plotted(path.read_bytes())
        is_plotted(f"{program} {path.relative_to(ROOT)}", lines)
        found |= {" ".join(line.split()[1:3]) if "refused" in line else line.split()[1] for line in lines}
    refusals = {f"refused {number}:" for number in (1, 7, 9, 11, 12, 21, 22, 23)}
    checks.check(found == {"record", "unbounded", *refusals}, "commands", f"in the examples: {sorted(found)}")
    # A script that is empty, that is cut short, and that is of the greatest length or longer.
    path = ROOT / "target/plotted.script"
    test_1 = records.begin_conjunction(*TEST_1, (1 << 32) - 1, 0) + records.add(65) + records.READ
    longest = test_1 + records.add(0) * ((LONGEST_SCRIPT - len(test_1)) // 3)
    longest += records.READ * (LONGEST_SCRIPT - len(longest))
    cut = [test_1 + record[:-1] for record in (records.begin(*TEST_1), test_1[:29], records.add(1))]
    for script in b"", test_1, *cut, test_1 + b"\0", longest, longest + records.READ:
        path.write_bytes(script)
        is_plotted(f"{program} {path.relative_to(ROOT)}", as_plotted(script))
    is_wrong_use(program, ("", "examples/shift.script 1", "target/none/of", "examples"))


def is_plotted(command, due):
    """The command prints these lines, and its status tells whether each is a record."""
    prints(command, due, status=0 if all(line.split()[1] == "record" for line in due) else 1)


def as_plotted(script):
    """What examples/plot-records.py prints of a script."""
    if len(script) > LONGEST_SCRIPT:
        return [f"0 refused 8: {REFUSALS[8]}"]
    session, lines = Session(), []
    for record in records.records(script):
        answer = record.called(session)
        if answer.refusal:
            lines.append(f"{record.position} refused {answer.refusal}: {REFUSALS[answer.refusal]}")
        elif record.kind.call == "read":
            # An end is a double, and so is the difference: float() rounds nothing.
            _, stored = session.read_plot_record()
            lower = session.read_doubles().lower
            words = f"unbounded {answer.object}: at least {float(lower)!r}"
            if stored:
                words = " ".join(["record", str(stored.object), *(repr(float(number)) for number in stored[1:])])
            lines.append(f"{record.position} {words}")
    return lines


MINUTES_A_DAY = 1440
# The encounters of examples/week.md.
OF_WEEK = {"Test 1", *(f"Chan {n}" for n in (3, 4, 6, 7, 9, 11, 12))}


class Planned:
    """The lines that examples/week.py prints of scripts, the refusals in them, and the week, by the references."""

    def __init__(self, scripts, once):
        self.lines, self.refusals, self.week = [], [], Week()
        for path, script in scripts:
            self.take(path, script, once)

    def refused(self, number):
        self.refusals.append(number)
        return f"refused {number}: {REFUSALS[number]}."

    def take(self, path, script, once):
        if len(script) > LONGEST_SCRIPT:
            self.lines.append(f"{path}, byte 0: {self.refused(8)}")
            return
        found = list(records.records(script))
        # Which begin a record stands below, and where the last read of each begin is.
        below = list(itertools.accumulate(record.encounter is not None for record in found))
        is_read = [not record.refusal and record.kind.call == "read" for record in found]
        last = {begin: record.position for record, begin, read in zip(found, below, is_read) if read}
        session, time, name = Session(), 0, "no encounter"
        for record, begin, read in zip(found, below, is_read):
            if record.refusal:
                self.lines.append(f"{path}, byte {record.position}: {self.refused(record.refusal)}")
            elif read:
                if not once or last[begin] == record.position:
                    day = time // MINUTES_A_DAY
                    self.lines.append(f"Day {day}, {name}: {self.entered(day, session)}")
            else:
                if record.encounter:
                    session, time, name = Session(), 0, "no object"
                    if len(record.inputs) > 5:
                        *_, number, time = record.inputs
                        name = f"object {number} at minute {time}"
                answer = record.called(session)
                if answer.refusal:
                    call = "Begin" if record.encounter else "Add"
                    self.lines.append(f"{call}, {name}: {self.refused(answer.refusal)}")

    def entered(self, day, session):
        refusal = self.week.enter(day, session)
        if refusal:
            return self.refused(refusal)
        read = session.read()
        ends = records.decimal_text(False, read.lower), records.decimal_text(True, read.upper)
        return "from {} to {}, {}.".format(*ends, read.class_name)

    def printed(self):
        (lower, upper), held = self.week.ends(), len(self.week.held())
        words = [f"{end.m} × 2^{end.e}" if end.m else "0" for end in (lower, upper)]
        lines = [*self.lines, "Held: {}. Lower end {}, upper end {}.".format(held, *words)]
        if not held:
            return [*lines, "Nothing is held, so these ends say nothing."]
        said = f"The chance of at least one collision among them is at least {records.decimal_text(False, lower)}"
        if scaled.value(upper) >= 1:
            return [*lines, f"{said}. The upper end is 1 or more and says nothing."]
        return [*lines, f"{said} and at most {records.decimal_text(True, upper)}."]


def planned(scripts, once):
    """What is due of scripts, and the command that prints it. Runs the command."""
    due = Planned([(path.relative_to(ROOT), path.read_bytes()) for path in scripts], once)
    paths = " ".join(str(path.relative_to(ROOT)) for path in scripts)
    command = f"python3 examples/week.py {'--once ' if once else ''}{paths}"
    prints(command, due.printed(), status=1 if due.refusals else 0)
    return due, command


def of_week():
    """examples/week.py, as its text has it, with each script of the examples, and at the limits, by the references."""
    text, shown = (ROOT / "examples/week.md").read_text(), []
    parts = blocks(text)
    for [command], said in zip(parts[::2], parts[1::2], strict=True):
        words = re.fullmatch(r"(python3 examples/week\.py( --once)?((?: \S+\.script)+))(?: \| tail -n (\d+))?", command)
        checks.check(words, "commands", f"another command: {command}")
        due, full = planned([ROOT / path for path in words[3].split()], bool(words[2]))
        checks.check(full == words[1], "commands", f"{command} is not {full}")
        lines = due.printed()
        if words[4]:
            lines = lines[-int(words[4]) :]
            prints(command, lines)
        checks.check(lines == said, "commands", f"{command}\n  text: {said}\n   due: {lines}")
        shown.append(due)
    of_week_in_words(text, *shown)
    found = set()
    for path in sorted((ROOT / "examples").glob("*.script")):
        for once in False, True:
            found |= set(planned([path], once)[0].refusals)
    checks.check(found == {1, 7, 9, 11, 12, 13, 21, 22, 23, 24}, "commands", f"refused in the examples: {sorted(found)}")
    of_week_limits()
    shift = "examples/shift.script"
    is_wrong_use("python3 examples/week.py", ("", "--once", f"--twice {shift}", "target/none/of", f"{shift} examples"))


def of_week_limits():
    """A week that is full, days at their limits, an upper end next to 1, and scripts that are empty or are refused."""
    test_1 = lambda time: records.begin_conjunction(*TEST_1, 1, time) + records.add(65) + records.READ
    next_to_1 = records.begin(*NEXT_TO_1) + records.add(orders.advised(NEXT_TO_1) - 1) + records.READ
    full = b"".join(test_1(MINUTES_A_DAY * day) for _ in range(PLACES + 1) for day in reversed(range(DAYS)))
    last = DAYS * MINUTES_A_DAY - 1
    times = [0, MINUTES_A_DAY - 1, MINUTES_A_DAY, last, last + 1, (1 << 32) - 1]
    longest = test_1(0) + records.add(0) * ((LONGEST_SCRIPT - len(test_1(0))) // 3)
    longest += records.READ * (LONGEST_SCRIPT - len(longest))
    for name, script, once, held in (
        ("empty", b"", False, 0),
        ("reads alone", records.READ * 2, True, 0),
        ("full", full, False, DAYS * PLACES),
        ("times", b"".join(map(test_1, times)), False, 4),
        ("next to 1", next_to_1, False, 1),
        ("a cut begin", test_1(0) + test_1(0)[:28], False, 1),
        ("a cut add", test_1(0) + records.add(1)[:2], False, 1),
        ("a kind that is none", test_1(0) + b"\0" + test_1(0), False, 1),
        ("longest", longest, True, 1),
        ("too long", longest + records.READ, False, 0),
    ):
        path = ROOT / "target/planned.script"
        path.write_bytes(script)
        found = len(planned([path], once)[0].week.held())
        checks.check(found == held, "commands", f"a week, {name}: {found} held")


def of_week_in_words(text, planned_, shift, *more):
    """What examples/week.md says of its six weeks."""
    value, week = scaled.value, planned_.week
    nothing, shift_once, early, late = (of_one.week for of_one in more)
    script = (ROOT / "examples/week.script").read_bytes()
    begun = [Encounter(*record.encounter) for record in records.records(script) if record.encounter]
    reads = [records.printed(line) for line in records.listing(script).splitlines() if line.split()[1] == "read"]
    is_advised = [read.N for read in reads] == list(map(orders.advised, begun))
    names = {encounter: name for name, encounter in DOCUMENTS.items()}
    # The one with the greatest lower end, and the one after the week.
    [most] = [read for read in reads if read.object == 39452]
    after = reads[-1]
    lower, upper = week.ends()
    share = [int(100 * value(Scaled(*end)) / value(upper)) for end in (most.lower, most.upper)]
    above = [bracket.lower for bracket in week.held() if value(bracket.lower) > value(Scaled(*after.upper))]
    others = [value(bracket.upper) for bracket in week.held() if bracket.lower != lower]
    rounding = (1 + Fraction(1, 1 << 31)) ** (DAYS * PLACES - 1) - 1
    refused = value(Scaled(*orders.at_order(Encounter(10, 10, 10, 0, 0), 13).read().lower))
    too_early = float(value(Scaled(*orders.at_order(DOCUMENTS["Alfano 3"], 597).read().upper)))
    twice = [line.split()[-2].removesuffix(",") for line in shift.lines if "object 43013" in line]
    hundredths = "at least 7.647{0} and at most 8.272{0}"
    for words, holds in (
        ("so minute 3522 is 10:42 of day 2", (most.time, *divmod(3522, MINUTES_A_DAY)) == (3522, 2, 10 * 60 + 42)),
        ("at minute 10085, which is 00:05 of day 7", (after.time, *divmod(10085, MINUTES_A_DAY)) == (10085, 7, 5)),
        ("the last read of each encounter is at its advised order", is_advised),
        ("'Seven encounters are held.", len(week.held()) == 7),
        (hundredths.format(" hundredths"), hundredths.format("e-02") in planned_.printed()[-1]),
        ("The lower end is that of object 39452", Scaled(*most.lower) == lower),
        ("whose probability is the greatest", max(others) < value(lower)),
        ("the ends are {} × 2^{} and {} × 2^{}".format(*lower, *upper), True),
        ("Here object 39452 has 92 % of it", share == [92, 92]),
        ("the upper end is 8.2 % above the lower end", round(1000 * (value(upper) / value(lower) - 1)) == 82),
        ("with all 56 places filled it adds less than three parts in a hundred million", rounding < Fraction(3, 10**8)),
        ("it is 1/100 + 1/100 − 1/10,000 = 199/10,000", 1 - Fraction(99, 100) ** 2 == Fraction(199, 10_000)),
        ("The first read of object 39452 has 20 terms", planned_.refusals == [23, 13]),
        ("though only one of the seven has a greater probability", above == [lower]),
        ("Three places of day 0 were taken", week.days[0].count(None) == PLACES - 3),
        ("five more reads fill the day", None not in shift.week.days[0] and shift.refusals == [23, 13, 24]),
        ("(10, 10, 10, 0, 0), whose probability is at least 0.3934", Fraction("0.3934") <= refused),
        ("The figure says 'at most 1.692e-01'", shift.printed()[-1].endswith("at most 1.692e-01.")),
        ("An empty week has zero for both ends.", nothing.ends() == (scaled.ZERO, scaled.ZERO)),
        ("all five encounters of the shift have a place", len(shift_once.held()) == len(week.held()) + 5),
        ("At 597 terms the upper end is about 2.9 × 10^49.", f"{too_early:.1e}" == "2.9e+49"),
        ("so the week's upper end says nothing", value(early.ends().upper) > 1 > value(late.ends().upper)),
        ("has an upper end of {} with 2 terms and of {} with 17".format(*twice), len(twice) == 2),
        ("Test 1 and Chan 3, 4, 6, 7, 9, 11 and 12 of document 000", set(map(names.get, begun)) == OF_WEEK),
    ):
        checks.check(words in text and holds, "commands", f"week.md: {words}: {words in text}, {holds}")


def of_stored_script():
    """./drop_empty_adds, as README.md and two examples have it, with the script and the listing that are due."""
    stems = "stored-script", "without-empty-adds"
    texts, listings = ([(ROOT / f"examples/{stem}.{kind}").read_text() for stem in stems] for kind in ("md", "listing"))
    stored, new = ((ROOT / f"examples/{stem}.script").read_bytes() for stem in stems)
    checks.check(new == records.dropped(stored) != stored, "commands", f"{stems[1]}.script is not what is due")
    path = ROOT / "target/new.script"
    for text in README, texts[0]:
        [(commands, due)] = [pair for pair in itertools.pairwise(blocks(text)) if pair[0][0].startswith(DROP)]
        checks.check(due == listings[1].splitlines(), "commands", f"{commands}\n  text: {due}\n   due: {listings[1]}")
        path.unlink(missing_ok=True)
        # The new script goes to target/.
        prints(" && ".join(commands).replace("new.script", "target/new.script"), due)
        found = path.read_bytes() if path.exists() else b""
        checks.check(found == new, "commands", f"another script is written by: {commands[0]}")
    [commands] = blocks(texts[1])
    for command in commands:
        checks.check(command.startswith(DROP), "commands", f"another command: {command}")
        prints(command, [])
    # What the texts say of answers and bytes.
    left, refused = records.parted(stored, listings[0])
    found = left == records.answers(listings[1]), refused
    checks.check(found == (True, ["refused 12"] * 3), "commands", f"the answers of the records that are left: {found}")
    for text, listing in zip(texts, listings):
        for line in re.findall(r"`(\d+ refused \d+)`", text):
            checks.check(line in listing.splitlines(), "commands", f"no line of the listing: {line}")
    for text, words in (
        (texts[0], f"`{records.add(65).hex(' ')}` adds 65 terms, and `{records.add(16).hex(' ')}` adds 16"),
        (texts[0], f"The four bytes after it, `{stored[-4:].hex(' ')}`, are not run"),
        (texts[1], f"Three records, `{records.add(0).hex(' ')}` each, so {len(new)} bytes are left of {len(stored)}"),
        (texts[1], f"the last five bytes, `{new[-5:].hex(' ')}`"),
    ):
        checks.check(words in text, "commands", f"not in the text: {words}")


def in_digits(up, q):
    """Four significant digits of q, outward, by whole numbers; 1.000e-00 where q, or what is to be printed, is 1."""
    if q >= 1 or (up and q > Fraction(9999, 10_000)):
        return "1.000e-00"
    power = next(k for k in itertools.count(1) if q * 10**k >= 1)
    whole = math.ceil(q * 10 ** (power + 3)) if up else math.floor(q * 10 ** (power + 3))
    if whole == 10_000:
        whole, power = 1000, power - 1
    return f"{whole // 1000}.{whole % 1000:03}e-{power:02}"


def main():
    options.parser("Runs the commands of README.md.").parse_args()
    decimal.getcontext().prec = 100
    [command], listing = blocks(section("First command"))
    prints(command, listing)
    line, [command] = blocks(section("A line of a listing"))
    m, e = map(int, line[0].split()[3:5])
    prints(command, [str(Decimal(m) * Decimal(5) ** -e * Decimal(10) ** e)])
    _, [command], listing = blocks(section("A script, byte by byte"))
    prints(command, listing)
    [archive, *compilers, command], due, [header], *code = blocks(section("From C and C++"))
    checks.check(len(code) == 6, "commands", f"the parts of C: {len(code)}")
    checks.check(archive == "tools/build jinthuol", "commands", f"the library: {archive}")
    command_with_object, command_as_advised = re.findall(r"`(echo .+? \| target/example)`", section("From C and C++"))
    programs = [compiler.split()[-1] for compiler in compilers]
    for program, compiler in zip(programs, compilers):
        (ROOT / program).unlink(missing_ok=True)
        prints(compiler, [])
        prints(command.replace(programs[0], program), due)
        due_with_object = [line.replace(" 0 0 ", " 27386 642 ").replace("object 0,", "object 27386,") for line in due]
        prints(command_with_object.replace(programs[0], program), due_with_object)
        prints(command_as_advised.replace(programs[0], program), due_as_advised())
    checks.check(command.endswith(programs[0]) and len(set(programs)) == 2, "commands", f"the programs: {programs}")
    of_c([header, *sum(code, [])])
    [[command]] = blocks(section("From Rust"))
    prints(command, LISTING)
    [command, interpreter], *example = blocks(section("From Python"))
    prints(command, LISTING)
    checks.check(interpreter == "PYTHONPATH=bindings/python python3", "commands", f"the interpreter: {interpreter}")
    sys.path.insert(0, str(ROOT / "bindings/python"))
    lines = "\n".join(sum(example, [])) + "\n"
    test = doctest.DocTestParser().get_doctest(lines, {}, "README.md", None, 0)
    runner = doctest.DocTestRunner()
    runner.run(test)
    checks.check(runner.tries > 3 and runner.failures == 0, "commands", "the example in Python")
    import jinthuol

    checks.check(doctest.testmod(jinthuol).failed == 0, "commands", "the example of the module")
    of_advised_order()
    of_equal_weights()
    of_plot_records()
    of_week()
    of_stored_script()
    checks.end()


if __name__ == "__main__":
    main()
