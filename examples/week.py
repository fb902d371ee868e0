#!/usr/bin/env python3
"""One figure for a week: the two ends between which the chance of at least one collision lies.

    python3 examples/week.py [--once] SCRIPT [SCRIPT ..]

It makes the calls that the scripts ask for, in a session of its own for each begin. Each read enters the week, on the
day of its time of closest approach: minute 0 is 00:00 of day 0, and an encounter without a time has minute 0. With
--once only the last read of each begin enters. Each entry has a line, and a begin or an add has one where it is refused:

    Day DAY, object OBJECT at minute TIME: from LOWER to UPPER, CLASS.     it is in the week now
    Day DAY, object OBJECT at minute TIME: refused NUMBER: TEXT.           the week is as it was
    SCRIPT, byte OFFSET: refused NUMBER: TEXT.                             a begin, an add or a byte; the week is as it was

Then come the number of brackets held and the two ends of the week, and what they say in decimal. examples/week.md is
the text on it. It calls the library by bindings/python/jinthuol.py, after `tools/build jinthuol`.

Exit status: 0 nothing was refused; 1 something was; 2 wrong use, or a file that cannot be read.
"""

import argparse
import pathlib
import sys

sys.dont_write_bytecode = True
import library
import scripts

MINUTES_A_DAY = 24 * 60


def arguments():
    """Each script's path with its bytes, and whether each begin enters once."""
    parser = argparse.ArgumentParser(description="One figure for a week of the encounters of scripts.")
    parser.add_argument("--once", action="store_true", help="of each begin, enter only the last read")
    parser.add_argument("script", type=pathlib.Path, nargs="+", help="a script of records, as ./screen takes it")
    found = parser.parse_args()
    return [(path, scripts.bytes_of("week.py", path)) for path in found.script], found.once


def encounters(records):
    """The records of each begin, with it. What stands before the first begin comes first."""
    found = []
    for record in records:
        if record.begins or not found:
            found.append([])
        found[-1].append(record)
    return found


def without_early_reads(records):
    """The records of a begin without any read but the last."""
    last = max((record.offset for record in records if record.kind == scripts.READ), default=None)
    return [record for record in records if record.kind != scripts.READ or record.offset == last]


def named(first):
    """The time of the encounter whose first record this is, and the encounter in words."""
    if first.kind == scripts.BEGIN_CONJUNCTION:
        *_, number, time = first.numbers
        return time, f"object {number} at minute {time}"
    return 0, "no object" if first.begins else "no encounter"


def entered(week, day, session):
    """Enters a read of the session. What is printed of it."""
    answer = week.enter(day, session)
    if answer.refusal:
        return str(answer)
    read = session.read()
    return "from {} to {}, {}".format(*read.decimals, read.class_name)


def lines(jinthuol, week, path, records):
    """Makes the calls of one encounter. Both parts of each line. A begin or an add that is accepted has none."""
    session = jinthuol.Session.empty()
    time, encounter = named(records[0])
    for record in records:
        if record.refusal:
            yield f"{path}, byte {record.offset}", jinthuol.refused(record.refusal)
        elif record.kind == scripts.READ:
            day = time // MINUTES_A_DAY
            yield f"Day {day}, {encounter}", entered(week, day, session)
        else:
            answer = scripts.called(jinthuol, session, record)
            if answer.refusal:
                yield f"{'Begin' if record.begins else 'Add'}, {encounter}", str(answer)


def figure(week):
    """The two lines on the week."""
    ends = week.ends()
    held = [place for day in week.days for place in day if place]
    yield f"Held: {len(held)}. Lower end {ends.lower}, upper end {ends.upper}."
    lower, upper = ends.decimals
    at_least = f"The chance of at least one collision among them is at least {lower}"
    if not held:
        yield "Nothing is held, so these ends say nothing."
    elif ends.upper.fraction < 1:
        yield f"{at_least} and at most {upper}."
    else:
        yield f"{at_least}. The upper end is 1 or more and says nothing."


def main():
    found, once = arguments()
    jinthuol = library.load("week.py")
    week = jinthuol.Week.empty()
    status = 0
    for path, script in found:
        for records in encounters(scripts.records(script)):
            for start, words in lines(jinthuol, week, path, without_early_reads(records) if once else records):
                print(f"{start}: {words}.")
                status = 1 if words.startswith("refused ") else status
    for line in figure(week):
        print(line)
    sys.exit(status)


if __name__ == "__main__":
    main()
