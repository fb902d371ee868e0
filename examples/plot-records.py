#!/usr/bin/env python3
"""What a plotting tool stores of the reads of a script: object number, lower end, upper end and their difference.

    python3 examples/plot-records.py SCRIPT

It makes the calls that the script asks for; for a read it asks for the plot record. Each read has a line, which begins
with its offset in the script, and a begin or an add has one where it is refused:

    record OBJECT LOWER UPPER DIFFERENCE     each double in the fewest digits that read back as the same double
    unbounded OBJECT: at least LOWER         there is no record, since the upper end is 1 or more
    refused NUMBER: TEXT                     there is neither a record nor an end

examples/plot-records.md is the text on it. It calls the library by bindings/python/jinthuol.py, after
`tools/build jinthuol`.

Exit status: 0 every line is a record; 1 one is not; 2 wrong use, or a file that cannot be read.
"""

import argparse
import pathlib
import sys

sys.dont_write_bytecode = True
import library
import scripts


def script():
    """The bytes of the file."""
    parser = argparse.ArgumentParser(description="What a plotting tool stores of the reads of a script.")
    parser.add_argument("script", type=pathlib.Path, help="a script of records, as ./screen takes it")
    return scripts.bytes_of("plot-records.py", parser.parse_args().script)


def plotted(session):
    """What is printed of a read."""
    answer = session.read_plot_record()
    if answer.record:
        return "record {} {!r} {!r} {!r}".format(*answer.record)
    if answer.refusal:
        return str(answer)
    return f"unbounded {session.read().object}: at least {session.read_doubles().lower!r}"


def lines(jinthuol, records):
    """The offset and the words of each line. A begin or an add that is accepted has none."""
    session = jinthuol.Session.empty()
    for record in records:
        if record.refusal:
            yield record.offset, jinthuol.refused(record.refusal)
        elif record.kind == scripts.READ:
            yield record.offset, plotted(session)
        else:
            answer = scripts.called(jinthuol, session, record)
            if answer.refusal:
                yield record.offset, str(answer)


def main():
    records = scripts.records(script())
    found = list(lines(library.load("plot-records.py"), records))
    for offset, words in found:
        print(offset, words)
    sys.exit(0 if all(words.startswith("record ") for _, words in found) else 1)


if __name__ == "__main__":
    main()
