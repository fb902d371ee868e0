"""The records of a script, the program's listing, and a script without its empty adds, by documents 01 and 02."""

import functools
import struct
from typing import NamedTuple

import decimals
from reference import LONGEST_SCRIPT, Answer, Session


class Kind(NamedTuple):
    """The call that a record asks for, the layout of its body, and the word of its line."""

    call: str
    body: struct.Struct
    said: str


# "One byte of kind, then a fixed body, numbers little-endian."
KINDS = {
    1: Kind("begin", struct.Struct("<IIIii"), "begun"),
    2: Kind("add", struct.Struct("<H"), "added"),
    3: Kind("read", struct.Struct("<"), "read"),
    # Request #104: "A begin of kind 4 has the body of kind 1, then an object number and a time of closest approach,
    # both unsigned 32-bit".
    4: Kind("begin_conjunction", struct.Struct("<IIIiiII"), "begun"),
}
# The largest count of an add.
MOST_COUNT = (1 << 16) - 1


def packed(kind, *inputs):
    return bytes([kind]) + KINDS[kind].body.pack(*inputs)


def begin(R, sx, sy, xm, ym):
    return packed(1, R, sx, sy, xm, ym)


def add(count):
    return packed(2, count)


READ = packed(3)


def begin_conjunction(R, sx, sy, xm, ym, object, time):
    return packed(4, R, sx, sy, xm, ym, object, time)


class Record(NamedTuple):
    """A record: its position, then refusal 1 or 2, or the kind and the inputs of its call."""

    position: int
    refusal: int
    kind: Kind = None
    inputs: tuple = ()

    @property
    def end(self):
        """Where the next record starts; None after refusal 1 or 2, where all that follows belongs to it."""
        return None if self.refusal else self.position + 1 + self.kind.body.size

    @property
    def is_empty_add(self):
        return self.kind is KINDS[2] and self.inputs == (0,)

    @property
    def encounter(self):
        """The five inputs of a begin, or None."""
        return self.inputs[:5] if self.kind and self.kind.said == "begun" else None

    def called(self, session):
        """The answer of its call."""
        return Answer(self.refusal) if self.refusal else getattr(session, self.kind.call)(*self.inputs)


def record_at(script, position):
    """The record whose kind byte is at the position."""
    kind = KINDS.get(script[position]) if position < len(script) else None
    if kind is None:
        return Record(position, 1)
    body = script[position + 1 : position + 1 + kind.body.size]
    if len(body) < kind.body.size:
        return Record(position, 2)
    return Record(position, 0, kind, kind.body.unpack(body))


def records(script):
    """The records that the program comes to."""
    position = 0
    # "It ends where no byte is left, and after refusal 1 or 2; after the others it goes on."
    while position < len(script):
        record = record_at(script, position)
        yield record
        if record.refusal:
            return
        position = record.end


# Request #110: "Stored scripts are passed once through a program that drops such records and copies all others byte by
# byte. It leaves the byte at a refusal 1 or 2 and everything after it unchanged. For a script that meets 8 it writes
# nothing."
def dropped(script):
    """What is left of a script."""
    if len(script) > LONGEST_SCRIPT:
        return b""
    return b"".join(script[record.position : record.end] for record in records(script) if not record.is_empty_add)


# What the program prints.


# A script may read one order many times.
@functools.lru_cache(1000)
def decimal_text(up, end):
    return decimals.text(decimals.decimal(up, end))


def line(record, answer):
    """The line of one record."""
    if answer.refusal:
        return f"{record.position} refused {answer.refusal}\n"
    words = [record.position, record.kind.said, answer.N]
    if record.kind.call == "read":
        words += [*answer.lower, *answer.upper, answer.class_name]
        # Request #103: "The read line should offer each end as four significant digits and a power of ten. Anything a
        # ticket adds to the read line or to a read's answer is printed at the line's end, in ticket order."
        words += [decimal_text(False, answer.lower), decimal_text(True, answer.upper)]
        # Request #104: "a read answers both", the object number and the time.
        words += [answer.object, answer.time]
        # Request #105: "A read then answers the count of leading terms".
        words += [answer.exact]
    return " ".join(map(str, words)) + "\n"


def listing(script):
    """The whole listing."""
    if len(script) > LONGEST_SCRIPT:
        return "0 refused 8\n"
    session = Session()
    return "".join(line(record, record.called(session)) for record in records(script))


def answers(listing):
    """The answers of a listing, offsets aside."""
    return [line.split(" ", 1)[1] for line in listing.splitlines()]


def parted(script, listing):
    """The answers in a script's listing: those of the records that are left of it, and those of the dropped ones."""
    found = [(record.is_empty_add, answer) for record, answer in zip(records(script), answers(listing), strict=True)]
    return [[answer for is_dropped, answer in found if is_dropped == which] for which in (False, True)]


def printed(line):
    """The answer that a line shows; its decimals are not part of it."""
    _, said, *rest = line.split(" ")
    if said == "refused":
        return Answer(int(rest[0]))
    if said == "read":
        N, ml, el, mh, eh = map(int, rest[:5])
        return Answer(0, N, (ml, el), (mh, eh), rest[5], *map(int, rest[8:11]))
    return Answer(N=int(rest[0]))


def printed_decimals(line):
    """The two decimals that a read's line shows."""
    return line.split()[8:10]
