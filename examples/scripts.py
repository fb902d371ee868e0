"""The records of a script, for the programs of this folder that take one."""

import struct
import sys
from typing import NamedTuple

BEGIN, ADD, READ, BEGIN_CONJUNCTION = 1, 2, 3, 4
# The body of each kind of record.
BODIES = {BEGIN: "<IIIii", ADD: "<H", READ: "<", BEGIN_CONJUNCTION: "<IIIiiII"}
BODIES = {kind: struct.Struct(body) for kind, body in BODIES.items()}
# In bytes.
LONGEST_SCRIPT = 65_536


class Record(NamedTuple):
    """Where a record starts, its kind and its numbers; or where a script is refused, and the refusal's number."""

    offset: int
    kind: int = 0
    numbers: tuple = ()
    refusal: int = 0

    @property
    def begins(self):
        return self.kind in (BEGIN, BEGIN_CONJUNCTION)


def bytes_of(program, path):
    """The bytes of the file. Where it cannot be read, ends the program with a line that says so."""
    try:
        return path.read_bytes()
    except OSError as error:
        print(f"{program}: {path}: {error.strerror}", file=sys.stderr)
        sys.exit(2)


def records(script):
    """The records of a script. After refusal 8, 1 or 2 there are no more."""
    if len(script) > LONGEST_SCRIPT:
        yield Record(0, refusal=8)
        return
    offset = 0
    while offset < len(script):
        body = BODIES.get(script[offset])
        if not body or len(script) < offset + 1 + body.size:
            yield Record(offset, refusal=2 if body else 1)
            return
        yield Record(offset, script[offset], body.unpack_from(script, offset + 1))
        offset += 1 + body.size


def called(jinthuol, session, record):
    """The answer to a begin or an add."""
    if record.kind == ADD:
        return session.add(*record.numbers)
    encounter = jinthuol.Encounter(*record.numbers[:5])
    if record.kind == BEGIN:
        return session.begin(encounter)
    return session.begin_conjunction(jinthuol.Conjunction(encounter, *record.numbers[5:]))
