#!/usr/bin/env python3
"""A proved bracket of the collision probability of one short encounter: the calls of libjinthuol.a, by ctypes.

    python3 bindings/python/jinthuol.py SCRIPT     prints the listing of a script file

Lengths are whole centimetres. A call gives an Answer:

    >>> import jinthuol
    >>> session = jinthuol.Session.empty()
    >>> print(session.begin(jinthuol.Encounter(R=500, sx=5000, sy=100, xm=1000, ym=0)))
    N = 1
    >>> print(session.read())
    refused 23: read: 2M above N + 2
    >>> print(session.add(54))
    N = 55
    >>> answer = session.read()
    >>> print(answer)
    N = 55: 2627622691 × 2^-35 to 2627623074 × 2^-35, alert, 7.647e-02 to 7.648e-02, exact terms: 1
    >>> print(*answer.decimals)
    7.647e-02 7.648e-02
    >>> answer.floats
    (0.07647388530313037, 0.07647389644989744)
    >>> answer.lower.fraction
    Fraction(2627622691, 34359738368)

With an object number and a time of closest approach, in minutes from the epoch that the site chooses, a read answers
these too:

    >>> encounter = jinthuol.Encounter(R=500, sx=5000, sy=100, xm=1000, ym=0)
    >>> conjunction = jinthuol.Conjunction(encounter, object=25544, time=1440)
    >>> print(session.begin_conjunction(conjunction), session.add(54))
    N = 1 N = 55
    >>> answer = session.read()
    >>> print(answer.class_name, *answer.decimals)
    alert 7.647e-02 7.648e-02
    >>> answer.object, answer.time
    (25544, 1440)

A read also answers how many of the first terms are exact: on the way to them nothing was rounded off, on either side:

    >>> print(session.begin(jinthuol.Encounter(R=10, sx=10, sy=10, xm=0, ym=0)), session.add(2))
    N = 1 N = 3
    >>> session.read().exact_terms
    2

A session advises an order that is enough, where M is not above 256:

    >>> print(session.begin(jinthuol.Encounter(R=500, sx=5000, sy=100, xm=1000, ym=0)))
    N = 1
    >>> advice = session.advise()
    >>> print(advice)
    order 66
    >>> print(session.add(advice.order - 1))
    N = 66
    >>> print(*session.read().decimals)
    7.647e-02 7.648e-02

The lower end divided down and the upper end divided up, by a whole number, enclose the divided probability:

    >>> print(session.read().lower.divided_down(3), session.read().upper.divided_up(3), sep=" to ")
    3503496921 × 2^-37 to 3503497447 × 2^-37
    >>> print(session.read().upper.divided_up(0))
    refused 10: divide: divisor 0, number not in the scaled form, or e below −1,000,000,000

A plotting tool reads doubles, which are Python's floats. Each equals its end exactly; a record has their difference:

    >>> print(session.begin_conjunction(conjunction), session.add(54))
    N = 1 N = 55
    >>> print(session.read_doubles())
    0.07647388530313037 to 0.07647389644989744
    >>> session.read_plot_record().record
    PlotRecord(object=25544, lower=0.07647388530313037, upper=0.07647389644989744, difference=1.1146767064929008e-08)

Where the upper end is 1 or more, there is the lower end alone, and no record:

    >>> print(session.begin(jinthuol.Encounter(R=40, sx=10, sy=10, xm=0, ym=0)), session.add(13))
    N = 1 N = 14
    >>> session.read_doubles()
    Doubles(refusal=0, lower=0.9824074702337384, upper=None)
    >>> session.read_doubles().unbounded
    True
    >>> print(session.read_plot_record())
    no record: the upper end is 1 or more

A week has seven days, 0 to 6, of eight places. A read of a session is entered into the next empty place of a day:

    >>> week = jinthuol.Week.empty()
    >>> print(session.begin_conjunction(conjunction), session.add(65), week.enter(2, session), sep=", ")
    N = 1, N = 66, entered
    >>> print(session.begin(jinthuol.Encounter(R=500, sx=5000, sy=2500, xm=1000, ym=0)), session.add(12))
    N = 1 N = 13
    >>> print(week.enter(0, session), week.enter(7, session), sep=", ")
    entered, refused 13: enter: day number above 6
    >>> print(week.days[2][0])
    2627622691 × 2^-35 to 2627623085 × 2^-35, 7.647e-02 to 7.648e-02
    >>> print(week.days[2][1])
    None

The chance of at least one collision in these encounters lies between the week's two ends, independent or not:

    >>> print(week.ends())
    2627622691 × 2^-35 to 2962338876 × 2^-35, 7.647e-02 to 8.622e-02
    >>> print(*week.ends().decimals)
    7.647e-02 8.622e-02
    >>> week.ends().floats
    (0.07647388530313037, 0.08621540840249509)

The library libjinthuol.a is in the folder that JINTHUOL_LIB_DIR names, else in target/staticlib of the repository,
where `tools/build jinthuol` writes it. At the first import gcc links it into a shared object beside it,
libjinthuol.so; later imports take that. Where there is no library, or it cannot be linked or is of another version,
importing raises ImportError.
"""

import ctypes
import math
import os
import pathlib
import struct
import subprocess
import sys
from ctypes import POINTER, c_bool, c_char, c_char_p, c_double, c_int32, c_size_t, c_uint16, c_uint32
from fractions import Fraction
from typing import NamedTuple, Optional

# JINTHUOL_VERSION of bindings/c/jinthuol.h.
VERSION = 11

# The condition of each refusal. 1, 2 and 8 are in listings only.
REFUSALS = {
    1: "no kind byte, or kind is not 1, 2, 3 or 4",
    2: "body shorter than its kind needs",
    3: "R is 0 or above 10,000,000",
    4: "sx or sy is 0 or above 10,000,000",
    5: "sy above sx",
    6: "a miss outside −10,000,000 to 10,000,000",
    7: "upper t above 64",
    8: "script file longer than 65,536 bytes",
    9: "kind 4: object number is 0",
    10: "divide: divisor 0, number not in the scaled form, or e below −1,000,000,000",
    11: "begin: 2M above 1,026",
    12: "add: count is 0",
    13: "enter: day number above 6",
    21: "add or read with no encounter begun",
    22: "add: N + count above 1,024",
    23: "read: 2M above N + 2",
    24: "enter: a ninth bracket for a day",
}
CLASSES = ("clear", "alert", "open")
# JINTHUOL_UNBOUNDED and JINTHUOL_BOTH; the tag of a refusal is 0.
UNBOUNDED, BOTH = 1, 2

# A float above 0 is a whole number of 2^-1074.
LEAST_EXPONENT = -1074


class Encounter(NamedTuple):
    """Combined radius R, larger standard deviation sx, smaller sy, mean miss xm and ym."""

    R: int
    sx: int
    sy: int
    xm: int
    ym: int


class Conjunction(NamedTuple):
    """An encounter, its object number, from 1 on, and its time of closest approach in minutes."""

    encounter: Encounter
    object: int
    time: int


def listed(value):
    """The value of a field; of an array, or an array of arrays, the list."""
    return list(map(listed, value)) if isinstance(value, ctypes.Array) else value


class Struct(ctypes.Structure):
    """A struct of the library. Two are equal where all their fields are."""

    def values(self):
        return [listed(getattr(self, name)) for name, _ in self._fields_]

    def __eq__(self, other):
        return self.values() == other.values() if type(other) is type(self) else NotImplemented

    def __repr__(self):
        fields = (f"{name}={value!r}" for (name, _), value in zip(self._fields_, self.values()))
        return f"{type(self).__name__}({', '.join(fields)})"


class Inputs(Struct):
    """An encounter as the library takes it."""

    _fields_ = [("R", c_uint32), ("sx", c_uint32), ("sy", c_uint32), ("xm", c_int32), ("ym", c_int32)]


class ConjunctionInputs(Struct):
    """A conjunction as the library takes it."""

    _fields_ = [("encounter", Inputs), ("object", c_uint32), ("time", c_uint32)]


class Decimal(Struct):
    """d.ddd × 10^-power, where digits is dddd: 1000 to 9999, or 0. As text `d.ddde-` and the power in two digits."""

    _fields_ = [("digits", c_uint32), ("power", c_uint32)]

    @property
    def fraction(self):
        """The number that is printed."""
        return Fraction(self.digits, 10 ** (self.power + 3))

    def __str__(self):
        return f"{self.digits // 1000}.{self.digits % 1000:03}e-{self.power:02}"


class Scaled(Struct):
    """m × 2^e: m from 2^31 to 2^32 − 1, or zero as m = 0 and e = 0.

    Made by hand it may have another m or e; one that does not fit its type raises struct.error.
    """

    _fields_ = [("m", c_uint32), ("e", c_int32)]

    def __init__(self, m=0, e=0):
        struct.pack("=Ii", m, e)
        super().__init__(m, e)

    @property
    def fraction(self):
        """The number itself."""
        return Fraction(self.m) * Fraction(2) ** self.e

    def float_down(self):
        """The greatest float that is not above it, which is the number itself where e fits."""
        return self.rounded(False)

    def float_up(self):
        """The least float that is not below it, which is the number itself where e fits; inf where all are below it."""
        return self.rounded(True)

    def decimal_down(self):
        """As a lower end in decimal: never above it.

        An end of a read that is below 1 is off by at most two in the last digit. 1.000e-00 where it is 1 or more;
        0.000e-00 where it is too small for the table of powers of ten, which no end of a read is.
        """
        return LIBRARY.jinthuol_to_decimal(False, self)

    def decimal_up(self):
        """As an upper end in decimal: where it is below 1 never below it.

        An end of a read that is below 1 is off by at most two in the last digit. 1.000e-00 where it is 1 or more;
        1.000e-43 where it is too small for the table of powers of ten, which no end of a read is; 0.000e-00 for zero.
        """
        return LIBRARY.jinthuol_to_decimal(True, self)

    def divided_down(self, divisor):
        """A Divided: this by a whole number, rounded down, as for a lower end.

        The quotient is the greatest scaled number that is not above the exact one. Refused as 10 where the divisor is
        0, where this is no scaled number, or where e is below −1,000,000,000. No end of a read meets the last two. A
        divisor that does not fit 32 bits raises struct.error.
        """
        return self.divided(False, divisor)

    def divided_up(self, divisor):
        """A Divided: this by a whole number, rounded up, as for an upper end.

        The quotient is the least scaled number that is not below the exact one. Refused as divided_down is.
        """
        return self.divided(True, divisor)

    def divided(self, up, divisor):
        struct.pack("=I", divisor)
        return LIBRARY.jinthuol_divide(up, self, divisor)

    def rounded(self, up):
        # m has 32 bits and a float 53: only e can be too small or too large.
        m, e = self.m, self.e
        if e < LEAST_EXPONENT:
            shift = min(LEAST_EXPONENT - e, 32)
            m, e = -(-m >> shift) if up else m >> shift, LEAST_EXPONENT
        try:
            return math.ldexp(m, e)
        except OverflowError:
            return math.inf if up else sys.float_info.max

    def __str__(self):
        return f"{self.m} × 2^{self.e}" if self.m else "0"


def refused(number):
    """A refusal in words."""
    return f"refused {number}: {REFUSALS[number]}"


class Answer(Struct):
    """The refusal's number, or 0; then the order N, both ends, the class, object and time, and exact_terms.

    Only a read that is not refused has more than the first two: both begins, add and every refusal have zero there. The
    class is 0 for clear, 1 for alert, 2 for open. The object number and the time are those of begin_conjunction, and
    both 0 after begin. exact_terms is how many of the first terms are exact, at least 0 and at most N: on the way to
    them nothing was rounded off, on either side. It tells where rounding starts; how much is lost is in the ends.
    """

    _fields_ = [
        ("refusal", c_uint32),
        ("N", c_uint32),
        ("lower", Scaled),
        ("upper", Scaled),
        ("class_", c_uint32),
        ("object", c_uint32),
        ("time", c_uint32),
        ("exact_terms", c_uint32),
    ]

    @property
    def has_ends(self):
        """Whether it is the answer of a read that is not refused: only there the lower end is above 0."""
        return self.lower.m > 0

    @property
    def class_name(self):
        """`alert`, `clear` or `open`. Raises ValueError where there are no ends."""
        self.need_ends()
        return CLASSES[self.class_]

    @property
    def floats(self):
        """Both ends: the floats that they are, or the next ones outward. Raises ValueError where there are no ends."""
        self.need_ends()
        return self.lower.float_down(), self.upper.float_up()

    @property
    def decimals(self):
        """Both ends in decimal, as a listing has them. Raises ValueError where there are no ends."""
        self.need_ends()
        return self.lower.decimal_down(), self.upper.decimal_up()

    def need_ends(self):
        if not self.has_ends:
            raise ValueError(f"no ends in this answer: {self}")

    def __str__(self):
        if self.refusal:
            return refused(self.refusal)
        if not self.has_ends:
            return f"N = {self.N}"
        lower, upper = self.decimals
        of_object = f", object {self.object} at minute {self.time}" if self.object else ""
        ends = f"{self.lower} to {self.upper}, {self.class_name}, {lower} to {upper}"
        return f"N = {self.N}: {ends}{of_object}, exact terms: {self.exact_terms}"


class Advice(Struct):
    """The refusal's number, or 0; then the advised order, or 0 where there is none, as in a refusal."""

    _fields_ = [("refusal", c_uint32), ("order", c_uint32)]

    @property
    def has_order(self):
        """Whether an order is advised. None is where M is above 256, nor in a refusal."""
        return self.order > 0

    def __str__(self):
        if self.refusal:
            return refused(self.refusal)
        return f"order {self.order}" if self.has_order else "no order: M above 256"


class Divided(Struct):
    """The refusal's number, or 0; then the quotient, which is zero where it is refused."""

    _fields_ = [("refusal", c_uint32), ("quotient", Scaled)]

    def __str__(self):
        return refused(self.refusal) if self.refusal else str(self.quotient)


class Doubles(NamedTuple):
    """The refusal's number, or 0; then both ends as floats, each the end exactly.

    upper is None where the upper end is 1 or more, and both are None where it is refused.
    """

    refusal: int
    lower: Optional[float]
    upper: Optional[float]

    @property
    def unbounded(self):
        """Whether there is the lower end alone, since the upper end is 1 or more."""
        return self.lower is not None and self.upper is None

    def __str__(self):
        if self.refusal:
            return refused(self.refusal)
        return f"at least {self.lower}, unbounded" if self.unbounded else f"{self.lower} to {self.upper}"


class PlotRecord(NamedTuple):
    """What a plotting tool stores: the object number, or 0, both ends, and the float upper − lower."""

    object: int
    lower: float
    upper: float
    difference: float

    def __str__(self):
        return f"object {self.object}: {self.lower} to {self.upper}, difference {self.difference}"


class Plotted(NamedTuple):
    """The refusal's number, or 0; then the PlotRecord, or None.

    There is none where the upper end is 1 or more, nor in a refusal.
    """

    refusal: int
    record: Optional[PlotRecord]

    @property
    def unbounded(self):
        """Whether there is no record since the upper end is 1 or more."""
        return not self.refusal and self.record is None

    def __str__(self):
        if self.refusal:
            return refused(self.refusal)
        return str(self.record) if self.record else "no record: the upper end is 1 or more"


class DoublesOutput(Struct):
    """The ends as the library answers them: one that is not there has 0."""

    _fields_ = [("refusal", c_uint32), ("tag", c_uint32), ("lower", c_double), ("upper", c_double)]

    def doubles(self):
        lower = self.lower if self.tag in (UNBOUNDED, BOTH) else None
        return Doubles(self.refusal, lower, self.upper if self.tag == BOTH else None)


class RecordOutput(Struct):
    """A record as the library answers it."""

    _fields_ = [("object", c_uint32), ("lower", c_double), ("upper", c_double), ("difference", c_double)]


class PlottedOutput(Struct):
    """The record as the library answers it: one that is not there has 0 in every field."""

    _fields_ = [("refusal", c_uint32), ("tag", c_uint32), ("record", RecordOutput)]

    def plotted(self):
        return Plotted(self.refusal, PlotRecord(*self.record.values()) if self.tag == BOTH else None)


class Ends(Struct):
    """A lower and an upper end: of a week, or of a read that it holds. An empty week has zero for both."""

    _fields_ = [("lower", Scaled), ("upper", Scaled)]

    @property
    def floats(self):
        """Both ends: the floats that they are, or the next ones outward."""
        return self.lower.float_down(), self.upper.float_up()

    @property
    def decimals(self):
        """Both ends in decimal."""
        return self.lower.decimal_down(), self.upper.decimal_up()

    def __str__(self):
        lower, upper = self.decimals
        return f"{self.lower} to {self.upper}, {lower} to {upper}"


class Entered(NamedTuple):
    """The refusal's number, or 0."""

    refusal: int

    def __str__(self):
        return refused(self.refusal) if self.refusal else "entered"


class Kept(Struct):
    """What a session keeps. Only the library writes it."""

    _fields_ = [("words", c_uint32 * 60)]


class Bracket(Struct):
    """A place of a week as the library has it: 1 and the two ends of a read, or 0 in every field."""

    _fields_ = [("held", c_uint32), ("lower", Scaled), ("upper", Scaled)]

    def ends(self):
        return Ends(self.lower, self.upper) if self.held else None


class KeptWeek(Struct):
    """What a week keeps. Only the library writes it."""

    _fields_ = [("days", Bracket * 8 * 7)]


class EnteredOutput(Struct):
    """The refusal's number, or 0; then the week after the entry."""

    _fields_ = [("refusal", c_uint32), ("week", KeptWeek)]


class Listing(Struct):
    """The bytes of the buffer that are used, and whether they are the whole listing."""

    _fields_ = [("used", c_size_t), ("ended", c_bool)]


def linked(archive, shared):
    """Has gcc link the library into a shared object, where that is not of this library already."""
    built = archive.stat().st_mtime_ns
    if shared.is_file() and shared.stat().st_mtime_ns == built:
        return
    # Another program may have the shared object open, or link it now: it is replaced whole.
    new = shared.with_suffix(f".{os.getpid()}")
    command = ["gcc", "-shared", "-o", new, "-Wl,--whole-archive", archive, "-Wl,--no-whole-archive"]
    try:
        ended = subprocess.run(command, capture_output=True, text=True)
    except OSError as error:
        raise ImportError(f"gcc has to link {archive} into a shared object, and cannot be run: {error}") from error
    if ended.returncode:
        raise ImportError(f"gcc could not link {archive} into {shared}: {ended.stderr.strip()}")
    os.utime(new, ns=(built, built))
    try:
        os.replace(new, shared)
    except OSError:
        new.unlink()
        raise


def load():
    here = pathlib.Path(__file__).resolve().parent
    folder = pathlib.Path(os.environ.get("JINTHUOL_LIB_DIR") or here / "../../target/staticlib")
    again = "run `tools/build jinthuol` in the folder of the repository"
    try:
        archive = folder.resolve() / "libjinthuol.a"
        shared = archive.with_suffix(".so")
        if not archive.is_file():
            raise ImportError(f"there is no {archive}: {again}, or set JINTHUOL_LIB_DIR to the folder that has it")
        linked(archive, shared)
    except OSError as error:
        raise ImportError(f"the library in {folder} cannot be used: {error}") from error
    try:
        library = ctypes.CDLL(str(shared))
        version = library.jinthuol_version()
    except (OSError, AttributeError) as error:
        raise ImportError(f"{archive} is not the library that this module is for: {again}") from error
    if version != VERSION:
        raise ImportError(f"{archive} has version {version}, this module is for version {VERSION}: {again}")
    for name, result, *arguments in (
        ("empty", Kept),
        ("begin", Answer, POINTER(Kept), Inputs),
        ("begin_conjunction", Answer, POINTER(Kept), ConjunctionInputs),
        ("add", Answer, POINTER(Kept), c_uint16),
        ("read", Answer, Kept),
        ("advise", Advice, Kept),
        ("read_doubles", DoublesOutput, Kept),
        ("read_plot_record", PlottedOutput, Kept),
        ("empty_week", KeptWeek),
        ("enter", EnteredOutput, KeptWeek, c_uint32, Kept),
        ("week_ends", Ends, KeptWeek),
        ("to_decimal", Decimal, c_bool, Scaled),
        ("divide", Divided, c_bool, Scaled, c_uint32),
        ("run", Listing, c_char_p, c_size_t, POINTER(c_char), c_size_t),
    ):
        function = getattr(library, f"jinthuol_{name}")
        function.restype, function.argtypes = result, arguments
    return library


try:
    LIBRARY = load()
except ImportError as error:
    if __name__ == "__main__":
        sys.exit(f"jinthuol.py: {error}")
    raise


class Session:
    """One encounter at a time. Each call gives its Answer, but for the last three: an Advice, a Doubles and a Plotted.

    A number that does not fit its type raises struct.error: ctypes alone would drop the bits that do not fit.
    """

    def __init__(self, kept):
        self.kept = kept

    @classmethod
    def empty(cls):
        """A session with no encounter begun."""
        return cls(LIBRARY.jinthuol_empty())

    def begin(self, encounter):
        """Begins an encounter at order N = 1, with no object: reads answer 0 as the object number and the time.

        Refused as 3 to 7 or 11, and then the session is as it was, with the earlier object number and time.
        """
        packed = struct.pack("=IIIii", *encounter)
        return LIBRARY.jinthuol_begin(self.kept, Inputs.from_buffer_copy(packed))

    def begin_conjunction(self, conjunction):
        """Begins an encounter of an object at order N = 1: reads answer the object number and the time too.

        Refused as 3 to 7, 11 or 9, the last where the object number is 0, and then the session is as it was, with the
        earlier object number and time.
        """
        encounter, number, time = conjunction
        packed = struct.pack("=IIIiiII", *encounter, number, time)
        return LIBRARY.jinthuol_begin_conjunction(self.kept, ConjunctionInputs.from_buffer_copy(packed))

    def add(self, count):
        """Adds count terms, 1 or more.

        Refused as 12, 21 or 22, as 12 where count is 0; a refused add leaves the session as it was.
        """
        struct.pack("=H", count)
        return LIBRARY.jinthuol_add(self.kept, count)

    def read(self):
        """The bracket at the session's order. Refused as 21 or 23.

        At the first orders that are read the upper end may be far off; advise has how many terms are enough.
        """
        return LIBRARY.jinthuol_read(self.kept)

    def advise(self):
        """An order N that is enough for the encounter: at it and at any later one a read is accepted and close.

        It is the same at every order of the encounter. After a refused begin it is that of the encounter before. No
        order is advised where M is above 256. Refused as 21.
        """
        return LIBRARY.jinthuol_advise(self.kept)

    def read_doubles(self):
        """A Doubles: the ends of a read as floats, or the lower end alone where the upper end is 1 or more.

        Refused as 21 or 23, as read is.
        """
        return LIBRARY.jinthuol_read_doubles(self.kept).doubles()

    def read_plot_record(self):
        """A Plotted: the record of a read for a plotting tool, which is None where the upper end is 1 or more.

        Refused as 21 or 23, as read is.
        """
        return LIBRARY.jinthuol_read_plot_record(self.kept).plotted()


class Week:
    """Seven days, 0 to 6, of eight places, each empty or with the two ends of a read."""

    def __init__(self, kept):
        self.kept = kept

    @classmethod
    def empty(cls):
        """A week with every place empty."""
        return cls(LIBRARY.jinthuol_empty_week())

    def enter(self, day, session):
        """Makes a read of the session and puts its two ends into the next empty place of the day. Gives an Entered.

        Refused as 13, 21, 23 or 24: as 13 before the tests of the read, where the day is above 6, and as 24 after them,
        where the day has eight brackets already. Any refusal leaves the week as it was. The session is not changed. An
        encounter that is entered twice counts twice in the upper end. A day that does not fit 32 bits raises
        struct.error, and what is no Session TypeError.
        """
        struct.pack("=I", day)
        if not isinstance(session, Session):
            raise TypeError(f"a Session is due, not {session!r}")
        entered = LIBRARY.jinthuol_enter(self.kept, day, session.kept)
        self.kept = entered.week
        return Entered(entered.refusal)

    def ends(self):
        """An Ends: the greatest lower end held, and the upper ends added, in the order of days and places.

        Each sum is rounded up to a scaled number. The chance of at least one collision in the encounters that are held
        lies between, independent or not. An upper end of 1 or more says nothing. An encounter whose entry was refused
        is not in the figure. Both are zero where the week is empty.
        """
        return LIBRARY.jinthuol_week_ends(self.kept)

    @property
    def days(self):
        """The places of each day, as lists: each an Ends, or None where it is empty."""
        return [[place.ends() for place in day] for day in self.kept.days]


def run(script):
    """The listing of a script, both as bytes."""
    script = memoryview(script).tobytes()
    # 150 bytes for each byte of the script are enough.
    out = ctypes.create_string_buffer(150 * min(len(script), 65_536))
    listing = LIBRARY.jinthuol_run(script, len(script), out, len(out))
    if not listing.ended:
        raise RuntimeError(f"{len(out)} bytes were too few")
    return ctypes.string_at(out, listing.used)


def ended(status, words):
    """Ends the program with a line on standard error."""
    print(words, file=sys.stderr)
    sys.exit(status)


def main():
    if len(sys.argv) != 2 or sys.argv[1].startswith("-"):
        ended(2, "usage: python3 bindings/python/jinthuol.py SCRIPT")
    try:
        with open(sys.argv[1], "rb") as file:
            script = file.read()
    except OSError as error:
        ended(2, f"jinthuol.py: {sys.argv[1]}: {error.strerror}")
    try:
        with open(1, "wb", closefd=False) as out:
            out.write(run(script))
    except OSError as error:
        ended(1, f"jinthuol.py: the listing could not be written: {error.strerror}")


if __name__ == "__main__":
    main()
