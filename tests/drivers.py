"""The programs in Rattle that scratch.py runs over the crates' code, and the lines that they write.

A program reads a record of bytes for each case and writes a line, ROUNDS several lines: numbers of eight hexadecimal
digits each, a negative one in two's complement. It ends where no whole record is left.
"""

WIDTH = 8


def digits(x):
    """What a program writes for x."""
    return "%08x" % (x % (1 << 32))


def line(numbers):
    return "".join(map(digits, numbers)) + "\n"


def line_length(fields):
    return WIDTH * len(fields) + 1


def number(text, signed):
    """The number that the digits are for."""
    x = int(text, 16)
    return x - (1 << 32) if signed and x >> 31 else x


# The module `words` of each program: numbers in records (little-endian) and in lines.
WORDS = """\
use exact::Encounter;
use exact::Scaled;

pub fn word(b: &[u8], at: usize) -> u32 {
    (b[at] as u32) + (b[at + 1] as u32) * 256 + (b[at + 2] as u32) * 65536 + (b[at + 3] as u32) * 16777216
}

pub fn signed(x: u32) -> i32 {
    if x < 2147483648 {
        return x as i32;
    }
    -1 - ((4294967295 - x) as i32)
}

pub fn unsigned(e: i32) -> u32 {
    if e < 0 {
        return 4294967295 - ((-1 - e) as u32);
    }
    e as u32
}

pub fn put(line: &mut [u8], at: usize, x: u32) -> usize {
    let mut rest = x;
    let mut i: usize = 8;
    while 0 < i {
        i -= 1;
        let d = (rest % 16) as u8;
        if d < 10 {
            line[at + i] = 48 + d;
        } else {
            line[at + i] = 87 + d;
        }
        rest = rest / 16;
    }
    at + 8
}

pub fn put_scaled(line: &mut [u8], at: usize, a: Scaled) -> usize {
    let next = put(line, at, a.m);
    put(line, next, unsigned(a.e))
}

pub fn encounter_at(b: &[u8], at: usize) -> Encounter {
    Encounter {
        R: word(b, at),
        sx: word(b, at + 4),
        sy: word(b, at + 8),
        xm: signed(word(b, at + 12)),
        ym: signed(word(b, at + 16)),
    }
}
"""

# The arithmetic. Reads records of 18 bytes: the kind; the direction (1 for U), with 2 more where something was lost on the
# way to the first operand and 4 more where it was on that to the second; then two operands of 8 bytes, little-endian: m
# and e of a scaled number, or a whole number. Writes m and e of the answer, and 1 where something was lost, else 0. The
# answer of at_most is m = 1 or m = 0, with e = 0. Kinds 10 to 13 pass on what was lost before; the others do not have it.
OPERATIONS = """\
mod words;
use crate::words::put;
use crate::words::put_scaled;
use crate::words::signed;
use crate::words::word;
use encounter::arithmetic::scaled;
use encounter::arithmetic::traced;
use encounter::arithmetic::wide;
use encounter::arithmetic::wide::Reciprocal;
use encounter::arithmetic::wide::Wide;
use exact::Scaled;
use exact::Traced;
use std::io;
use std::io::Read;
use std::io::Write;

fn long(b: &[u8; 18], at: usize) -> u64 {
    (word(b, at) as u64) + (word(b, at + 4) as u64) * 4294967296
}

fn operand(b: &[u8; 18], at: usize) -> Scaled {
    Scaled { m: word(b, at), e: signed(word(b, at + 4)) }
}

fn truth(t: bool) -> Traced {
    if t {
        return traced::clean(Scaled { m: 1, e: 0 });
    }
    traced::clean(Scaled { m: 0, e: 0 })
}

fn over_by(up: bool, a: Scaled, k: u32) -> Traced {
    let r = wide::over_by(up, Wide::from(a), Reciprocal::of(k as u64));
    Traced { number: r.number.narrowed(), lost: r.lost }
}

fn passing_on(b: &[u8; 18]) -> Traced {
    let up = b[1] % 2 == 1;
    let x = Traced { number: operand(b, 2), lost: b[1] / 2 % 2 == 1 };
    let y = Traced { number: operand(b, 10), lost: b[1] / 4 == 1 };
    match b[0] {
        10 => traced::product(up, x, y),
        11 => traced::sum(up, x, y),
        12 => traced::over(up, x, word(b, 10) as u64),
        _ => traced::halved(x),
    }
}

fn answer(b: &[u8; 18]) -> Traced {
    let up = b[1] == 1;
    match b[0] {
        0 => scaled::product(up, operand(b, 2), operand(b, 10)),
        1 => scaled::sum(up, operand(b, 2), operand(b, 10)),
        2 => scaled::over(up, operand(b, 2), word(b, 10) as u64),
        3 => scaled::quotient(up, operand(b, 2), operand(b, 10)),
        4 => scaled::ratio(up, long(b, 2), long(b, 10)),
        5 => traced::clean(scaled::halved(operand(b, 2))),
        6 => traced::clean(scaled::doubled(operand(b, 2))),
        7 => truth(scaled::at_most(operand(b, 2), operand(b, 10))),
        8 => traced::clean(Scaled::whole(word(b, 2))),
        9 => over_by(up, operand(b, 2), word(b, 10)),
        _ => passing_on(b),
    }
}

fn put_lost(line: &mut [u8], at: usize, lost: bool) {
    if lost {
        put(line, at, 1);
    } else {
        put(line, at, 0);
    }
}

fn main(rt: HostRuntime) -> io::Result<()> {
    let mut input = rt.stdin();
    let mut output = rt.stdout();
    let mut record = [0u8; 18];
    let mut line = [10u8; 25];
    while let Ok(()) = input.read_exact(&mut record) {
        let a = answer(&record);
        let next = put_scaled(&mut line, 0, a.number);
        put_lost(&mut line, next, a.lost);
        output.write_all(&line)?;
    }
    Ok(())
}
"""

# The calls. Reads records of 29 bytes: the kind, then seven words, little-endian. Kinds 1 to 4 are those of a script:
# begin with its five inputs, add with its count in the first word, read, and begin_conjunction with its seven inputs.
# Kinds 5, 6 and 7 are begin, add and begin_conjunction on a session that is lent; else it goes by value. Kind 0 stands for
# an empty session in place of the one before. Writes every number of the answer, then of the session, then of what
# `advise`, `read_doubles` and `read_plot_record` answer on it, in the order of fields.py.
SESSIONS = """\
mod words;
use crate::words::encounter_at;
use crate::words::put;
use crate::words::put_scaled;
use crate::words::unsigned;
use crate::words::word;
use advice::advise;
use encounter::calls;
use encounter::state::Answer;
use encounter::state::Called;
use encounter::state::Class;
use encounter::state::Session;
use encounter::state::Side;
use exact::Conjunction;
use exact::Encounter;
use exact::Scaled;
use exact::refusals::Refusal;
use host::Doubles;
use host::PlotRecord;
use host::read_doubles;
use host::read_plot_record;
use std::io;
use std::io::Read;
use std::io::Write;

fn nothing() -> Answer {
    let zero = Scaled::ZERO;
    Answer { refusal: 0, N: 0, lower: zero, upper: zero, class: Class::Clear, object: 0, time: 0, exact: 0 }
}

fn conjunction_at(b: &[u8; 29]) -> Conjunction {
    Conjunction { encounter: encounter_at(b, 1), object: word(b, 21), time: word(b, 25) }
}

fn by_value(s: Session, b: &[u8; 29]) -> Called {
    match b[0] {
        1 => calls::begin(s, encounter_at(b, 1)),
        2 => calls::add(s, word(b, 1) as u16),
        3 => Called { answer: calls::read(s), session: s },
        4 => calls::begin_conjunction(s, conjunction_at(b)),
        _ => Called { answer: nothing(), session: Session::empty() },
    }
}

fn call(s: &mut Session, b: &[u8; 29]) -> Answer {
    if b[0] == 5 {
        return s.begin(encounter_at(b, 1));
    }
    if b[0] == 6 {
        return s.add(word(b, 1) as u16);
    }
    if b[0] == 7 {
        return s.begin_conjunction(conjunction_at(b));
    }
    let c = by_value(*s, b);
    *s = c.session;
    c.answer
}

fn put_class(line: &mut [u8], at: usize, class: Class) -> usize {
    match class {
        Class::Clear => put(line, at, 0),
        Class::Alert => put(line, at, 1),
        Class::Open => put(line, at, 2),
    }
}

fn put_answer(line: &mut [u8], at: usize, a: Answer) -> usize {
    let mut next = put(line, at, a.refusal);
    next = put(line, next, a.N);
    next = put_scaled(line, next, a.lower);
    next = put_scaled(line, next, a.upper);
    next = put_class(line, next, a.class);
    next = put(line, next, a.object);
    next = put(line, next, a.time);
    put(line, next, a.exact)
}

fn put_encounter(line: &mut [u8], at: usize, E: Encounter) -> usize {
    let mut next = put(line, at, E.R);
    next = put(line, next, E.sx);
    next = put(line, next, E.sy);
    next = put(line, next, unsigned(E.xm));
    put(line, next, unsigned(E.ym))
}

fn put_side(line: &mut [u8], at: usize, s: Side) -> usize {
    let mut next = put_scaled(line, at, s.letters.u);
    next = put_scaled(line, next, s.letters.h);
    next = put_scaled(line, next, s.letters.X);
    next = put_scaled(line, next, s.letters.Y);
    next = put_scaled(line, next, s.letters.t);
    next = put_scaled(line, next, s.exponential);
    next = put_scaled(line, next, s.terms.c);
    next = put_scaled(line, next, s.terms.p);
    next = put_scaled(line, next, s.terms.v);
    next = put_scaled(line, next, s.terms.y);
    put_scaled(line, next, s.terms.sum)
}

fn put_session(line: &mut [u8], at: usize, s: Session) -> usize {
    let mut next = put_encounter(line, at, s.encounter);
    next = put(line, next, s.object);
    next = put(line, next, s.time);
    next = put(line, next, s.N);
    next = put_side(line, next, s.lower);
    next = put_side(line, next, s.upper);
    next = put_scaled(line, next, s.r256);
    next = put_scaled(line, next, s.M);
    next = put_scaled(line, next, s.d);
    next = put(line, next, s.exact);
    put(line, next, s.lossless)
}

fn put_three(line: &mut [u8], at: usize, refusal: u32, has_order: u32, order: u32) -> usize {
    let mut next = put(line, at, refusal);
    next = put(line, next, has_order);
    put(line, next, order)
}

fn put_advice(line: &mut [u8], at: usize, a: Result<Option<u16>, Refusal>) -> usize {
    match a {
        Ok(Some(N)) => put_three(line, at, 0, 1, u32::from(N)),
        Ok(None) => put_three(line, at, 0, 0, 0),
        Err(refusal) => put_three(line, at, u32::from(refusal), 0, 0),
    }
}

fn put_double(line: &mut [u8], at: usize, x: f64) -> usize {
    let bits = f64::to_bits(x);
    let next = put(line, at, (bits / 4294967296) as u32);
    put(line, next, (bits % 4294967296) as u32)
}

fn put_ends(line: &mut [u8], at: usize, refusal: u32, tag: u32, lower: f64, upper: f64) -> usize {
    let mut next = put(line, at, refusal);
    next = put(line, next, tag);
    next = put_double(line, next, lower);
    put_double(line, next, upper)
}

fn put_doubles(line: &mut [u8], at: usize, d: Result<Doubles, Refusal>) -> usize {
    match d {
        Ok(Doubles::Both(lower, upper)) => put_ends(line, at, 0, 2, lower, upper),
        Ok(Doubles::Unbounded(lower)) => put_ends(line, at, 0, 1, lower, 0.0),
        Err(refusal) => put_ends(line, at, u32::from(refusal), 0, 0.0, 0.0),
    }
}

fn put_record(line: &mut [u8], at: usize, refusal: u32, tag: u32, r: PlotRecord) -> usize {
    let mut next = put(line, at, refusal);
    next = put(line, next, tag);
    next = put(line, next, r.object);
    next = put_double(line, next, r.lower);
    next = put_double(line, next, r.upper);
    put_double(line, next, r.difference)
}

fn put_plotted(line: &mut [u8], at: usize, p: Result<Option<PlotRecord>, Refusal>) -> usize {
    match p {
        Ok(Some(r)) => put_record(line, at, 0, 2, r),
        Ok(None) => put_record(line, at, 0, 1, PlotRecord::default()),
        Err(refusal) => put_record(line, at, u32::from(refusal), 0, PlotRecord::default()),
    }
}

fn main(rt: HostRuntime) -> io::Result<()> {
    let mut input = rt.stdin();
    let mut output = rt.stdout();
    let mut record = [0u8; 29];
    let mut line = [10u8; 705];
    let mut s = Session::empty();
    while let Ok(()) = input.read_exact(&mut record) {
        let answer = call(&mut s, &record);
        let mut next = put_answer(&mut line, 0, answer);
        next = put_session(&mut line, next, s);
        next = put_advice(&mut line, next, advise(s));
        next = put_doubles(&mut line, next, read_doubles(s));
        put_plotted(&mut line, next, read_plot_record(s));
        output.write_all(&line)?;
    }
    Ok(())
}
"""

# The rounds of the exponential, as a port would make them. Reads records of 20 bytes, the five inputs of an encounter
# that is accepted, and writes a line for each k from 0 to 256: r(k) and the sum to it of the lower side, then of the
# upper side. Then one line of what a begin takes: zero, the lower sum, the upper r(256), the upper sum.
ROUNDS = """\
mod words;
use crate::words::encounter_at;
use crate::words::put_scaled;
use encounter::steps::letters::letters;
use encounter::steps::powers::exponential_sums;
use encounter::steps::powers::one_round;
use encounter::steps::sides::PowerPairs;
use encounter::steps::sides::pair_of;
use encounter::steps::sides::side;
use exact::Scaled;
use std::io;
use std::io::Read;
use std::io::Write;

fn show<W: Write>(
    output: &mut W,
    lower_r: Scaled,
    lower_sum: Scaled,
    upper_r: Scaled,
    upper_sum: Scaled,
) -> io::Result<()> {
    let mut line = [10u8; 65];
    let mut next = put_scaled(&mut line, 0, lower_r);
    next = put_scaled(&mut line, next, lower_sum);
    next = put_scaled(&mut line, next, upper_r);
    put_scaled(&mut line, next, upper_sum);
    output.write_all(&line)
}

fn show_round<W: Write>(output: &mut W, w: PowerPairs) -> io::Result<()> {
    show(output, side(false, w.r), side(false, w.sum), side(true, w.r), side(true, w.sum))
}

fn main(rt: HostRuntime) -> io::Result<()> {
    let mut input = rt.stdin();
    let mut output = rt.stdout();
    let mut b = [0u8; 20];
    while let Ok(()) = input.read_exact(&mut b) {
        let E = encounter_at(&b, 0);
        let below = letters(false, E);
        let above = letters(true, E);
        let t = pair_of(below.t.number, above.t.number);
        let one = pair_of(Scaled::ONE, Scaled::ONE);
        let mut w = PowerPairs { r: one, sum: one };
        show_round(&mut output, w)?;
        let mut k: u64 = 0;
        while k < 256 {
            w = one_round(t, w, k);
            show_round(&mut output, w)?;
            k += 1;
        }
        let taken = exponential_sums(below.t.number, above.t.number);
        show(&mut output, Scaled::ZERO, taken.lower, taken.r256, taken.upper)?;
    }
    Ok(())
}
"""

# The decimals. Reads records of 9 bytes: the direction (1 for an upper end), then m and e, little-endian. Writes the
# digits and the power.
DECIMALS = """\
mod words;
use crate::words::put;
use crate::words::signed;
use crate::words::word;
use encounter::decimals::to_decimal;
use exact::Scaled;
use std::io;
use std::io::Read;
use std::io::Write;

fn main(rt: HostRuntime) -> io::Result<()> {
    let mut input = rt.stdin();
    let mut output = rt.stdout();
    let mut b = [0u8; 9];
    let mut line = [10u8; 17];
    while let Ok(()) = input.read_exact(&mut b) {
        let x = Scaled { m: word(&b, 1), e: signed(word(&b, 5)) };
        let a = to_decimal(b[0] == 1, x);
        let next = put(&mut line, 0, a.digits);
        put(&mut line, next, a.power);
        output.write_all(&line)?;
    }
    Ok(())
}
"""

# The table of orders. Reads records of one byte, each an index of the table, and writes the order that stands there.
ORDERS = """\
mod words;
use crate::words::put;
use advice::orders;
use std::io;
use std::io::Read;
use std::io::Write;

fn main(rt: HostRuntime) -> io::Result<()> {
    let mut input = rt.stdin();
    let mut output = rt.stdout();
    let mut index = [0u8; 1];
    let mut line = [10u8; 9];
    let table = orders();
    while let Ok(()) = input.read_exact(&mut index) {
        put(&mut line, 0, table[index[0] as usize] as u32);
        output.write_all(&line)?;
    }
    Ok(())
}
"""

# The division. Reads records of 13 bytes: the direction (1 for U), then m, e and the divisor, little-endian. Writes the
# refusal's number, and m and e of the quotient.
DIVISION = """\
mod words;
use crate::words::put;
use crate::words::put_scaled;
use crate::words::signed;
use crate::words::word;
use division::divide;
use exact::Scaled;
use std::io;
use std::io::Read;
use std::io::Write;

fn main(rt: HostRuntime) -> io::Result<()> {
    let mut input = rt.stdin();
    let mut output = rt.stdout();
    let mut b = [0u8; 13];
    let mut line = [10u8; 25];
    while let Ok(()) = input.read_exact(&mut b) {
        let x = Scaled { m: word(&b, 1), e: signed(word(&b, 5)) };
        let (refusal, quotient) = match divide(b[0] == 1, x, word(&b, 9)) {
            Ok(quotient) => (0, quotient),
            Err(refusal) => (u32::from(refusal), Scaled::ZERO),
        };
        let next = put(&mut line, 0, refusal);
        put_scaled(&mut line, next, quotient);
        output.write_all(&line)?;
    }
    Ok(())
}
"""

# The week. Reads records of 30 bytes: the kind, the number of one of eight sessions, then seven words, little-endian.
# Kinds 1, 2 and 4 are begin with its five inputs, add with its count in the first word, and begin_conjunction with its
# seven inputs; kind 0 stands for an empty session in place of the one before, kind 5 for an empty week and eight empty
# sessions. Kind 6 is an entry, with the day in the first word. After an entry it writes the refusal's number, every
# number of the week in the order of days and places, and m and e of both ends.
WEEKS = """\
mod words;
use crate::words::encounter_at;
use crate::words::put;
use crate::words::put_scaled;
use crate::words::word;
use encounter::calls;
use encounter::state::Session;
use exact::Conjunction;
use exact::Scaled;
use week::Day;
use week::Ends;
use week::Week;
use week::empty_week;
use week::enter;
use week::week_ends;
use std::io;
use std::io::Read;
use std::io::Write;

fn conjunction_at(b: &[u8; 30]) -> Conjunction {
    Conjunction { encounter: encounter_at(b, 2), object: word(b, 22), time: word(b, 26) }
}

fn called(s: Session, b: &[u8; 30]) -> Session {
    if b[0] == 1 {
        let c = calls::begin(s, encounter_at(b, 2));
        return c.session;
    }
    if b[0] == 2 {
        let c = calls::add(s, word(b, 2) as u16);
        return c.session;
    }
    if b[0] == 4 {
        let c = calls::begin_conjunction(s, conjunction_at(b));
        return c.session;
    }
    Session::empty()
}

fn put_place(line: &mut [u8], at: usize, place: Option<Ends>) -> usize {
    match place {
        Some(ends) => {
            let next = put(line, at, 1);
            put_ends(line, next, ends)
        }
        None => {
            let next = put(line, at, 0);
            put_ends(line, next, Ends { lower: Scaled::ZERO, upper: Scaled::ZERO })
        }
    }
}

fn put_day(line: &mut [u8], at: usize, day: Day) -> usize {
    let mut next = at;
    for place in day {
        next = put_place(line, next, place);
    }
    next
}

fn put_week(line: &mut [u8], at: usize, w: Week) -> usize {
    let mut next = at;
    for day in w {
        next = put_day(line, next, day);
    }
    next
}

fn put_ends(line: &mut [u8], at: usize, ends: Ends) -> usize {
    let next = put_scaled(line, at, ends.lower);
    put_scaled(line, next, ends.upper)
}

fn main(rt: HostRuntime) -> io::Result<()> {
    let mut input = rt.stdin();
    let mut output = rt.stdout();
    let mut record = [0u8; 30];
    let mut line = [10u8; 2281];
    let empty = Session::empty();
    let mut sessions = [empty; 8];
    let mut w = empty_week();
    while let Ok(()) = input.read_exact(&mut record) {
        let number = record[1] as usize;
        if record[0] == 6 {
            let s = sessions[number];
            let refusal = match enter(w, word(&record, 2), s) {
                Ok(after) => {
                    w = after;
                    0
                }
                Err(refusal) => u32::from(refusal),
            };
            let mut next = put(&mut line, 0, refusal);
            next = put_week(&mut line, next, w);
            put_ends(&mut line, next, week_ends(w));
            output.write_all(&line)?;
        } else if record[0] == 5 {
            let none = [empty; 8];
            sessions = none;
            let new = empty_week();
            w = new;
        } else {
            let s = sessions[number];
            sessions[number] = called(s, &record);
        }
    }
    Ok(())
}
"""
