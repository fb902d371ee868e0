//! The encounters and refusals of documents 01 and 02 through the calls on a session.
#![allow(non_snake_case)]

use jinthuol::{
    library_version, Answer, Class, Conjunction, Decimal, Doubles, Encounter, PlotRecord, Refusal, Scaled, Session,
    VERSION,
};

const HALF: Encounter = of(10, 10, 10, 0, 0);
const FULL: Encounter = of(8, 1, 1, 8, 0);
// M is 513; then t is 64, and M is 512.1.
const LATEST: Encounter = of(18, 4, 3, 36, 9);
const AT_64: Encounter = of(152, 28, 19, 224, 0);
const TEST_1: Encounter = of(500, 5000, 100, 1000, 0);
const ALFANO_3: Encounter = of(1500, 11425, 141, 15, -388);
const ALFANO_5: Encounter = of(1000, 17781, 3, 212, -122);
const LARGEST: u32 = 10_000_000;
const PAST: u32 = LARGEST + 1;
const MISS: i32 = 10_000_000;
const LARGEST_ORDER: u16 = 1024;

const fn of(R: u32, sx: u32, sy: u32, xm: i32, ym: i32) -> Encounter {
    Encounter { R, sx, sy, xm, ym }
}

/// A session of the encounter at order N.
fn at(encounter: Encounter, N: u16) -> Session {
    let mut session = Session::empty();
    assert_eq!(session.begin(encounter), Ok(1), "{encounter:?}");
    added_up(session, N)
}

/// The same with an object number and a time.
fn at_object(encounter: Encounter, N: u16, object: u32, time: u32) -> Session {
    let mut session = Session::empty();
    assert_eq!(session.begin_conjunction(Conjunction { encounter, object, time }), Ok(1), "{encounter:?}");
    added_up(session, N)
}

/// The session, just begun, at order N.
fn added_up(mut session: Session, N: u16) -> Session {
    if N > 1 {
        assert_eq!(session.add(N - 1), Ok(N.into()));
    }
    session
}

/// Of an encounter without an object, with one exact term.
fn answer(N: u32, lower: (u32, i32), upper: (u32, i32), class: Class) -> Answer {
    let scaled = |(m, e)| Scaled { m, e };
    Answer { N, lower: scaled(lower), upper: scaled(upper), class, object: 0, time: 0, exact_terms: 1 }
}

#[test]
fn sizes() {
    assert_eq!((size_of::<Session>(), align_of::<Session>()), (240, 4));
    assert_eq!((size_of::<Conjunction>(), align_of::<Conjunction>()), (28, 4));
    assert_eq!((size_of::<PlotRecord>(), align_of::<PlotRecord>()), (32, 8));
}

#[test]
fn versions() {
    assert_eq!(library_version(), VERSION);
}

#[test]
fn begins() {
    for (encounter, refusal) in [
        (of(0, 1, 1, 0, 0), 3),
        (of(PAST, LARGEST, LARGEST, 0, 0), 3),
        (of(u32::MAX, 0, 0, i32::MIN, i32::MAX), 3),
        (of(1, 0, 1, 0, 0), 4),
        (of(1, 1, 0, 0, 0), 4),
        (of(1, PAST, 1, 0, 0), 4),
        (of(1, PAST, PAST, MISS + 1, 0), 4),
        (of(1, 1, 2, MISS + 1, 0), 5),
        (of(7, 7, 8, 0, 0), 5),
        (of(1, 1, 1, MISS + 1, 0), 6),
        (of(1, 1, 1, -MISS - 1, 0), 6),
        (of(1, 1, 1, 0, MISS + 1), 6),
        (of(LARGEST, 1, 1, 0, i32::MIN), 6),
        (of(8, 1, 1, 8, 1), 7),
        (of(LARGEST, 1, 1, MISS, -MISS), 7),
        (ALFANO_5, 7),
        (FULL, 11),
        (of(8, 1, 1, -8, 0), 11),
        (of(288, 53, 36, 424, 0), 11),
        // The exact M is 513, then below it; the upper M is above it.
        (of(36, 6, 4, -39, 8), 11),
        (of(706784, 130077, 88348, 1040616, 0), 11),
        // The upper M is 513.
        (of(329688, 60676, 41211, -485408, 0), 0),
        (LATEST, 0),
        (AT_64, 0),
        (of(LARGEST, LARGEST, LARGEST, MISS, -MISS), 0),
        (of(7, 7, 7, 0, 0), 0),
        (of(1, LARGEST, 1, 0, 0), 0),
        (HALF, 0),
    ] {
        // By both begins. The second refuses an object number of 0, where no earlier test refuses.
        tried(encounter, None, refusal);
        tried(encounter, Some((7, 8)), refusal);
        tried(encounter, Some((0, 8)), if refusal == 0 { 9 } else { refusal });
    }
}

/// A begin, with an object number and a time or without: first on an empty session, then over an earlier encounter.
fn tried(encounter: Encounter, of_object: Option<(u32, u32)>, refusal: u32) {
    for earlier in [Session::empty(), at(TEST_1, 55), at_object(TEST_1, 55, 25544, 1440)] {
        let mut session = earlier.clone();
        let begun = match of_object {
            None => session.begin(encounter),
            Some((object, time)) => session.begin_conjunction(Conjunction { encounter, object, time }),
        };
        if refusal == 0 {
            assert_eq!(begun, Ok(1), "{encounter:?}");
            let due = of_object.map_or(at(encounter, 1), |(object, time)| at_object(encounter, 1, object, time));
            assert_eq!(session, due, "{encounter:?}");
        } else {
            assert_eq!(begun, Err(Refusal(refusal)), "{encounter:?}");
            assert_eq!(session.read(), earlier.read(), "{encounter:?}");
            assert_eq!(session, earlier, "{encounter:?}");
        }
    }
}

/// Request #104: a read answers the object number and the time, and all else is that of the encounter alone.
#[test]
fn objects() {
    for (object, time) in [(25544, 1440), (1, 0), (2, u32::MAX), (u32::MAX, 3), (0x01020304, 0x0a0b0c0d)] {
        let mut session = at_object(TEST_1, 55, object, time);
        let read = session.read().unwrap();
        assert_eq!((read.object, read.time), (object, time));
        assert_eq!(Answer { object: 0, time: 0, ..read }, at(TEST_1, 55).read().unwrap());
        assert_eq!(session.begin(HALF), Ok(1));
        assert_eq!(session.read().map(|a| (a.object, a.time)), Ok((0, 0)));
    }
}

/// Request #105: the count of exact terms at each order, however the terms are added.
#[test]
fn exact_terms() {
    let five = of(3, 4, 3, 8, 0);
    for (encounter, counts) in [
        (HALF, [1, 2, 2, 2, 2, 2]),
        (five, [1, 2, 3, 4, 5, 5]),
        // c(0) is rounded; b is rounded, though xm is 0; p(1) is rounded, and c(1) is not.
        (of(1, 3, 1, 0, 0), [0; 6]),
        (of(131071, 131072, 131071, 0, 0), [1; 6]),
        (of(255, 256, 256, 0, 0), [1, 2, 2, 2, 2, 2]),
    ] {
        let mut session = at(encounter, 1);
        for (N, due) in (1..).zip(counts) {
            assert_eq!(session.read().map(|a| a.exact_terms), Ok(due), "{encounter:?} at {N}");
            assert_eq!(session, at(encounter, N), "{encounter:?} at {N}");
            assert_eq!(session.add(0), Err(Refusal(12)));
            assert_eq!(session.add(u16::MAX), Err(Refusal(22)));
            assert_eq!(session.add(1), Ok(u32::from(N) + 1));
        }
        assert_eq!(at(encounter, LARGEST_ORDER).read().map(|a| a.exact_terms), Ok(counts[5]), "{encounter:?}");
    }
    let mut session = at(five, 6);
    assert_eq!(session.begin(of(0, 1, 1, 0, 0)), Err(Refusal(3)));
    assert_eq!(session.read().map(|a| a.exact_terms), Ok(5));
    assert_eq!(session.begin(HALF), Ok(1));
    assert_eq!(session.read().map(|a| a.exact_terms), Ok(1));
}

/// Request #106: the advised order is the same at every order of the session, which is as it was.
#[test]
fn advice() {
    for (encounter, due) in [
        // M is 1/2, 1, a little above 1, 2, 18.7, 256, a little above 256, and 513.
        (HALF, Some(13)),
        (of(1, 1, 1, 1, 1), Some(13)),
        (of(1, 3, 1, -3, 1), Some(17)),
        (of(20, 10, 10, 0, 0), Some(17)),
        (TEST_1, Some(66)),
        (of(8, 2, 1, 14, 1), Some(708)),
        (of(144, 27, 18, 0, 66), None),
        (LATEST, None),
    ] {
        for N in [1, 2, LARGEST_ORDER] {
            let session = at(encounter, N);
            assert_eq!(session.advise(), Ok(due), "{encounter:?} at {N}");
            assert_eq!(session, at(encounter, N), "{encounter:?} at {N}");
        }
        if let Some(order) = due {
            assert_eq!(at(encounter, order).read().map(|a| a.N), Ok(order.into()), "{encounter:?}");
        }
    }
    let mut session = at_object(TEST_1, 1, 25544, 1440);
    assert_eq!(session.begin(of(0, 1, 1, 0, 0)), Err(Refusal(3)));
    assert_eq!(session.advise(), Ok(Some(66)));
}

#[test]
fn no_encounter_begun() {
    let mut session = Session::empty();
    // Test 12 comes first.
    assert_eq!(session.add(0), Err(Refusal(12)));
    for count in [1, 256, LARGEST_ORDER - 1, u16::MAX] {
        assert_eq!(session.add(count), Err(Refusal(21)));
    }
    assert_eq!(session.read(), Err(Refusal(21)));
    assert_eq!(session.advise(), Err(Refusal(21)));
    assert_eq!(session, Session::empty());
}

#[test]
fn orders() {
    let mut session = at(HALF, 1);
    for (count, refusal) in [(LARGEST_ORDER, 22), (LARGEST_ORDER + 1, 22), (u16::MAX, 22), (0, 12)] {
        let before = session.clone();
        assert_eq!(session.add(count), Err(Refusal(refusal)));
        assert_eq!(session.read(), before.read());
        assert_eq!(session, before);
    }
    assert_eq!(session.add(1023), Ok(1024));
    assert_eq!(session.add(1), Err(Refusal(22)));
    assert_eq!(session.add(0), Err(Refusal(12)));
    assert_eq!(session.read().map(|a| a.N), Ok(1024));
    // Terms in two adds are those of one.
    let mut session = at(TEST_1, 30);
    assert_eq!(session.add(71), Ok(101));
    assert_eq!(session, at(TEST_1, 101));
}

/// The least order that is read.
#[test]
fn test_23() {
    for (encounter, least) in [(HALF, 1), (TEST_1, 36), (ALFANO_3, 597), (AT_64, 1023), (LATEST, 1024)] {
        if least > 1 {
            assert_eq!(at(encounter, least - 1).read(), Err(Refusal(23)), "{encounter:?}");
        }
        assert_eq!(at(encounter, least).read().map(|a| a.N), Ok(least.into()), "{encounter:?}");
    }
}

#[test]
fn brackets() {
    let due = answer(1, (2605029163, -33), (3907544026, -33), Class::Alert);
    assert_eq!(at(HALF, 1).read(), Ok(due));
    let due = answer(55, (2627622691, -35), (2627623074, -35), Class::Alert);
    assert_eq!(at(TEST_1, 55).read(), Ok(due));
    let class = |encounter, N| at(encounter, N).read().map(|a| a.class);
    assert_eq!(class(of(1000, 300_000, 100_000, 100_000, 0), 49), Ok(Class::Clear));
    // An encounter that more terms decide, and one that they do not.
    let decided = of(1000, 2000, 1700, 1000, 6400);
    assert_eq!([1, 2].map(|N| class(decided, N)), [Ok(Class::Open), Ok(Class::Alert)]);
    let astride = of(1302, 92063, 92063, 0, 0);
    assert_eq!([1, 60].map(|N| class(astride, N)), [Ok(Class::Open); 2]);
    // The lower, then the upper end is next to 1/10,000, below it and above.
    let at_threshold = [
        (of(49648, 4009479, 1240824, 0, 1670613), Class::Open),
        (of(56523, 3349850, 1200523, 0, 1993155), Class::Alert),
        (of(31989, 4943591, 778307, 0, 588290), Class::Clear),
        (of(29759, 4811676, 915563, 0, 94915), Class::Open),
    ];
    for (encounter, due) in at_threshold {
        assert_eq!(class(encounter, 1), Ok(due));
    }
    assert_eq!(at(LATEST, LARGEST_ORDER).read(), at(of(18, 4, 3, -36, 9), LARGEST_ORDER).read());
}

#[test]
fn a_clone_is_a_session_of_its_own() {
    let mut session = at(TEST_1, 36);
    let mut other = session.clone();
    assert_eq!(other, session);
    assert_eq!(other.add(19), Ok(55));
    assert_eq!(session, at(TEST_1, 36));
    assert_eq!(session.begin(HALF), Ok(1));
    assert_eq!(other, at(TEST_1, 55));
    assert_eq!((session.read().map(|a| a.N), other.read().map(|a| a.N)), (Ok(1), Ok(55)));
}

#[test]
fn refusals_in_words() {
    assert_eq!(Refusal(7).to_string(), "refused 7: upper t above 64");
    assert_eq!(Refusal(11).to_string(), "refused 11: begin: 2M above 1,026");
    assert_eq!(Refusal(12).to_string(), "refused 12: add: count is 0");
    for number in [1, 2, 3, 4, 5, 6, 7, 8, 9, 10, 11, 12, 13, 21, 22, 23, 24] {
        assert!(!Refusal(number).to_string().contains("no such"));
    }
    assert_eq!(Refusal(20).to_string(), "refused 20: no such refusal");
}

#[test]
fn answers_in_words() {
    let text = "N = 3: 3364829335 × 2^-33 to 3391965302 × 2^-33, alert, 3.917e-01 to 3.949e-01";
    assert_eq!(at(HALF, 3).read().unwrap().to_string(), format!("{text}, exact terms: 2"));
    let read = at_object(HALF, 3, 25544, 1440).read().unwrap();
    assert_eq!(read.to_string(), format!("{text}, object 25544 at minute 1440, exact terms: 2"));
    assert_eq!((Scaled { m: 0, e: 0 }).to_string(), "0");
    assert_eq!(format!("{:>6}|{}|{}", Class::Clear, Class::Alert, Class::Open), " clear|alert|open");
}

/// Request #103 at its edges: as a lower end and as an upper one.
#[test]
fn decimals() {
    for (m, e, down, up) in [
        (3364829335, -33, "3.917e-01", "3.918e-01"),
        (u32::MAX, -32, "9.999e-01", "1.001e-00"),
        (u32::MAX - 1, -32, "9.999e-01", "1.000e-00"),
        (1 << 31, -31, "1.000e-00", "1.000e-00"),
        (u32::MAX, i32::MAX, "1.000e-00", "1.000e-00"),
        (3961408126, -95, "9.999e-20", "1.001e-19"),
        (3381150765, -168, "9.037e-42", "9.038e-42"),
        (1, -142, "1.793e-43", "1.794e-43"),
        (1 << 31, i32::MIN, "0.000e-00", "1.000e-43"),
        (0, 0, "0.000e-00", "0.000e-00"),
    ] {
        let number = Scaled { m, e };
        let found = (number.decimal_down().to_string(), number.decimal_up().to_string());
        assert_eq!(found, (down.into(), up.into()), "{number}");
    }
    assert_eq!((Scaled { m: 1 << 31, e: -34 }).decimal_down(), Decimal { digits: 1250, power: 1 });
}

/// Request #107 at its edges: rounded down and rounded up.
#[test]
fn divisions() {
    const HALF: u32 = 1 << 31;
    const FULL: u32 = u32::MAX;
    for (m, e, divisor, down, up) in [
        (HALF, -31, 1, (HALF, -31), (HALF, -31)),
        (HALF, -31, 2, (HALF, -32), (HALF, -32)),
        (HALF, -31, 3, (2863311530, -33), (2863311531, -33)),
        (2627622691, -35, 3, (3503496921, -37), (3503496922, -37)),
        (FULL, 0, FULL, (HALF, -31), (HALF, -31)),
        (HALF, 0, FULL, (HALF, -32), (HALF + 1, -32)),
        (FULL - 1, 0, FULL, (FULL - 1, -32), (FULL, -32)),
        (HALF, i32::MAX, 1, (HALF, i32::MAX), (HALF, i32::MAX)),
        (FULL, i32::MAX, 3, (2863311530, i32::MAX - 1), (2863311530, i32::MAX - 1)),
        (HALF, -1_000_000_000, FULL, (HALF, -1_000_000_032), (HALF + 1, -1_000_000_032)),
        (0, 0, 7, (0, 0), (0, 0)),
    ] {
        let number = Scaled { m, e };
        let of = |(m, e)| Ok(Scaled { m, e });
        assert_eq!(
            (number.divided_down(divisor), number.divided_up(divisor)),
            (of(down), of(up)),
            "{number} / {divisor}"
        );
    }
    for (m, e, divisor) in [
        (HALF, 0, 0),
        (0, 0, 0),
        (0, 1, 1),
        (0, -1, 1),
        (1, 0, 1),
        (HALF - 1, 0, 1),
        (HALF, -1_000_000_001, 1),
        (FULL, i32::MIN, FULL),
    ] {
        let number = Scaled { m, e };
        assert_eq!(
            (number.divided_down(divisor), number.divided_up(divisor)),
            (Err(Refusal(10)), Err(Refusal(10))),
            "{number:?} / {divisor}"
        );
    }
}

/// m and e of an f64 from 2^-1000 to 2^1000, none where it is no m × 2^e with an m of 32 bits.
fn taken_apart(x: f64) -> Option<Scaled> {
    let bits = x.to_bits();
    // 1.f × 2^(field − 1023), and of f the first 31 bits.
    let (field, f) = ((bits >> 52) as i32, bits & ((1 << 52) - 1));
    let m = (1 << 31) + (f >> 21) as u32;
    ((23..=2023).contains(&field) && f % (1 << 21) == 0).then_some(Scaled { m, e: field - 1023 - 31 })
}

/// Request #108 on a session: what both calls answer is due by its read, and the session is as it was.
fn as_doubles(session: &Session) -> Result<Option<PlotRecord>, Refusal> {
    let before = session.clone();
    let (doubles, record, read) = (session.read_doubles(), session.read_plot_record(), session.read());
    assert_eq!(session, &before);
    let read = match read {
        Err(refusal) => {
            assert_eq!((doubles, record), (Err(refusal), Err(refusal)));
            return record;
        }
        Ok(read) => read,
    };
    // An m has 32 bits: the upper end is 1 or more where its e is above −32.
    match doubles.unwrap() {
        Doubles::Both { lower, upper } => {
            assert_eq!((taken_apart(lower), taken_apart(upper)), (Some(read.lower), Some(read.upper)));
            assert!(read.upper.e <= -32, "{read}");
            let due = PlotRecord { object: read.object, lower, upper, difference: upper - lower };
            assert_eq!(record, Ok(Some(due)));
        }
        Doubles::Unbounded { lower } => {
            assert_eq!(taken_apart(lower), Some(read.lower));
            assert!(read.upper.e > -32, "{read}");
            assert_eq!(record, Ok(None));
        }
    }
    record
}

/// Request #108 at its edges: the bits of the record's difference, none where the upper end is 1 or more.
#[test]
fn doubles() {
    const S: u32 = 1_000_000;
    for (encounter, N, due) in [
        // The upper end is the last one below 1, it is 1, the next one, and far above.
        (of(5877919, S, S, 0, 0), 70, Some(0x3e7d_2000_0000_0000)),
        (of(5877845, S, S, 0, 0), 70, None),
        (of(5878031, S, S, 0, 0), 70, None),
        (of(32, 4, 4, 16, 15), LARGEST_ORDER, None),
        (LATEST, LARGEST_ORDER, None),
        // The smallest ends that are known.
        (of(1, LARGEST, 887356, 9999905, 9999995), 1, Some(0x35ff_f000_0000_0000)),
        // The difference has 53 bits; more, and is in the middle of two f64, twice; else below and above the exact one.
        (of(37, 361, 30, 0, 333), 94, Some(0x3c33_e3fe_9659_9e3e)),
        (of(60, 43, 43, 0, 429), 97, Some(0x3d91_115c_9968_cbe6)),
        (of(15, 47, 10, 0, 95), 103, Some(0x3e01_0f0e_1042_6528)),
        (of(66, 286, 39, 19, 322), 100, Some(0x3ee0_a040_c61d_c5bb)),
        (of(3, 33, 2, 19, 19), 103, Some(0x3de1_43ff_b31f_0cfb)),
        // A subtraction that rounds to 64 bits first gives another f64.
        (of(83, 190, 43, 0, 381), 153, Some(0x3f91_7b95_c9fe_f37f)),
        (of(61, 183, 37, 0, 396), 166, Some(0x3dd4_9142_7c79_403b)),
        // The lower end is lost in the upper one.
        (of(37, 231, 20, 0, 216), 203, Some(0x3f61_b661_f280_0000)),
    ] {
        for object in [1, 25544, u32::MAX] {
            let of_object = as_doubles(&at_object(encounter, N, object, 7)).unwrap();
            let without = as_doubles(&at(encounter, N)).unwrap();
            assert_eq!(of_object.map(|r| r.difference.to_bits()), due, "{encounter:?}");
            assert_eq!(of_object.map(|r| r.object), due.map(|_| object), "{encounter:?}");
            assert_eq!(of_object.map(|r| PlotRecord { object: 0, ..r }), without, "{encounter:?}");
        }
    }
    // Refused as a read is; then with each term more.
    assert_eq!(as_doubles(&Session::empty()), Err(Refusal(21)));
    for encounter in [HALF, TEST_1, of(40, 10, 10, 0, 0), ALFANO_3] {
        let mut session = at(encounter, 1);
        for _ in 1..LARGEST_ORDER {
            assert_eq!(as_doubles(&session).is_err(), session.read() == Err(Refusal(23)));
            session.add(1).unwrap();
        }
    }
}

#[test]
fn doubles_in_words() {
    let record = at_object(HALF, 1, 25544, 1440).read_plot_record().unwrap().unwrap();
    let ends = "0.30326530837919563 to 0.45489799533970654";
    assert_eq!(record.to_string(), format!("object 25544: {ends}, difference 0.1516326869605109"));
    assert_eq!(at(HALF, 1).read_doubles().unwrap().to_string(), ends);
    let unbounded = at(of(40, 10, 10, 0, 0), 14).read_doubles().unwrap();
    assert_eq!(unbounded.to_string(), "at least 0.9824074702337384, unbounded");
}

/// The f64 of a number is the number, and there is none just where no f64 is.
#[test]
fn as_f64() {
    let of = |m, e| Scaled { m, e }.to_f64();
    let least = f64::from_bits(1);
    assert_eq!(of(0, 0), Some(0.0));
    assert_eq!(of(1 << 31, -31), Some(1.0));
    assert_eq!(of(3 << 30, -31), Some(1.5));
    assert_eq!(of(2605029163, -33), Some(2605029163.0 / 8589934592.0));
    assert_eq!(of(1 << 31, -1105), Some(least));
    assert_eq!(of(1 << 31, -1106), None);
    assert_eq!(of((1 << 31) + 1, -1074), Some(f64::from_bits((1 << 31) + 1)));
    assert_eq!(of((1 << 31) + 2, -1075), Some(f64::from_bits((1 << 30) + 1)));
    assert_eq!(of((1 << 31) + 1, -1075), None);
    assert_eq!(of(u32::MAX, -1054), Some(f64::from_bits(0xffff_ffff << 20)));
    assert_eq!(of(u32::MAX, -1053), Some(f64::from_bits(0x001f_ffff_ffe0_0000)));
    assert_eq!(of(u32::MAX, 992), Some(f64::from_bits(0x7fef_ffff_ffe0_0000)));
    assert_eq!(of(1 << 31, 992), Some(f64::from_bits(0x7fe0_0000_0000_0000)));
    for e in [993, 1024, i32::MAX, -1107, -3000, i32::MIN] {
        assert_eq!(of(1 << 31, e), None, "{e}");
        assert_eq!(of(u32::MAX, e), None, "{e}");
    }
    // Every end that fits comes back from its bits.
    for e in -1074..=992 {
        for m in [1 << 31, (1 << 31) + 1, 0xaaaa_aaab, u32::MAX] {
            let bits = of(m, e).unwrap().to_bits();
            let field = (bits >> 52) as i32;
            // 1.f × 2^(field − 1023), or 0.f × 2^-1022.
            let whole = (bits & ((1 << 52) - 1)) + u64::from(field > 0) * (1 << 52);
            let exponent = field.max(1) - 1075;
            let shift = e - exponent;
            assert_eq!(whole, u64::from(m) << shift, "{m} {e}");
        }
    }
}

#[test]
fn on_other_threads() {
    let session = at(TEST_1, 36);
    let read = std::thread::scope(|scope| scope.spawn(|| session.read()).join().unwrap());
    assert_eq!(read, session.read());
    let moved = std::thread::spawn(move || session.read()).join().unwrap();
    assert_eq!(moved, read);
}
