//! Request #111: the week.
#![allow(non_snake_case)]

use jinthuol::{Encounter, Ends, Refusal, Scaled, Session, Week};

const TEST_1: Encounter = of(500, 5000, 100, 1000, 0);
const CHAN_1: Encounter = of(500, 5000, 2500, 1000, 0);
const ALFANO_3: Encounter = of(1500, 11425, 141, 15, -388);
const HALF: Encounter = of(10, 10, 10, 0, 0);
// The largest upper end that is known, about 6.9 × 10^114 at N = 1,024, and the smallest ends, about 9 × 10^-42 at N = 1.
const HIGHEST: Encounter = of(9935512, 1460000, 1460000, 9496745, 0);
const LOWEST: Encounter = of(1, 10_000_000, 887356, 9999905, 9999995);
const ZERO: Scaled = Scaled { m: 0, e: 0 };

const fn of(R: u32, sx: u32, sy: u32, xm: i32, ym: i32) -> Encounter {
    Encounter { R, sx, sy, xm, ym }
}

/// A session of the encounter at order N.
fn at(encounter: Encounter, N: u16) -> Session {
    let mut session = Session::empty();
    assert_eq!(session.begin(encounter), Ok(1), "{encounter:?}");
    if N > 1 {
        assert_eq!(session.add(N - 1), Ok(N.into()));
    }
    session
}

/// The ends of a read.
fn ends(session: &Session) -> Ends {
    let read = session.read().unwrap();
    Ends { lower: read.lower, upper: read.upper }
}

/// U of the sum of two scaled numbers, by whole numbers.
fn added_up(a: Scaled, b: Scaled) -> Scaled {
    if a.m == 0 || b.m == 0 {
        return if a.m == 0 { b } else { a };
    }
    let (a, b) = if a.e < b.e { (b, a) } else { (a, b) };
    // In units of 2^(a.e - 40): what b has below them counts as one.
    let shift = a.e - 40 - b.e;
    let low = match shift {
        ..=0 => u128::from(b.m) << -shift,
        1..=31 => (u128::from(b.m) - 1 >> shift) + 1,
        _ => 1,
    };
    let sum = (u128::from(a.m) << 40) + low;
    let drop = sum.ilog2() as i32 - 31;
    let m = (sum - 1 >> drop) + 1;
    match u32::try_from(m) {
        Ok(m) => Scaled { m, e: a.e - 40 + drop },
        Err(_) => Scaled { m: 1 << 31, e: a.e - 39 + drop },
    }
}

/// Both ends of the week by what its places have.
fn by_places(week: &Week) -> Ends {
    let held: Vec<Ends> = week.days().into_iter().flatten().flatten().collect();
    let lower = held.iter().map(|ends| ends.lower).max_by_key(|lower| (lower.e, lower.m)).unwrap_or(ZERO);
    Ends { lower, upper: held.iter().fold(ZERO, |sum, ends| added_up(sum, ends.upper)) }
}

/// An entry is refused so, and neither the week nor the session is another after it.
fn refused(week: &mut Week, day: u32, session: &Session, refusal: u32) {
    let before = (*week, session.clone());
    assert_eq!(week.enter(day, session), Err(Refusal(refusal)), "day {day}");
    assert_eq!((*week, session), (before.0, &before.1), "day {day}");
}

#[test]
fn sizes() {
    assert_eq!((size_of::<Week>(), align_of::<Week>()), (1120, 4));
    assert_eq!((size_of::<Ends>(), align_of::<Ends>()), (16, 4));
}

#[test]
fn empty() {
    let week = Week::empty();
    assert_eq!(week.ends(), Ends { lower: ZERO, upper: ZERO });
    assert_eq!(week.days(), [[None; 8]; 7]);
    assert_eq!(week.ends().to_string(), "0 to 0, 0.000e-00 to 0.000e-00");
}

/// Each entry goes into the next empty place of its day and into no other, until all are taken.
#[test]
fn places() {
    let highest = at(HIGHEST, 1024);
    assert_eq!(ends(&highest).upper, Scaled { m: 2999941209, e: 350 });
    let sessions =
        [at(TEST_1, 66), at(HALF, 1), at(ALFANO_3, 597), at(CHAN_1, 13), highest, at(LOWEST, 1), at(TEST_1, 36)];
    let mut week = Week::empty();
    let mut due = [[None; 8]; 7];
    for n in 0..56 {
        // The days in turn, from the last one on; each day has each place after another session.
        let (day, place, session) = (6 - n % 7, n / 7, &sessions[n * n % 7]);
        let before = session.clone();
        assert_eq!(week.enter(day as u32, session), Ok(()));
        assert_eq!(session, &before);
        due[day][place] = Some(ends(session));
        assert_eq!(week.days(), due, "entry {n}");
        assert_eq!(week.ends(), by_places(&week), "entry {n}");
    }
    for day in 0..7 {
        refused(&mut week, day, &sessions[0], 24);
    }
}

/// 13, the read's 21 and 23, 24: the first that refuses gives its number.
#[test]
fn refusals() {
    let (accepted, early, none) = (at(TEST_1, 66), at(TEST_1, 35), Session::empty());
    let mut week = Week::empty();
    for held in 0..=8 {
        for (session, refusal) in [(&none, 21), (&early, 23)] {
            refused(&mut week, 3, session, refusal);
            for day in [7, 8, 255, 1 << 31, u32::MAX] {
                refused(&mut week, day, session, 13);
                refused(&mut week, day, &accepted, 13);
            }
        }
        if held < 8 {
            assert_eq!(week.enter(3, &accepted), Ok(()));
        }
    }
    refused(&mut week, 3, &accepted, 24);
    assert_eq!(week.days().map(|day| day.iter().flatten().count()), [0, 0, 0, 8, 0, 0, 0]);
    // After a refused begin it is the encounter before that is read.
    let mut session = accepted.clone();
    assert_eq!(session.begin(of(0, 1, 1, 0, 0)), Err(Refusal(3)));
    assert_eq!(week.enter(0, &session), Ok(()));
    assert_eq!(week.days()[0][0], Some(ends(&accepted)));
}

/// The upper ends are added in the order of days and places, whatever the order of the entries, each sum rounded up.
#[test]
fn order_of_sums() {
    let (large, small) = (at(ALFANO_3, 597), at(LOWEST, 1));
    let upper = |days: [u32; 3]| {
        let mut week = Week::empty();
        for (day, session) in days.into_iter().zip([&large, &small, &small]) {
            week.enter(day, session).unwrap();
        }
        week.ends().upper
    };
    let Scaled { m, e } = ends(&large).upper;
    // A number far below the other lifts its last bit, each time that it is added.
    assert_eq!(upper([0, 0, 0]), Scaled { m: m + 2, e });
    assert_eq!(upper([0, 1, 1]), Scaled { m: m + 2, e });
    assert_eq!(upper([1, 0, 1]), Scaled { m: m + 2, e });
    assert_eq!(upper([1, 0, 0]), Scaled { m: m + 1, e });
    assert_eq!(upper([6, 5, 4]), Scaled { m: m + 1, e });
    assert_eq!(upper([5, 6, 6]), Scaled { m: m + 2, e });
}

/// Equal ends: the sum of two is exact, with the same m and the next e. Three have one bit too many, since m is odd.
#[test]
fn equal_brackets() {
    let session = at(TEST_1, 66);
    let Ends { lower, upper } = ends(&session);
    let mut week = Week::empty();
    let Scaled { m, e } = upper;
    let three = (3 * u64::from(m)).div_ceil(2) as u32;
    for due in [upper, Scaled { m, e: e + 1 }, Scaled { m: three, e: e + 1 }] {
        week.enter(4, &session).unwrap();
        assert_eq!(week.ends(), Ends { lower, upper: due });
    }
}

#[test]
fn a_copy_is_a_week_of_its_own() {
    let session = at(HALF, 3);
    let mut week = Week::empty();
    let before = week;
    week.enter(6, &session).unwrap();
    assert_eq!((before, before.ends().upper), (Week::empty(), ZERO));
    assert_ne!(week, before);
    assert_eq!(week.ends(), ends(&session));
    let text = "3364829335 × 2^-33 to 3391965302 × 2^-33, 3.917e-01 to 3.949e-01";
    assert_eq!(week.ends().to_string(), text);
    let moved = std::thread::spawn(move || week.ends()).join().unwrap();
    assert_eq!(moved, week.ends());
}
