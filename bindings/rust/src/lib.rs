//! A proved bracket of the collision probability of one short encounter: the calls of libjinthuol.a.
//!
//! Lengths are whole centimetres. The library has one premise, that a session and a week came from its own
//! calls. It holds of every [`Session`] and of every [`Week`]: safe code gets one only from these calls or as a copy of one.
//!
//! ```
//! use jinthuol::{Class, Encounter, Refusal, Session};
//!
//! let mut session = Session::empty();
//! assert_eq!(session.begin(Encounter { R: 500, sx: 5000, sy: 100, xm: 1000, ym: 0 }), Ok(1));
//! let refusal = session.read().unwrap_err();
//! assert_eq!(refusal.to_string(), "refused 23: read: 2M above N + 2");
//! assert_eq!(session.add(54), Ok(55));
//! let answer = session.read()?;
//! let ends = "2627622691 × 2^-35 to 2627623074 × 2^-35";
//! assert_eq!(answer.to_string(), format!("N = 55: {ends}, alert, 7.647e-02 to 7.648e-02, exact terms: 1"));
//! assert_eq!(answer.upper.decimal_up().to_string(), "7.648e-02");
//! assert_eq!(answer.class, Class::Alert);
//! assert_eq!(answer.lower.to_f64(), Some(0.07647388530313037));
//! # Ok::<(), Refusal>(())
//! ```
//!
//! With an object number and a time of closest approach, in minutes from the epoch that the site chooses, a read answers
//! these too:
//!
//! ```
//! use jinthuol::{Conjunction, Encounter, Refusal, Session};
//!
//! let mut session = Session::empty();
//! let encounter = Encounter { R: 10, sx: 10, sy: 10, xm: 0, ym: 0 };
//! session.begin_conjunction(Conjunction { encounter, object: 25544, time: 1440 })?;
//! let answer = session.read()?;
//! assert_eq!((answer.object, answer.time), (25544, 1440));
//! let text = "alert, 3.032e-01 to 4.549e-01, object 25544 at minute 1440, exact terms: 1";
//! assert!(answer.to_string().ends_with(text));
//! # Ok::<(), Refusal>(())
//! ```
//!
//! A read also answers how many of the first terms are exact: on the way to them nothing was rounded off, on either side.
//!
//! ```
//! use jinthuol::{Encounter, Refusal, Session};
//!
//! let mut session = Session::empty();
//! session.begin(Encounter { R: 10, sx: 10, sy: 10, xm: 0, ym: 0 })?;
//! assert_eq!(session.read()?.exact_terms, 1);
//! session.add(1)?;
//! assert_eq!(session.read()?.exact_terms, 2);
//! // The third term is 1/48, which is no scaled number.
//! session.add(1)?;
//! assert_eq!(session.read()?.exact_terms, 2);
//! # Ok::<(), Refusal>(())
//! ```
//!
//! Where the caller does not know how many terms are enough, the session advises an order:
//!
//! ```
//! use jinthuol::{Encounter, Refusal, Session};
//!
//! let mut session = Session::empty();
//! session.begin(Encounter { R: 500, sx: 5000, sy: 100, xm: 1000, ym: 0 })?;
//! if let Some(order) = session.advise()? {
//!     session.add(order - 1)?;
//!     assert_eq!(session.read()?.N, 66);
//! }
//! # Ok::<(), Refusal>(())
//! ```
//!
//! The lower end divided down and the upper end divided up, by a whole number, enclose the divided probability:
//!
//! ```
//! use jinthuol::{Encounter, Refusal, Session};
//!
//! let mut session = Session::empty();
//! session.begin(Encounter { R: 500, sx: 5000, sy: 100, xm: 1000, ym: 0 })?;
//! session.add(54)?;
//! let answer = session.read()?;
//! let third = (answer.lower.divided_down(3)?, answer.upper.divided_up(3)?);
//! assert_eq!(format!("{} to {}", third.0, third.1), "3503496921 × 2^-37 to 3503497432 × 2^-37");
//! assert_eq!(answer.lower.divided_down(0), Err(Refusal(10)));
//! # Ok::<(), Refusal>(())
//! ```
//!
//! A plotting tool reads doubles. Each equals its end exactly; where the upper end is 1 or more there is the lower end alone,
//! and no record:
//!
//! ```
//! use jinthuol::{Conjunction, Doubles, Encounter, PlotRecord, Refusal, Session};
//!
//! let mut session = Session::empty();
//! let encounter = Encounter { R: 10, sx: 10, sy: 10, xm: 0, ym: 0 };
//! session.begin_conjunction(Conjunction { encounter, object: 25544, time: 1440 })?;
//! let (lower, upper) = (0.30326530837919563, 0.45489799533970654);
//! assert_eq!(session.read_doubles()?, Doubles::Both { lower, upper });
//! let record = PlotRecord { object: 25544, lower, upper, difference: upper - lower };
//! assert_eq!(session.read_plot_record()?, Some(record));
//! // N = 14 is the first order that is read here, and the upper end is about 1.0005 there.
//! session.begin(Encounter { R: 40, sx: 10, sy: 10, xm: 0, ym: 0 })?;
//! session.add(13)?;
//! assert!(matches!(session.read_doubles()?, Doubles::Unbounded { .. }));
//! assert_eq!(session.read_plot_record()?, None);
//! # Ok::<(), Refusal>(())
//! ```
//!
//! A week has one figure for up to eight encounters a day: the chance of at least one collision in them lies between the
//! week's ends, independent or not.
//!
//! ```
//! use jinthuol::{Encounter, Refusal, Session, Week};
//!
//! let mut session = Session::empty();
//! session.begin(Encounter { R: 500, sx: 5000, sy: 100, xm: 1000, ym: 0 })?;
//! session.add(65)?;
//! let mut week = Week::empty();
//! week.enter(2, &session)?;
//! session.begin(Encounter { R: 500, sx: 5000, sy: 2500, xm: 1000, ym: 0 })?;
//! session.add(12)?;
//! week.enter(0, &session)?;
//! let ends = "2627622691 × 2^-35 to 2962338876 × 2^-35";
//! assert_eq!(week.ends().to_string(), format!("{ends}, 7.647e-02 to 8.622e-02"));
//! assert_eq!(week.days()[2][0].unwrap().lower, week.ends().lower);
//! assert_eq!(week.days()[2][1], None);
//! assert_eq!(week.enter(7, &session), Err(Refusal(13)));
//! # Ok::<(), Refusal>(())
//! ```
//!
//! A session cannot be put together from numbers, nor can a week:
//!
//! ```compile_fail,E0451
//! let session = jinthuol::Session { words: [0; 60] };
//! ```
//!
//! ```compile_fail,E0451
//! let week = jinthuol::Week { days: todo!() };
//! ```
#![deny(missing_docs, unsafe_code, unsafe_op_in_unsafe_fn)]

#[forbid(unsafe_code)]
mod answer;
#[forbid(unsafe_code)]
mod decimal;
#[forbid(unsafe_code)]
mod division;
#[forbid(unsafe_code)]
mod doubles;
#[allow(unsafe_code)]
mod ffi;
#[forbid(unsafe_code)]
mod refusal;
#[forbid(unsafe_code)]
mod script;
#[forbid(unsafe_code)]
mod session;
#[forbid(unsafe_code)]
mod week;

pub use answer::{Answer, Class, Scaled};
pub use decimal::Decimal;
pub use doubles::{Doubles, PlotRecord};
pub use refusal::Refusal;
pub use script::{run, run_into, Listing};
pub use session::{Conjunction, Encounter, Session};
pub use week::{Ends, Week};

/// The version of the library's functions that this crate is for: JINTHUOL_VERSION of bindings/c/jinthuol.h.
pub const VERSION: u32 = 11;

/// The version of the library that this crate was linked with. Where it is not [`VERSION`], [`Session::empty`],
/// [`Week::empty`], [`run`], [`run_into`], and the decimals and divisions of a [`Scaled`] panic: the structs may be others.
pub fn library_version() -> u32 {
    ffi::jinthuol_version()
}

/// Every session, every week, every listing, every decimal and every division starts here.
fn assert_version() {
    assert_eq!(library_version(), VERSION, "libjinthuol.a is of another version than this crate");
}
