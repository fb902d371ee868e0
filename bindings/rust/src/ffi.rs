//! The functions of libjinthuol.a, as bindings/c/jinthuol.h declares them. All unsafe code of this
//! crate is here.
//!
//! Nothing checks the declarations against the library but the tests.

use crate::answer::Scaled;
use crate::decimal::Decimal;
use crate::doubles::PlotRecord;
use crate::script::Listing;
use crate::session::{Conjunction, Encounter, Session};
use crate::week::{Ends, Week};

/// The refusal's number, or 0; then the order N, both ends, the class, the object number, the time and the count of exact
/// terms. The class is a number here: an enum of Rust would trust the library to give no other number than its own.
#[repr(C)]
#[allow(non_snake_case)]
pub struct Answer {
    pub refusal: u32,
    pub N: u32,
    pub lower: Scaled,
    pub upper: Scaled,
    pub class: u32,
    pub object: u32,
    pub time: u32,
    pub exact_terms: u32,
}

/// The refusal's number, or 0; then the advised order, or 0 where there is none.
#[repr(C)]
pub struct Advice {
    pub refusal: u32,
    pub order: u32,
}

/// The refusal's number, or 0; then the quotient, zero where it is refused.
#[repr(C)]
pub struct Divided {
    pub refusal: u32,
    pub quotient: Scaled,
}

/// The tag of an answer in doubles with the lower end alone. A refusal's is 0.
pub const UNBOUNDED: u32 = 1;
/// With both ends.
pub const BOTH: u32 = 2;

/// The refusal's number, or 0; then the tag, and the ends that are there, zero where one is not.
#[repr(C)]
pub struct Doubles {
    pub refusal: u32,
    pub tag: u32,
    pub lower: f64,
    pub upper: f64,
}

/// The refusal's number, or 0; then the tag, and the record where there is one.
#[repr(C)]
pub struct Plotted {
    pub refusal: u32,
    pub tag: u32,
    pub record: PlotRecord,
}

/// A place of a week: 1 and the two ends of a read, or 0 in every field where it is empty.
#[repr(C)]
#[derive(Clone, Copy, Debug, PartialEq, Eq)]
pub struct Bracket {
    pub held: u32,
    pub lower: Scaled,
    pub upper: Scaled,
}

/// The refusal's number, or 0; then the week, as it was where it is refused.
#[repr(C)]
pub struct Entered {
    pub refusal: u32,
    pub week: Week,
}

// `safe`: the types of these fourteen say all that they trust, but that the library has this crate's
// version, which `Session::empty`, `Week::empty`, `run_into`, the decimals and the divisions test first. A reference is valid, and
// not shared while it is lent. A `Session` and a `Week` came from these calls, since nothing else writes their private fields.
unsafe extern "C" {
    /// Trusts nothing.
    pub safe fn jinthuol_version() -> u32;

    /// Trusts nothing.
    pub safe fn jinthuol_empty() -> Session;

    /// Trusts that the session came from these calls. Any five numbers will do.
    pub safe fn jinthuol_begin(session: &mut Session, encounter: Encounter) -> Answer;

    /// Trusts that the session came from these calls. Any seven numbers will do.
    pub safe fn jinthuol_begin_conjunction(session: &mut Session, conjunction: Conjunction) -> Answer;

    /// Trusts that the session came from these calls. Any count will do.
    pub safe fn jinthuol_add(session: &mut Session, count: u16) -> Answer;

    /// Trusts that the session came from these calls.
    pub safe fn jinthuol_read(session: Session) -> Answer;

    /// Trusts that the session came from these calls.
    pub safe fn jinthuol_advise(session: Session) -> Advice;

    /// Trusts that the session came from these calls.
    pub safe fn jinthuol_read_doubles(session: Session) -> Doubles;

    /// Trusts that the session came from these calls.
    pub safe fn jinthuol_read_plot_record(session: Session) -> Plotted;

    /// Trusts nothing.
    pub safe fn jinthuol_empty_week() -> Week;

    /// Trusts that the week and the session came from these calls. Any day will do.
    pub safe fn jinthuol_enter(week: Week, day: u32, session: Session) -> Entered;

    /// Trusts that the week came from these calls.
    pub safe fn jinthuol_week_ends(week: Week) -> Ends;

    /// Trusts nothing. Any m and e will do.
    pub safe fn jinthuol_to_decimal(up: bool, number: Scaled) -> Decimal;

    /// Trusts nothing. Any m, e and divisor will do.
    pub safe fn jinthuol_divide(up: bool, number: Scaled, divisor: u32) -> Divided;

    /// Trusts that both pointers are valid for their lengths, for reads and for writes, that the
    /// bytes do not overlap, and that no pointer is null, also where its length is 0. Any bytes
    /// will do. That `ended` is 0 or 1 is trusted of the library.
    unsafe fn jinthuol_run(script: *const u8, script_length: usize, out: *mut u8, out_length: usize) -> Listing;
}

/// The listing of a script, as far as the buffer has room for it.
pub fn run(script: &[u8], out: &mut [u8]) -> Listing {
    // SAFETY: both slices are valid for their lengths, nothing else reads or writes `out` while it
    // is lent, and the pointer of a slice is never null.
    unsafe { jinthuol_run(script.as_ptr(), script.len(), out.as_mut_ptr(), out.len()) }
}
