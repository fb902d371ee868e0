//! A session and its calls.

use crate::answer::{Answer, Class};
use crate::ffi;
use crate::refusal::Refusal;

/// All that is kept of one encounter between calls. A clone is a session of its own. Two sessions are
/// equal where all their numbers are.
#[repr(C)]
#[derive(Clone, Debug, PartialEq, Eq)]
pub struct Session {
    words: [u32; 60],
}

impl Session {
    /// A session with no encounter begun.
    pub fn empty() -> Session {
        crate::assert_version();
        ffi::jinthuol_empty()
    }

    /// Begins an encounter, with no object: reads answer 0 as the object number and the time. Gives the order N, 1.
    /// Refused as 3 to 7 or 11, and then the session is as it was, with the earlier object number and time.
    pub fn begin(&mut self, encounter: Encounter) -> Result<u32, Refusal> {
        Ok(accepted(ffi::jinthuol_begin(self, encounter))?.N)
    }

    /// Begins an encounter of an object: reads answer the object number and the time too. Gives the order N, 1. Refused
    /// as 3 to 7, 11 or 9, the last where the object number is 0, and then the session is as it was, with the earlier
    /// object number and time.
    pub fn begin_conjunction(&mut self, conjunction: Conjunction) -> Result<u32, Refusal> {
        Ok(accepted(ffi::jinthuol_begin_conjunction(self, conjunction))?.N)
    }

    /// Adds terms of the series, 1 or more. Gives the order N after it. Refused as 12, 21 or 22, as 12 where count is 0; a
    /// refused add leaves the session as it was.
    pub fn add(&mut self, count: u16) -> Result<u32, Refusal> {
        Ok(accepted(ffi::jinthuol_add(self, count))?.N)
    }

    /// The bracket at the session's order. Refused as 21 or 23. At the first orders that are read the upper end may be
    /// far off; [`Session::advise`] has how many terms are enough.
    pub fn read(&self) -> Result<Answer, Refusal> {
        let answer = accepted(ffi::jinthuol_read(self.clone()))?;
        Ok(Answer {
            N: answer.N,
            lower: answer.lower,
            upper: answer.upper,
            class: match answer.class {
                0 => Class::Clear,
                1 => Class::Alert,
                2 => Class::Open,
                other => unreachable!("class {other}"),
            },
            object: answer.object,
            time: answer.time,
            exact_terms: answer.exact_terms,
        })
    }

    /// An order N that is enough for the encounter: a read at it, or at any later one, is accepted, and the ends are
    /// close there. It is the same at every order of the encounter, and after a begin `add(order - 1)` comes to it.
    /// After a refused begin it is that of the encounter before. `None` where M is above 256. Refused as 21.
    pub fn advise(&self) -> Result<Option<u16>, Refusal> {
        let advice = ffi::jinthuol_advise(self.clone());
        not_refused(advice.refusal)?;
        Ok(match advice.order {
            0 => None,
            order => Some(u16::try_from(order).expect("no order is above 708")),
        })
    }
}

fn accepted(answer: ffi::Answer) -> Result<ffi::Answer, Refusal> {
    not_refused(answer.refusal)?;
    Ok(answer)
}

pub(crate) fn not_refused(number: u32) -> Result<(), Refusal> {
    match number {
        0 => Ok(()),
        _ => Err(Refusal(number)),
    }
}

/// The inputs, in whole centimetres, along the principal axes of the covariance in the encounter plane.
#[repr(C)]
#[allow(non_snake_case)]
#[derive(Clone, Copy, Debug, PartialEq, Eq)]
pub struct Encounter {
    /// The combined radius.
    pub R: u32,
    /// The larger standard deviation.
    pub sx: u32,
    /// The smaller standard deviation.
    pub sy: u32,
    /// The mean miss along x.
    pub xm: i32,
    /// The mean miss along y.
    pub ym: i32,
}

/// An encounter of an object. The library keeps the last two numbers and computes nothing from them.
#[repr(C)]
#[derive(Clone, Copy, Debug, PartialEq, Eq)]
pub struct Conjunction {
    /// The inputs.
    pub encounter: Encounter,
    /// The object number, from 1 on.
    pub object: u32,
    /// The time of closest approach, in minutes from the epoch that the site chooses. Any will do.
    pub time: u32,
}
