//! The ends of a read as doubles, for a host that reads these.

use crate::ffi;
use crate::refusal::Refusal;
use crate::session::{not_refused, Session};
use std::fmt;

/// The ends of a read as doubles. Each equals its end exactly.
#[derive(Clone, Copy, Debug, PartialEq)]
pub enum Doubles {
    /// Both ends: the upper end is below 1.
    Both {
        /// The lower end.
        lower: f64,
        /// The upper end.
        upper: f64,
    },
    /// The lower end alone: the upper end is 1 or more.
    Unbounded {
        /// The lower end.
        lower: f64,
    },
}

impl fmt::Display for Doubles {
    fn fmt(&self, f: &mut fmt::Formatter<'_>) -> fmt::Result {
        match self {
            Doubles::Both { lower, upper } => write!(f, "{lower:?} to {upper:?}"),
            Doubles::Unbounded { lower } => write!(f, "at least {lower:?}, unbounded"),
        }
    }
}

/// What a plotting tool stores of a read.
#[repr(C)]
#[derive(Clone, Copy, Debug, PartialEq)]
pub struct PlotRecord {
    /// The object number that the encounter was begun with, or 0 where it was begun without one.
    pub object: u32,
    /// The lower end.
    pub lower: f64,
    /// The upper end.
    pub upper: f64,
    /// `upper - lower`: one subtraction of doubles, rounded to the nearest.
    pub difference: f64,
}

impl fmt::Display for PlotRecord {
    fn fmt(&self, f: &mut fmt::Formatter<'_>) -> fmt::Result {
        let PlotRecord { object, lower, upper, difference } = self;
        write!(f, "object {object}: {lower:?} to {upper:?}, difference {difference:?}")
    }
}

impl Session {
    /// The ends of a read as doubles: both, or the lower end alone where the upper end is 1 or more. Refused as 21 or 23,
    /// as [`Session::read`] is.
    pub fn read_doubles(&self) -> Result<Doubles, Refusal> {
        let answer = ffi::jinthuol_read_doubles(self.clone());
        not_refused(answer.refusal)?;
        let (lower, upper) = (answer.lower, answer.upper);
        Ok(match answer.tag {
            ffi::UNBOUNDED => Doubles::Unbounded { lower },
            ffi::BOTH => Doubles::Both { lower, upper },
            other => unreachable!("tag {other}"),
        })
    }

    /// The record of a read for a plotting tool. `None` where the upper end is 1 or more: there is no record then. Refused
    /// as 21 or 23, as [`Session::read`] is.
    pub fn read_plot_record(&self) -> Result<Option<PlotRecord>, Refusal> {
        let answer = ffi::jinthuol_read_plot_record(self.clone());
        not_refused(answer.refusal)?;
        Ok(match answer.tag {
            ffi::UNBOUNDED => None,
            ffi::BOTH => Some(answer.record),
            other => unreachable!("tag {other}"),
        })
    }
}
