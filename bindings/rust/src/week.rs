//! One figure for a week of encounters.

use crate::answer::Scaled;
use crate::ffi;
use crate::refusal::Refusal;
use crate::session::{not_refused, Session};
use std::fmt;

/// Seven days, 0 to 6, of eight places, each empty or with the two ends of a read. A copy is a week of its own.
#[repr(C)]
#[derive(Clone, Copy, Debug, PartialEq, Eq)]
pub struct Week {
    days: [[ffi::Bracket; 8]; 7],
}

impl Week {
    /// A week with every place empty.
    pub fn empty() -> Week {
        crate::assert_version();
        ffi::jinthuol_empty_week()
    }

    /// Makes a read of the session and puts its two ends into the next empty place of the day. Refused as 13, 21, 23 or
    /// 24: as 13 before the tests of the read, where the day is above 6, and as 24 after them, where the day has eight
    /// brackets already. Any refusal leaves the week as it was. An encounter that is entered twice counts twice in the
    /// upper end.
    pub fn enter(&mut self, day: u32, session: &Session) -> Result<(), Refusal> {
        let entered = ffi::jinthuol_enter(*self, day, session.clone());
        not_refused(entered.refusal)?;
        *self = entered.week;
        Ok(())
    }

    /// The greatest lower end held, and the upper ends added in the order of days and places, each sum rounded up to a
    /// scaled number. The chance of at least one collision in the encounters that are held lies between, independent or
    /// not. An upper end of 1 or more says nothing. An encounter whose entry was refused is not in the figure. Both are
    /// zero where the week is empty.
    pub fn ends(&self) -> Ends {
        ffi::jinthuol_week_ends(*self)
    }

    /// What each place of each day has: the two ends of a read, or `None` where it is empty.
    pub fn days(&self) -> [[Option<Ends>; 8]; 7] {
        self.days.map(|day| day.map(|ffi::Bracket { held, lower, upper }| (held == 1).then_some(Ends { lower, upper })))
    }
}

/// A lower and an upper end: of a week, or of a read that it holds. As text they are the two numbers, and the two in
/// decimal.
#[repr(C)]
#[derive(Clone, Copy, Debug, PartialEq, Eq)]
pub struct Ends {
    /// The lower end.
    pub lower: Scaled,
    /// The upper end.
    pub upper: Scaled,
}

impl fmt::Display for Ends {
    fn fmt(&self, f: &mut fmt::Formatter<'_>) -> fmt::Result {
        let Ends { lower, upper } = self;
        write!(f, "{lower} to {upper}, {} to {}", lower.decimal_down(), upper.decimal_up())
    }
}
