//! Refusals.

use std::error::Error;
use std::fmt;

/// The number of a refusal. As text it has document 01's condition. 1, 2 and 8 are in listings only.
#[derive(Clone, Copy, Debug, PartialEq, Eq)]
pub struct Refusal(pub u32);

impl Refusal {
    /// The condition under which the number falls.
    pub fn condition(self) -> &'static str {
        match self.0 {
            1 => "no kind byte, or kind is not 1, 2, 3 or 4",
            2 => "body shorter than its kind needs",
            3 => "R is 0 or above 10,000,000",
            4 => "sx or sy is 0 or above 10,000,000",
            5 => "sy above sx",
            6 => "a miss outside −10,000,000 to 10,000,000",
            7 => "upper t above 64",
            8 => "script file longer than 65,536 bytes",
            9 => "kind 4: object number is 0",
            10 => "divide: divisor 0, number not in the scaled form, or e below −1,000,000,000",
            11 => "begin: 2M above 1,026",
            12 => "add: count is 0",
            13 => "enter: day number above 6",
            21 => "add or read with no encounter begun",
            22 => "add: N + count above 1,024",
            23 => "read: 2M above N + 2",
            24 => "enter: a ninth bracket for a day",
            _ => "no such refusal",
        }
    }
}

impl fmt::Display for Refusal {
    fn fmt(&self, f: &mut fmt::Formatter<'_>) -> fmt::Result {
        write!(f, "refused {}: {}", self.0, self.condition())
    }
}

impl Error for Refusal {}
