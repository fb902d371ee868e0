//! What a read answers.

use std::fmt;

/// m × 2^e: m from 2^31 to 2^32 − 1, or zero as m = 0 and e = 0.
#[repr(C)]
#[derive(Clone, Copy, Debug, PartialEq, Eq)]
pub struct Scaled {
    /// The mantissa.
    pub m: u32,
    /// The exponent.
    pub e: i32,
}

impl Scaled {
    /// The same number as an f64, or none where no f64 is this number. An f64 has 53 bits for the 32
    /// of m, so every end has one whose e is from −1074 to 992.
    pub fn to_f64(self) -> Option<f64> {
        if self.m == 0 {
            return Some(0.0);
        }
        // With an odd m it is an f64 where it is a whole number of 2^-1074 and below 2^1024.
        let zeros = self.m.trailing_zeros();
        let (m, e) = (self.m >> zeros, i64::from(self.e) + i64::from(zeros));
        if e < -1074 || e + i64::from(m.ilog2()) > 1023 {
            return None;
        }
        // In two steps, since 2^e alone may be no f64; neither rounds.
        let first = e / 2;
        Some(f64::from(m) * power(first) * power(e - first))
    }
}

/// 2^k, for k from −1022 to 1023.
fn power(k: i64) -> f64 {
    f64::from_bits(((k + 1023) as u64) << 52)
}

impl fmt::Display for Scaled {
    fn fmt(&self, f: &mut fmt::Formatter<'_>) -> fmt::Result {
        match self.m {
            0 => write!(f, "0"),
            m => write!(f, "{m} × 2^{}", self.e),
        }
    }
}

/// What a read answers where it is not refused. Elsewhere the answer has the refusal's number too;
/// here a [`Refusal`](crate::Refusal) has it.
#[allow(non_snake_case)]
#[derive(Clone, Copy, Debug, PartialEq, Eq)]
pub struct Answer {
    /// The order: how many terms were summed.
    pub N: u32,
    /// The lower end.
    pub lower: Scaled,
    /// The upper end.
    pub upper: Scaled,
    /// The class, by both ends.
    pub class: Class,
    /// The object number that the encounter was begun with, or 0 where it was begun without one.
    pub object: u32,
    /// Its time of closest approach, in minutes from the epoch that the site chooses; 0 where `object` is 0.
    pub time: u32,
    /// How many of the first terms are exact, at least 0 and at most `N`: on the way to them nothing was rounded off,
    /// on either side. It tells where rounding starts; how much is lost by it is in the ends.
    pub exact_terms: u32,
}

impl fmt::Display for Answer {
    fn fmt(&self, f: &mut fmt::Formatter<'_>) -> fmt::Result {
        write!(f, "N = {}: {} to {}, {}", self.N, self.lower, self.upper, self.class)?;
        write!(f, ", {} to {}", self.lower.decimal_down(), self.upper.decimal_up())?;
        if self.object != 0 {
            write!(f, ", object {} at minute {}", self.object, self.time)?;
        }
        write!(f, ", exact terms: {}", self.exact_terms)
    }
}

/// Where both ends are, seen from 1/10,000. Of an accepted read always one of the three holds, and no other.
#[derive(Clone, Copy, Debug, PartialEq, Eq)]
pub enum Class {
    /// The upper end is below 1/10,000, and so is the probability.
    Clear,
    /// The lower end is at least 1/10,000, and so is the probability.
    Alert,
    /// Neither: this read does not tell on which side the probability is. A read with some terms more may.
    Open,
}

impl fmt::Display for Class {
    fn fmt(&self, f: &mut fmt::Formatter<'_>) -> fmt::Result {
        f.pad(match self {
            Class::Clear => "clear",
            Class::Alert => "alert",
            Class::Open => "open",
        })
    }
}
