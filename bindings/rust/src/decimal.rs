//! A number in decimal.

use crate::answer::Scaled;
use crate::ffi;
use std::fmt;

/// d.ddd × 10^-power, where digits is dddd. As text it is d.ddd, `e-` and the power in two digits, as a listing has it.
#[repr(C)]
#[derive(Clone, Copy, Debug, PartialEq, Eq)]
pub struct Decimal {
    /// From 1000 to 9999; 0 for zero, and for a lower end that is too small for the table of powers of ten.
    pub digits: u32,
    /// From 0 to 43.
    pub power: u32,
}

impl fmt::Display for Decimal {
    fn fmt(&self, f: &mut fmt::Formatter<'_>) -> fmt::Result {
        write!(f, "{}.{:03}e-{:02}", self.digits / 1000, self.digits % 1000, self.power)
    }
}

impl Scaled {
    /// As a lower end in decimal: never above it. An end of a read that is below 1 is off by at most two in the last
    /// digit; 1.000e-00 where it is 1 or more; 0.000e-00 where it is too small for the table of powers of ten, which
    /// no end of a read is.
    pub fn decimal_down(self) -> Decimal {
        decimal(false, self)
    }

    /// As an upper end in decimal: where it is below 1 never below it. An end of a read that is below 1 is off by at
    /// most two in the last digit; 1.000e-00 where it is 1 or more; 1.000e-43 where it is too small for the table of
    /// powers of ten, which no end of a read is, and 0.000e-00 for zero.
    pub fn decimal_up(self) -> Decimal {
        decimal(true, self)
    }
}

fn decimal(up: bool, number: Scaled) -> Decimal {
    crate::assert_version();
    ffi::jinthuol_to_decimal(up, number)
}
