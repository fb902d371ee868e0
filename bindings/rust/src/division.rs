//! The division of a number by a whole number.

use crate::answer::Scaled;
use crate::ffi;
use crate::refusal::Refusal;

impl Scaled {
    /// Divided by a whole number and rounded down, as for a lower end: the greatest scaled number that is not above the
    /// exact quotient. Refused as 10 where the divisor is 0, where this is no scaled number (m above 0 and below 2^31, or
    /// m = 0 with an e other than 0), or where e is below −1,000,000,000. No end of a read meets the last two.
    pub fn divided_down(self, divisor: u32) -> Result<Scaled, Refusal> {
        divided(false, self, divisor)
    }

    /// Divided by a whole number and rounded up, as for an upper end: the least scaled number that is not below the exact
    /// quotient. Refused as [`Scaled::divided_down`] is.
    pub fn divided_up(self, divisor: u32) -> Result<Scaled, Refusal> {
        divided(true, self, divisor)
    }
}

fn divided(up: bool, number: Scaled, divisor: u32) -> Result<Scaled, Refusal> {
    crate::assert_version();
    let answer = ffi::jinthuol_divide(up, number, divisor);
    match answer.refusal {
        0 => Ok(answer.quotient),
        refusal => Err(Refusal(refusal)),
    }
}
