//! The listing of a script.

use crate::ffi;

/// What [`run_into`] wrote.
#[repr(C)]
#[derive(Clone, Copy, Debug, PartialEq, Eq)]
pub struct Listing {
    /// The bytes of the buffer that are used.
    pub used: usize,
    /// Whether they are the whole listing.
    pub ended: bool,
}

/// A line is written only while so many bytes of the buffer are left.
const ROOM: usize = 150;
/// A longer script is refused as 8.
const LONGEST: usize = 65_536;

/// The listing of a script of records, on a session of its own.
pub fn run(script: &[u8]) -> Vec<u8> {
    // 150 bytes for each byte of the script are enough, and for one line where it is too long: this is
    // promised and proved of `jinthuol_run`.
    let mut out = vec![0; ROOM * script.len().min(LONGEST)];
    let listing = run_into(script, &mut out);
    assert!(listing.ended, "{} bytes were too few", out.len());
    out.truncate(listing.used);
    out.shrink_to_fit();
    out
}

/// Writes the listing into a buffer, line by line while 150 bytes are left. So it may be cut, between
/// two lines. The bytes past those used are as they were.
pub fn run_into(script: &[u8], out: &mut [u8]) -> Listing {
    crate::assert_version();
    ffi::run(script, out)
}
