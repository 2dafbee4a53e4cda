//! The two checks of TS 25.446, clause 5.6.2. Frames that are read and written here have them already.

use crate::raw;

/// The six-bit check of a control part: what remains of the octets and six zero bits, divided by D^6+D^5+D^3+D^2+D+1.
///
/// ```
/// assert_eq!(quimdoral::checks::header_check(b"123456789"), 0x2C);
/// ```
#[inline]
pub fn header_check(octets: &[u8]) -> u8 {
    raw::header_check(octets)
}

/// The ten-bit check of a payload part: what remains of the octets and ten zero bits, divided by D^10+D^9+D^5+D^4+D+1.
///
/// ```
/// assert_eq!(quimdoral::checks::payload_check(b"123456789"), 0x199);
/// assert_eq!(quimdoral::checks::payload_check(&[]), 0);
/// ```
#[inline]
pub fn payload_check(octets: &[u8]) -> u16 {
    raw::payload_check(octets)
}
