//! The clock of document 01 in plain whole numbers, brought back into 32 bits by division.
//!
//! Written from document 01. Of the library, its writer had read `docs/` and the exported functions in `crates/quimdoral`, and none of the
//! functions that they call.
#![allow(dead_code)]

const ROUND: i64 = 1 << 32;

pub fn stamp_of(start: u32, tick: u32) -> Result<u32, u8> {
    let stamp = (i64::from(tick) - i64::from(start)).rem_euclid(ROUND);
    if stamp < 60_000 { Ok(stamp as u32) } else { Err(23) }
}

pub fn due(start: u32, stamp: u32) -> Result<u32, u8> {
    if stamp > 59_999 { Err(5) } else { Ok(((i64::from(start) + i64::from(stamp)) % ROUND) as u32) }
}

/// The one number within the range that differs from arrival less due by whole rounds.
pub fn lateness(arrival: u32, due: u32) -> i64 {
    let past = (i64::from(arrival) - i64::from(due)).rem_euclid(ROUND);
    if past < ROUND / 2 { past } else { past - ROUND }
}
