//! The clock: ticks of 10 ms, which start over after 4,294,967,295.

use crate::refusal::of_answer;
use crate::{Refusal, raw};

/// A tick. Ticks start over, so none is below another; only how far one is past another means something.
///
/// ```compile_fail
/// use quimdoral::clock::Tick;
/// let earlier = Tick(4_294_967_295) < Tick(0);
/// ```
#[derive(Clone, Copy, Debug, PartialEq, Eq, Hash)]
pub struct Tick(pub u32);

/// The stamp of a moment in the period that started at `start`: the moment's tick less the start, modulo 2^32. Refusals: 23.
///
/// ```
/// use quimdoral::{Refusal, clock::{Tick, stamp_of}};
/// assert_eq!(stamp_of(Tick(4_294_967_290), Tick(4)), Ok(10));
/// assert_eq!(stamp_of(Tick(100), Tick(60_100)), Err(Refusal::PeriodOver));
/// ```
#[inline]
pub fn stamp_of(start: Tick, moment: Tick) -> Result<u32, Refusal> {
    // It fits: a stamp is below 60,000.
    of_answer(raw::quimdoral_stamp_of(start.0, moment.0)).map(|stamp| stamp as u32)
}

/// When a frame with a stamp is due: start plus stamp, modulo 2^32. Refusals: 5.
///
/// ```
/// use quimdoral::{Refusal, clock::{Tick, due}};
/// assert_eq!(due(Tick(4_294_967_290), 10), Ok(Tick(4)));
/// assert_eq!(due(Tick(0), 60_000), Err(Refusal::StampTooHigh));
/// ```
#[inline]
pub fn due(start: Tick, stamp: u32) -> Result<Tick, Refusal> {
    // It fits: a tick has 32 bits.
    of_answer(raw::quimdoral_due(start.0, stamp)).map(|tick| Tick(tick as u32))
}

/// How many ticks a frame came after it was due, negative when it was early.
///
/// ```
/// use quimdoral::clock::{Tick, lateness};
/// assert_eq!(lateness(Tick(3), Tick(4)), -1);
/// assert_eq!(lateness(Tick(0), Tick(4_294_967_295)), 1);
/// assert_eq!(lateness(Tick(2_147_483_652), Tick(4)), -2_147_483_648);
/// ```
#[inline]
pub fn lateness(arrival: Tick, due: Tick) -> i32 {
    raw::quimdoral_lateness(arrival.0, due.0)
}
