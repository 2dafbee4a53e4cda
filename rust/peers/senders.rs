//! The sender of document 01 as a plain Rust program would keep it, in the six numbers that the library keeps it in.
//!
//! Written from document 01. Of the library, its writer had read `docs/` and the exported functions in `crates/quimdoral`, and none of the
//! functions that they call. What request 9 of document 02 took out was taken out by one who had read them.
#![allow(dead_code)]

use crate::frames::Closing;
use crate::writing::{closing_frame, data_frame, fitted, lengths_frame, lengths_wrong};

pub const FRESH: u64 = 0;
pub const OPEN: u64 = 1;
pub const CLOSED: u64 = 2;

const LAST_STAMP: u64 = 59_999;
const MOST_IN_SEQUENCE: u64 = 65_535;
const MOST_IN_PERIOD: u64 = 16_777_215;

/// Phase, stamp, number, elapsed octets, total packets, total octets. The list may hold anything, and may be too short or longer.
#[derive(Clone, Debug, PartialEq, Eq)]
pub struct State(pub Vec<u64>);

impl State {
    pub fn fresh() -> State {
        State(vec![0; 6])
    }

    /// A list that is too short has no room for a state.
    pub fn make_fresh(&mut self) -> Result<(), u8> {
        self.0.get_mut(..6).ok_or(12)?.fill(0);
        Ok(())
    }

    /// Document 01's list of what is damage, item by item. Sums are of 128 bits, so that no number is too wide for them.
    pub fn damaged(&self) -> bool {
        let &[phase, stamp, number, elapsed, packets, octets, ..] = self.0.as_slice() else { return true };
        let carried = |packets: u64| 4_095 * u128::from(packets);
        phase > CLOSED
            || stamp > LAST_STAMP
            || number > MOST_IN_SEQUENCE
            || packets > MOST_IN_PERIOD
            || number > packets
            || u128::from(elapsed) > carried(number)
            || elapsed > octets
            || u128::from(octets - elapsed) > carried(packets - number)
            || phase == CLOSED && (number, elapsed) != (0, 0)
            || phase == FRESH && [stamp, number, elapsed, packets, octets] != [0; 5]
    }

    fn may_turn(&self, phases: &[u64]) -> Result<(), u8> {
        if self.damaged() {
            return Err(21);
        }
        if phases.contains(&self.0[0]) { Ok(()) } else { Err(15) }
    }

    /// The order is 21, 15, 5, 16. A fresh sender has no last stamp.
    pub fn open(&mut self, stamp: u32) -> Result<(), u8> {
        self.may_turn(&[FRESH, CLOSED])?;
        if u64::from(stamp) > LAST_STAMP {
            return Err(5);
        }
        if self.0[0] == CLOSED && u64::from(stamp) <= self.0[1] {
            return Err(16);
        }
        (self.0[0], self.0[1]) = (OPEN, stamp.into());
        Ok(())
    }

    /// The order is document 01's without what request 9 of document 02 took out: 21, 15, 20, 17, 18, 12. The frame has the counts before
    /// the packet.
    pub fn data(&mut self, payload: &[u8], room: usize) -> Result<Vec<u8>, u8> {
        self.may_turn(&[OPEN])?;
        let (length, number, elapsed) = (payload.len() as u64, self.0[2], self.0[3]);
        let refusals = [(20, length > 4_095), (17, number == MOST_IN_SEQUENCE), (18, self.0[4] == MOST_IN_PERIOD)];
        if let Some((refusal, _)) = refusals.into_iter().find(|&(_, applies)| applies) {
            return Err(refusal);
        }
        let frame = fitted(data_frame(self.0[1] as u32, number as u32, elapsed, payload), room)?;
        for (place, more) in [(2, 1), (3, length), (4, 1), (5, length)] {
            self.0[place] += more;
        }
        assert!(self.0[5] < 1 << 40, "the period's octets do not fit their field of five octets: {self:?}");
        Ok(frame)
    }

    fn counts(&self) -> Closing {
        Closing {
            stamp: self.0[1] as u32,
            number: self.0[2] as u32,
            elapsed: self.0[3],
            total_packets: self.0[4] as u32,
            total_octets: self.0[5],
        }
    }

    /// "Closing sets number and elapsed octets to zero and keeps stamp and totals."
    fn end_sequence(&mut self) {
        (self.0[0], self.0[2], self.0[3]) = (CLOSED, 0, 0);
    }

    /// The order is 21, 15, 12.
    pub fn close(&mut self, room: usize) -> Result<Vec<u8>, u8> {
        self.may_turn(&[OPEN])?;
        let frame = fitted(closing_frame(&self.counts()), room)?;
        self.end_sequence();
        Ok(frame)
    }

    /// The order is 21, 15, 22, 12.
    pub fn close_with_lengths(&mut self, lengths: &[u16], room: usize) -> Result<Vec<u8>, u8> {
        self.may_turn(&[OPEN])?;
        if lengths_wrong(self.0[2], self.0[3], lengths) {
            return Err(22);
        }
        let frame = fitted(lengths_frame(&self.counts(), lengths), room)?;
        self.end_sequence();
        Ok(frame)
    }

    /// The order is 21, 15.
    pub fn new_period(&mut self) -> Result<(), u8> {
        self.may_turn(&[FRESH, CLOSED])?;
        self.make_fresh()
    }
}
