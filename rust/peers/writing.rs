//! Writing frames as a plain Rust program would: field by field and bit by bit, with checks by long division.
//!
//! Written from document 01, and compared with clauses 5.5 and 5.6 of TS 25.446. Of the library, its writer had read `docs/` and the
//! exported functions in `crates/quimdoral`, and none of the functions that they call.
#![allow(dead_code)]

use crate::frames::Closing;
use crate::peers::{HEADER, PAYLOAD, by_bits};

const LONGEST: u64 = 4_095;

/// Octets as they grow, most significant bit first.
#[derive(Default)]
struct Bits {
    octets: Vec<u8>,
    left: u32,
}

impl Bits {
    fn put(&mut self, width: u32, value: u64) {
        for place in (0..width).rev() {
            if self.left == 0 {
                self.octets.push(0);
                self.left = 8;
            }
            self.left -= 1;
            let last = self.octets.len() - 1;
            self.octets[last] |= ((value >> place & 1) as u8) << self.left;
        }
    }

    /// Type and spare bits, stamp, packet number, elapsed octets.
    fn control(kind: u64, stamp: u32, number: u32, elapsed: u64) -> Bits {
        let mut bits = Bits::default();
        for (width, value) in [(4, kind), (4, 0), (16, stamp.into()), (16, number.into()), (32, elapsed)] {
            bits.put(width, value);
        }
        bits
    }

    fn closing_control(kind: u64, given: &Closing) -> Bits {
        let mut bits = Bits::control(kind, given.stamp, given.number, given.elapsed);
        bits.put(24, given.total_packets.into());
        bits.put(40, given.total_octets);
        bits
    }

    /// The header check behind the control part, then the payload check and the payload part.
    fn sealed_with(mut self, payload: &[u8]) -> Vec<u8> {
        self.put(6, by_bits(HEADER, &self.octets).into());
        self.put(10, by_bits(PAYLOAD, payload).into());
        self.octets.extend(payload);
        self.octets
    }
}

pub fn data_frame(stamp: u32, number: u32, elapsed: u64, payload: &[u8]) -> Vec<u8> {
    Bits::control(1, stamp, number, elapsed).sealed_with(payload)
}

pub fn closing_frame(given: &Closing) -> Vec<u8> {
    let mut bits = Bits::closing_control(0, given);
    bits.put(6, by_bits(HEADER, &bits.octets).into());
    bits.octets
}

pub fn lengths_frame(given: &Closing, lengths: &[u16]) -> Vec<u8> {
    let mut packed = Bits::default();
    lengths.iter().for_each(|&length| packed.put(12, length.into()));
    Bits::closing_control(3, given).sealed_with(&packed.octets)
}

/// Whether so many packets cannot carry so many octets.
fn too_many(octets: u64, packets: u64) -> bool {
    u128::from(octets) > u128::from(LONGEST) * u128::from(packets)
}

pub fn closing_impossible(given: &Closing) -> bool {
    let Closing { number, elapsed, total_packets, total_octets, .. } = *given;
    let (number, packets) = (u64::from(number), u64::from(total_packets));
    let too_wide = number > 0xFFFF || elapsed > 0xFFFF_FFFF || packets > 0xFF_FFFF || total_octets > 0xFF_FFFF_FFFF;
    too_wide
        || too_many(elapsed, number)
        || packets < number
        || total_octets < elapsed
        || too_many(total_octets - elapsed, packets - number)
}

/// "Lengths given for Type 3 are not N values of at most 4,095 with the elapsed octets as sum."
pub fn lengths_wrong(number: u64, elapsed: u64, lengths: &[u16]) -> bool {
    let sum: u64 = lengths.iter().copied().map(u64::from).sum();
    lengths.len() as u64 != number || lengths.iter().any(|&length| u64::from(length) > LONGEST) || sum != elapsed
}

/// The frame, where the lent output has room for it.
pub fn fitted(frame: Vec<u8>, room: usize) -> Result<Vec<u8>, u8> {
    if room < frame.len() { Err(12) } else { Ok(frame) }
}

/// The order is 5, 20, 8, 12.
pub fn write_data(stamp: u32, number: u32, elapsed: u64, payload: &[u8], room: usize) -> Result<Vec<u8>, u8> {
    if stamp > 59_999 {
        return Err(5);
    }
    if payload.len() as u64 > LONGEST {
        return Err(20);
    }
    if number > 0xFFFF || elapsed > 0xFFFF_FFFF || number == 0xFFFF || too_many(elapsed, number.into()) {
        return Err(8);
    }
    fitted(data_frame(stamp, number, elapsed, payload), room)
}

/// The order is 5, 8, 12.
pub fn write_closing(given: &Closing, room: usize) -> Result<Vec<u8>, u8> {
    if given.stamp > 59_999 {
        return Err(5);
    }
    if closing_impossible(given) {
        return Err(8);
    }
    fitted(closing_frame(given), room)
}

/// The order is 5, 8, 22, 12.
pub fn write_with_lengths(given: &Closing, lengths: &[u16], room: usize) -> Result<Vec<u8>, u8> {
    if given.stamp > 59_999 {
        return Err(5);
    }
    if closing_impossible(given) {
        return Err(8);
    }
    if lengths_wrong(given.number.into(), given.elapsed, lengths) {
        return Err(22);
    }
    fitted(lengths_frame(given, lengths), room)
}
