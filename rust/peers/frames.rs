//! Reading a frame as a plain Rust program would: document 01's layouts and order, with table-driven checks; and of document 02 request 6,
//! by which a wrong check is told with the right one, and request 2, by which what stands behind an IP packet is dropped.
#![allow(dead_code)]

use crate::peers::{HeaderTable, Tables};
use quimdoral::{Checks, ReadRefusal};

/// The fields of a data PDU (Type 1), with its payload's length, an extension not counted.
#[derive(Clone, Copy, Debug, PartialEq, Eq)]
pub struct Data {
    pub stamp: u32,
    pub number: u32,
    pub elapsed: u64,
    pub length: u32,
}

/// The fields of a closing PDU (Types 0 and 3).
#[derive(Clone, Copy, Debug, PartialEq, Eq)]
pub struct Closing {
    pub stamp: u32,
    pub number: u32,
    pub elapsed: u64,
    pub total_packets: u32,
    pub total_octets: u64,
}

/// What an accepted frame says.
#[derive(Clone, Copy, Debug, PartialEq, Eq)]
pub enum Frame {
    Closing(Closing),
    Data(Data),
    ClosingWithLengths(Closing),
}

impl From<quimdoral::Closing> for Closing {
    fn from(said: quimdoral::Closing) -> Closing {
        let quimdoral::Closing { stamp, number, elapsed, total_packets, total_octets } = said;
        Closing { stamp, number: number.0, elapsed: elapsed.0, total_packets: total_packets.0, total_octets: total_octets.0 }
    }
}

impl From<quimdoral::Frame<'_>> for Frame {
    fn from(said: quimdoral::Frame) -> Frame {
        match said {
            quimdoral::Frame::Data(quimdoral::Data { stamp, number, elapsed, payload }) => {
                Frame::Data(Data { stamp, number: number.0, elapsed: elapsed.0, length: payload.len() as u32 })
            }
            quimdoral::Frame::Closing(closing) => Frame::Closing(closing.into()),
            quimdoral::Frame::ClosingWithLengths(closing) => Frame::ClosingWithLengths(closing.into()),
        }
    }
}

/// Why a frame is not read or heard: the refusal's number, and with 4 and 7 "the check found and the check worked out"; with any other
/// number both are 0.
#[derive(Clone, Copy, Debug, PartialEq, Eq)]
pub struct Refused {
    pub number: u8,
    pub found: u16,
    pub worked_out: u16,
}

impl From<u8> for Refused {
    fn from(number: u8) -> Refused {
        Refused { number, found: 0, worked_out: 0 }
    }
}

impl From<Refused> for u8 {
    fn from(refused: Refused) -> u8 {
        refused.number
    }
}

impl From<ReadRefusal> for Refused {
    fn from(said: ReadRefusal) -> Refused {
        match said {
            ReadRefusal::Refused(refusal) => Refused::from(refusal.number()),
            ReadRefusal::HeaderCheck(Checks { found, worked_out }) => Refused { number: 4, found, worked_out },
            ReadRefusal::PayloadCheck(Checks { found, worked_out }) => Refused { number: 7, found, worked_out },
        }
    }
}

/// A refusal that has nothing to tell but its number.
pub fn refused<T>(number: u8) -> Result<T, Refused> {
    Err(number.into())
}

/// A check found has to be the check worked out.
fn same_check(number: u8, found: u16, worked_out: u16) -> Result<(), Refused> {
    if found == worked_out { Ok(()) } else { Err(Refused { number, found, worked_out }) }
}

/// What the library read, or why it did not.
pub fn told(frame: &[u8]) -> Result<Frame, Refused> {
    quimdoral::frames::read(frame).map(Frame::from).map_err(Refused::from)
}

pub struct Reader {
    header: HeaderTable,
    payload: Tables,
}

fn number(octets: &[u8]) -> u64 {
    octets.iter().fold(0, |sum, &octet| sum << 8 | u64::from(octet))
}

/// The i-th length of 12 bits in a Type 3 frame.
pub fn length_at(frame: &[u8], i: usize) -> u64 {
    let at = 19 + i / 2 * 3;
    let three = number(&[frame[at], frame[at + 1], frame.get(at + 2).copied().unwrap_or(0)]);
    if i % 2 == 0 { three >> 12 } else { three & 0xFFF }
}

/// How many of the octets behind the checks of a data PDU are its payload: as many as their IP header states, where that is up to four
/// fewer than are there and not fewer than the header has itself; otherwise all of them.
pub fn kept(behind: &[u8]) -> usize {
    let there = behind.len();
    let Some(&first) = behind.first() else { return 0 };
    let two = |at: usize| usize::from(u16::from_be_bytes([behind[at], behind[at + 1]]));
    let (own, stated) = match first >> 4 {
        4 if there >= 20 => (4 * usize::from(first & 15), two(2)),
        6 if there >= 40 => (40, 40 + two(4)),
        _ => return there,
    };
    if own >= 20 && stated >= own && stated <= there && there - stated <= 4 { stated } else { there }
}

/// The type of a frame that has its type's least size.
fn kind_of(frame: &[u8]) -> Result<u8, Refused> {
    let Some(&first) = frame.first() else { return refused(1) };
    let kind = first >> 4;
    let least = match kind {
        0 => 18,
        1 => 11,
        2 => return refused(2),
        3 => 19,
        _ => return refused(3),
    };
    if frame.len() < least { refused(1) } else { Ok(kind) }
}

/// What a closing PDU says, where its totals are possible.
fn closing(frame: &[u8]) -> Result<Closing, Refused> {
    let (stamp, packet, elapsed) = (number(&frame[1..3]), number(&frame[3..5]), number(&frame[5..9]));
    let (packets, octets) = (number(&frame[9..12]), number(&frame[12..17]));
    if packets < packet || octets < elapsed || octets - elapsed > 4_095 * (packets - packet) {
        return refused(8);
    }
    Ok(Closing { stamp: stamp as u32, number: packet as u32, elapsed, total_packets: packets as u32, total_octets: octets })
}

fn closing_with_lengths(frame: &[u8], packets: usize, elapsed: u64) -> Result<Frame, Refused> {
    let said = closing(frame)?;
    if (0..packets).map(|i| length_at(frame, i)).sum::<u64>() == elapsed { Ok(Frame::ClosingWithLengths(said)) } else { refused(8) }
}

impl Reader {
    pub fn new() -> Reader {
        Reader { header: HeaderTable::new(), payload: Tables::new() }
    }

    pub fn control(kind: u8) -> usize {
        if kind == 1 { 9 } else { 17 }
    }

    /// Writes the right checks into a frame, over whatever stands there.
    pub fn seal(&self, frame: &mut [u8]) {
        let kind = frame[0] >> 4;
        let n = Reader::control(kind);
        let header = self.header.by_octets(&frame[..n]);
        if kind == 0 {
            frame[n] = header << 2 | frame[n] & 3;
        } else {
            let payload = self.payload.by_slices::<16>(&frame[n + 2..]);
            frame[n] = header << 2 | (payload >> 8) as u8;
            frame[n + 1] = payload as u8;
        }
    }

    pub fn read(&self, frame: &[u8]) -> Result<Frame, Refused> {
        let kind = kind_of(frame)?;
        let n = Reader::control(kind);
        same_check(4, u16::from(frame[n] >> 2), u16::from(self.header.by_octets(&frame[..n])))?;
        let stamp = number(&frame[1..3]);
        if stamp > 59_999 {
            return refused(5);
        }
        let (packet, elapsed) = (number(&frame[3..5]), number(&frame[5..9]));
        let filled = (3 * packet as usize).div_ceil(2);
        let length = if kind == 1 { kept(&frame[11..]) } else { 0 };
        let size_right = match kind {
            0 => frame.len() == 18,
            1 => length <= 4_095,
            _ => (19 + filled..=19 + filled + 4).contains(&frame.len()),
        };
        if !size_right {
            return refused(6);
        }
        if kind != 0 {
            same_check(7, number(&frame[n..n + 2]) as u16 & 0x3FF, self.payload.by_slices::<16>(&frame[n + 2..]))?;
        }
        if elapsed > 4_095 * packet || kind == 1 && packet == 65_535 {
            return refused(8);
        }
        match kind {
            0 => closing(frame).map(Frame::Closing),
            1 => Ok(Frame::Data(Data { stamp: stamp as u32, number: packet as u32, elapsed, length: length as u32 })),
            _ => closing_with_lengths(frame, packet as usize, elapsed),
        }
    }
}
