//! Sequences, what records hold of them, and the ways to damage a record, the same in every run.
#![allow(dead_code)]

use crate::frames::Reader;
use crate::peers::Noise;
use crate::records::Written;
use crate::{generate, payloads};
use quimdoral::lent::{Held, Lists};
use quimdoral::{Key, Refusal};
use std::fmt;

pub const LONGEST: u64 = 4_095;

pub fn below(noise: &mut Noise, limit: u64) -> u64 {
    (noise.next() >> 8) % limit
}

pub fn one_in(noise: &mut Noise, times: u64) -> bool {
    below(noise, times) == 0
}

/// The number, or one next to it.
pub fn next_to(noise: &mut Noise, number: u64) -> u64 {
    number.saturating_add(below(noise, 3)).saturating_sub(1)
}

/// Writes to a record that a packet was heard.
pub fn put(record: &mut Written, place: usize, elapsed: u64, size: u64) {
    record.marks[place] = 1;
    record.elapsed[place] = elapsed as u32;
    record.sizes[place] = size as u16;
}

pub fn lists(record: &mut Written) -> Lists<'_> {
    Lists { head: &mut record.head, marks: &mut record.marks, elapsed: &mut record.elapsed, sizes: &mut record.sizes }
}

pub fn held(record: &Written) -> Held<'_> {
    Held { head: &record.head, marks: &record.marks, elapsed: &record.elapsed, sizes: &record.sizes }
}

/// One sequence, and the frames that it and its like could send.
pub struct Sequence {
    pub key: Key,
    pub lengths: Vec<u64>,
}

impl Sequence {
    pub fn any(noise: &mut Noise, most: u64) -> Sequence {
        let wide = one_in(noise, 2);
        let packets = below(noise, most + 1);
        let lengths = (0..packets).map(|_| any_length(noise, wide)).collect();
        let stamp = [0, 1, 59_999, below(noise, 60_000) as u32][below(noise, 4) as usize];
        let bearer = [0, 7, u32::MAX, noise.next() as u32][below(noise, 4) as usize];
        Sequence { key: Key { bearer, period: noise.next() as u32, stamp }, lengths }
    }

    pub fn octets(&self, packets: usize) -> u64 {
        self.lengths[..packets].iter().sum()
    }

    pub fn data(&self, reader: &Reader, packet: usize) -> Vec<u8> {
        generate::data(reader, self.key.stamp, packet as u64, self.octets(packet), self.lengths[packet] as usize)
    }

    /// The same packet as an IP packet, where it is long enough, and with 0 to 4 octets behind it, which do not count.
    pub fn extended(&self, noise: &mut Noise, reader: &Reader, packet: usize) -> Vec<u8> {
        let payload = payloads::extended(noise, self.lengths[packet] as usize);
        generate::data_with(reader, self.key.stamp, packet as u64, self.octets(packet), &payload)
    }

    /// One of the packets with octets of any kind: by the length that a reader takes, it seldom is the packet that was sent.
    pub fn replaced(&self, noise: &mut Noise, reader: &Reader) -> Vec<u8> {
        let packet = below(noise, self.lengths.len() as u64 + 1) as usize;
        generate::data_with(reader, self.key.stamp, packet as u64, self.octets(packet), &payloads::any(noise))
    }

    pub fn closing(&self, reader: &Reader) -> Vec<u8> {
        generate::closing(reader, self.key.stamp, self.lengths.len() as u64, self.octets(self.lengths.len()))
    }

    pub fn closing_with_lengths(&self, reader: &Reader) -> Vec<u8> {
        generate::closing_with_lengths(reader, self.key.stamp, &self.lengths)
    }

    /// A frame that belongs to the sequence.
    pub fn good(&self, noise: &mut Noise, reader: &Reader) -> Vec<u8> {
        let packets = self.lengths.len() as u64;
        match below(noise, packets + 2) {
            packet if packet < packets && one_in(noise, 2) => self.data(reader, packet as usize),
            packet if packet < packets => self.extended(noise, reader, packet as usize),
            place if place == packets => self.closing(reader),
            _ => self.closing_with_lengths(reader),
        }
    }

    /// A sequence that differs in one length, or has one packet more or less.
    pub fn almost(&self, noise: &mut Noise) -> Sequence {
        let mut lengths = self.lengths.clone();
        let place = below(noise, lengths.len() as u64 + 1) as usize;
        if place == lengths.len() {
            lengths.push(below(noise, 2));
        } else if one_in(noise, 3) {
            lengths.pop();
        } else {
            lengths[place] = next_to(noise, lengths[place]).min(LONGEST);
        }
        Sequence { key: self.key, lengths }
    }

    /// What a record of a capacity holds after some of the frames came: of each packet number, all, most, few or none.
    pub fn part_of(&self, noise: &mut Noise, capacity: usize) -> Written {
        let Key { bearer, period, stamp } = self.key;
        let mut record = Written::empty(bearer, period, stamp, capacity);
        let (heard, of) = [(1, 1), (9, 10), (1, 2), (1, 5), (0, 1)][below(noise, 5) as usize];
        let mut elapsed = 0;
        for (place, &length) in self.lengths.iter().enumerate().take(capacity) {
            if below(noise, of) < heard {
                put(&mut record, place, elapsed, length);
            }
            elapsed += length;
        }
        if self.lengths.len() <= capacity && one_in(noise, 2) {
            record.head[3..].copy_from_slice(&[1, self.lengths.len() as u64, elapsed]);
        }
        record
    }

    /// The closing with its numbers, or those next to them, or with its lengths in other places, which a record does not keep.
    pub fn near_closing(&self, noise: &mut Noise, reader: &Reader) -> Vec<u8> {
        let packets = self.lengths.len();
        if one_in(noise, 4) {
            let turned: Vec<u64> = self.lengths.iter().rev().copied().collect();
            return generate::closing_with_lengths(reader, self.key.stamp, &turned);
        }
        let (n, octets) = (next_to(noise, packets as u64), next_to(noise, self.octets(packets)));
        generate::closing(reader, self.key.stamp, n, octets)
    }
}

pub fn any_length(noise: &mut Noise, wide: bool) -> u64 {
    match below(noise, 8) {
        0 => 0,
        1 => 1,
        2 => below(noise, 100),
        3 => 18 + below(noise, 30),
        _ if wide => LONGEST - below(noise, 2) * below(noise, 2),
        _ => below(noise, 20),
    }
}

/// A packet at a bound that a heard packet, the start or the closing sets, or just outside it: its number, elapsed octets and length.
pub fn at_a_bound(noise: &mut Noise, record: &Written) -> (u64, u64, u64) {
    let capacity = record.marks.len() as u64;
    let packet = below(noise, capacity.max(1));
    let size = any_length(noise, true);
    let other = below(noise, capacity + 1);
    let gap = |packets: u64| LONGEST * packets;
    let elapsed = if other == capacity || record.marks[other as usize] != 1 {
        let (packets, octets) = (record.head[4], record.head[5]);
        octets.saturating_sub(size + gap(packets.saturating_sub(packet + 1)) * below(noise, 2))
    } else if packet > other {
        let end = u64::from(record.elapsed[other as usize]) + u64::from(record.sizes[other as usize]);
        end + gap(packet - other - 1) * below(noise, 2)
    } else {
        let start = u64::from(record.elapsed[other as usize]);
        start.saturating_sub(size + gap(other.saturating_sub(packet + 1)) * below(noise, 2))
    };
    (packet, next_to(noise, elapsed), size)
}

pub fn any_capacity(noise: &mut Noise, packets: usize) -> usize {
    match below(noise, 4) {
        0 => packets,
        1 => packets.saturating_sub(1 + below(noise, 2) as usize),
        _ => packets + below(noise, 12) as usize,
    }
}

pub const DAMAGES: u64 = 18;

/// The number by which a record that was damaged in a way is refused; 0 where that way leaves it whole.
pub fn found_by(way: usize) -> usize {
    match way {
        10 | 11 => 14,
        12 => 0,
        _ => 13,
    }
}

/// One of the ways to damage a record. Some leave it whole now and then, which the peer has to find out too.
pub fn damage(noise: &mut Noise, record: &mut Written, way: u64) {
    let place = below(noise, record.marks.len().max(1) as u64) as usize;
    let wide = 1u64 << (32 + below(noise, 32));
    match way {
        0 => record.head[0] |= wide,
        1 => record.head[1] |= wide,
        2 => record.head[2] |= wide,
        3 => record.head[2] = [60_000, 65_535, u32::MAX.into()][below(noise, 3) as usize],
        4 => record.head[3] = [2, 256, 1 << 32, u64::MAX, wide + 1][below(noise, 5) as usize],
        5 => record.head[3] ^= 1,
        6 => record.head[4] = [record.marks.len() as u64 + 1, wide, wide | record.head[4], u64::MAX][below(noise, 4) as usize],
        7 => record.head[4] = next_to(noise, record.head[4]),
        8 => record.head[5] = next_to(noise, record.head[5]),
        9 => record.head[5] = [wide, u64::MAX, LONGEST * record.head[4] + 1][below(noise, 3) as usize],
        10 => record.head.truncate(below(noise, 6) as usize),
        11 => drop_one(noise, record),
        12 => record.head.extend([9, u64::MAX]),
        _ if place < record.marks.len() => match way {
            13 => record.marks[place] = [2, 3, 128, 254, 255][below(noise, 5) as usize],
            14 => record.marks[place] ^= 1,
            15 => record.elapsed[place] = [1, u32::MAX, noise.next() as u32][below(noise, 3) as usize],
            16 => record.sizes[place] = [1, 4_096, u16::MAX, noise.next() as u16][below(noise, 4) as usize],
            _ => {
                let place = record.marks.iter().position(|&mark| mark == 1).unwrap_or(place);
                record.elapsed[place] = next_to(noise, record.elapsed[place].into()) as u32;
                record.sizes[place] = next_to(noise, record.sizes[place].into()) as u16;
            }
        },
        _ => {}
    }
}

/// One list gets another length than the others.
pub fn drop_one(noise: &mut Noise, record: &mut Written) {
    match below(noise, 6) {
        0 => record.marks.push(0),
        1 => record.elapsed.push(0),
        2 => record.sizes.push(0),
        3 => drop(record.marks.pop()),
        4 => drop(record.elapsed.pop()),
        _ => drop(record.sizes.pop()),
    }
}

/// An answer of the library with the refusal's number, as the peers give it.
pub fn numbered<T>(answer: Result<T, Refusal>) -> Result<T, u8> {
    answer.map_err(Refusal::number)
}

/// How often each answer came, by the refusal's number.
pub struct Tally(pub [usize; 256]);

impl Default for Tally {
    fn default() -> Tally {
        Tally([0; 256])
    }
}

/// The numbers that came, and how often.
impl fmt::Debug for Tally {
    fn fmt(&self, f: &mut fmt::Formatter<'_>) -> fmt::Result {
        f.debug_map().entries(self.0.iter().enumerate().filter(|&(_, &times)| times > 0)).finish()
    }
}

impl Tally {
    pub fn add(&mut self, answer: Result<(), impl Into<u8>>) {
        self.0[usize::from(answer.err().map_or(0, Into::into))] += 1;
    }

    pub fn calls(&self) -> usize {
        self.0.iter().sum()
    }

    pub fn came(&self, numbers: &[usize], times: usize) -> bool {
        numbers.iter().all(|&number| self.0[number] > times)
    }
}
