//! Frames of every kind, good and damaged, the same in every run.
#![allow(dead_code)]

use crate::frames::Reader;
use crate::payloads;
use crate::peers::Noise;

fn put(frame: &mut [u8], at: usize, width: usize, value: u64) {
    frame[at..at + width].copy_from_slice(&value.to_be_bytes()[8 - width..]);
}

/// A number that is often at or next to a limit.
fn near(noise: &mut Noise, limits: &[u64]) -> u64 {
    let limit = limits[noise.next() as usize % limits.len()];
    match noise.next() % 4 {
        0 => limit,
        1 => limit.saturating_sub(1),
        2 => limit + 1,
        _ => noise.next() % (limit + 1),
    }
}

/// What stands behind the checks of a data PDU: mostly an IP packet, or nearly one.
fn payload(noise: &mut Noise) -> Vec<u8> {
    if noise.next() % 6 == 0 {
        let length = near(noise, &[0, 64, 1_400, 4_094]) as usize;
        return noise.octets(length);
    }
    payloads::any(noise)
}

/// What stands behind the checks of a Type 3 frame: the lengths, padding of any kind, and at times an extension, which may be too long.
fn packed(noise: &mut Noise, lengths: &[u64]) -> Vec<u8> {
    let mut octets = Vec::new();
    for pair in lengths.chunks(2) {
        let two = pair[0] << 12 | pair.get(1).copied().unwrap_or(noise.next() << 8 & 0xF00) & 0xFFF;
        octets.extend(&two.to_be_bytes()[5..if pair.len() == 2 { 8 } else { 7 }]);
    }
    let extension = near(noise, &[0, 4]) as usize;
    octets.extend(noise.octets(extension));
    octets
}

/// A Type 0, 1 or 3 frame whose fields lie near their limits, and whose checks are right. Half of them are data PDUs.
pub fn sealed(noise: &mut Noise, reader: &Reader) -> Vec<u8> {
    let kind = [0u8, 1, 3, 1][noise.next() as usize % 4];
    let lengths: Vec<u64> = (0..noise.next() % 20).map(|_| near(noise, &[0, 100, 4_094])).collect();
    let packet = if kind == 3 { lengths.len() as u64 } else { near(noise, &[0, 3, 4_096, 65_534]) };
    let elapsed = match noise.next() % 8 {
        0 => near(noise, &[4_095 * packet]),
        _ if kind == 3 => lengths.iter().sum(),
        _ => noise.next() % (4_095 * packet + 1),
    };
    let packets = packet + near(noise, &[0, 5, 1_000_000]);
    let octets = elapsed + near(noise, &[0, 4_095 * (packets - packet)]);
    let spare = if noise.next() % 4 == 0 { noise.next() as u8 & 15 } else { 0 };
    let mut frame = vec![kind << 4 | spare];
    frame.resize(Reader::control(kind), 0);
    put(&mut frame, 1, 2, near(noise, &[0, 59_998, 65_534]) & 0xFFFF);
    put(&mut frame, 3, 2, packet & 0xFFFF);
    put(&mut frame, 5, 4, elapsed & 0xFFFF_FFFF);
    if kind != 1 {
        put(&mut frame, 9, 3, packets & 0xFF_FFFF);
        put(&mut frame, 12, 5, octets & 0xFF_FFFF_FFFF);
    }
    frame.extend(match kind {
        0 => vec![noise.next() as u8 & 3],
        1 => [vec![0; 2], payload(noise)].concat(),
        _ => [vec![0; 2], packed(noise, &lengths)].concat(),
    });
    reader.seal(&mut frame);
    frame
}

/// Gives a frame a header check; the bits beside it stay.
pub fn put_header_check(frame: &mut [u8], check: u16) {
    let n = Reader::control(frame[0] >> 4);
    frame[n] = (check as u8) << 2 | frame[n] & 3;
}

/// Gives a frame of Type 1 or 3 a payload check; the header check stays.
pub fn put_payload_check(frame: &mut [u8], check: u16) {
    let n = Reader::control(frame[0] >> 4);
    frame[n] = frame[n] & 0xFC | (check >> 8) as u8;
    frame[n + 1] = check as u8;
}

/// Turns one bit of the checks of a frame: Type 0 has six of them, Types 1 and 3 have sixteen.
fn turn_a_check(noise: &mut Noise, frame: &mut [u8]) {
    let kind = frame[0] >> 4;
    let bit = noise.next() as usize % if kind == 0 { 6 } else { 16 };
    frame[Reader::control(kind) + bit / 8] ^= 0x80 >> (bit % 8);
}

/// Gives a frame any value for one of its checks, at times the right one. Most are payload checks, which have the most values.
fn set_a_check(noise: &mut Noise, frame: &mut [u8]) {
    let check = (noise.next() >> 32) as u16;
    if frame[0] >> 4 == 0 || noise.next() % 8 == 0 {
        put_header_check(frame, check & 0x3F);
    } else {
        put_payload_check(frame, check & 0x3FF);
    }
}

pub fn spoil_a_check(noise: &mut Noise, frame: &mut [u8]) {
    if noise.next() % 4 == 0 { turn_a_check(noise, frame) } else { set_a_check(noise, frame) }
}

/// What was done to a frame, by the place of its name.
#[rustfmt::skip]
pub const WAYS: [&str; 10] = [
    "bits turned", "cut", "longer", "sealed again after damage", "noise", "other type", "a check's bit turned", "a check set",
    "as it was", "as it was",
];

pub fn any(noise: &mut Noise, reader: &Reader) -> Vec<u8> {
    any_way(noise, reader).1
}

/// A sealed frame, mostly with something done to it, and which of the ways it was.
pub fn any_way(noise: &mut Noise, reader: &Reader) -> (usize, Vec<u8>) {
    let mut frame = sealed(noise, reader);
    let way = noise.next() as usize % WAYS.len();
    match way {
        0 => {
            for _ in 0..=noise.next() % 3 {
                let bit = noise.next() as usize % (8 * frame.len());
                frame[bit / 8] ^= 1 << (bit % 8);
            }
        }
        1 => frame.truncate(noise.next() as usize % (frame.len() + 1)),
        2 => {
            let more = noise.next() as usize % 7;
            frame.extend(noise.octets(more));
        }
        3 => {
            let at = 1 + noise.next() as usize % (frame.len() - 1);
            frame[at] = noise.next() as u8;
            reader.seal(&mut frame);
        }
        4 => {
            let length = noise.next() as usize % 40;
            frame = noise.octets(length);
        }
        5 => frame[0] ^= (noise.next() as u8) << 4,
        6 => turn_a_check(noise, &mut frame),
        7 => set_a_check(noise, &mut frame),
        _ => {}
    }
    (way, frame)
}

/// A data PDU with right checks.
pub fn data_with(reader: &Reader, stamp: u32, packet: u64, elapsed: u64, payload: &[u8]) -> Vec<u8> {
    let mut frame = [&[0; 11], payload].concat();
    frame[0] = 0x10;
    put(&mut frame, 1, 2, stamp.into());
    put(&mut frame, 3, 2, packet);
    put(&mut frame, 5, 4, elapsed);
    reader.seal(&mut frame);
    frame
}

/// The same where only the payload's length matters. It is one octet repeated, so as an IP header it would state far more than is there.
pub fn data(reader: &Reader, stamp: u32, packet: u64, elapsed: u64, length: usize) -> Vec<u8> {
    data_with(reader, stamp, packet, elapsed, &vec![packet as u8; length])
}

/// The control part of a closing PDU in a period with two packets and 100 octets before this sequence.
fn closing_control(kind: u8, stamp: u32, packets: u64, octets: u64) -> Vec<u8> {
    let mut frame = vec![0; 17];
    frame[0] = kind << 4;
    put(&mut frame, 1, 2, stamp.into());
    put(&mut frame, 3, 2, packets);
    put(&mut frame, 5, 4, octets);
    put(&mut frame, 9, 3, packets + 2);
    put(&mut frame, 12, 5, octets + 100);
    frame
}

/// A Type 0 closing with right checks.
pub fn closing(reader: &Reader, stamp: u32, packets: u64, octets: u64) -> Vec<u8> {
    let mut frame = closing_control(0, stamp, packets, octets);
    frame.push(0);
    reader.seal(&mut frame);
    frame
}

/// A Type 3 closing with right checks, and the lengths' sum as its octets.
pub fn closing_with_lengths(reader: &Reader, stamp: u32, lengths: &[u64]) -> Vec<u8> {
    let mut frame = closing_control(3, stamp, lengths.len() as u64, lengths.iter().sum());
    frame.extend([0, 0]);
    for pair in lengths.chunks(2) {
        let two = pair[0] << 12 | pair.get(1).unwrap_or(&0);
        frame.extend(&two.to_be_bytes()[5..if pair.len() == 2 { 8 } else { 7 }]);
    }
    reader.seal(&mut frame);
    frame
}
