//! Compiled writing beside frames put together bit by bit: fields within their limits, at them and beyond, output too short, and the way
//! back by reading.
use crate::counted::{LISTED, WRITTEN};
use crate::fences::Fenced;
use crate::frames::{Closing, Reader, Refused, kept, length_at, refused};
use crate::peers::Noise;
use crate::sequences::{Tally, any_length, below, next_to, numbered, one_in};
use crate::writing::{write_closing, write_data, write_with_lengths};
use crate::{generate, payloads};
use quimdoral::{Data, Frame, Octets, Packets, Refusal, frames};
use std::fmt::Debug;
use std::hint::black_box;

pub fn one_of<T: Copy>(noise: &mut Noise, all: &[T]) -> T {
    all[below(noise, all.len() as u64) as usize]
}

/// Room for so much, or for a little more or less, or none.
pub fn any_room(noise: &mut Noise, needed: usize) -> usize {
    match below(noise, 12) {
        0 => needed.saturating_sub(1),
        1 => below(noise, needed as u64 + 1) as usize,
        2 => 0,
        _ => needed + one_of(noise, &[0, 0, 1, 5]),
    }
}

/// Writes with the library into memory full of noise, and compares the answer and all memory with what is expected, fences included.
pub fn write_alike(
    noise: &mut Noise,
    room: usize,
    input: impl Debug,
    expected: Result<Vec<u8>, u8>,
    write: impl FnOnce(&mut [u8]) -> Result<usize, Refusal>,
) -> Result<Vec<u8>, u8> {
    let mut memory = noise.octets(room);
    let mut ours = Fenced::around(&memory);
    let answer = numbered(write(ours.lent()));
    assert_eq!(answer, expected.as_ref().map(Vec::len).map_err(|&number| number), "room {room}, {input:02X?}");
    if let Ok(frame) = &expected {
        memory[..frame.len()].copy_from_slice(frame);
    }
    assert!(ours == Fenced::around(&memory), "the memory differs: room {room}, {input:02X?}, ours {ours:02X?}, expected {memory:02X?}");
    expected
}

fn any_stamp(noise: &mut Noise) -> u32 {
    match below(noise, 8) {
        0 => one_of(noise, &[0, 59_999]),
        1 => one_of(noise, &[60_000, 60_001, 65_535, 65_536, u32::MAX]),
        _ => below(noise, 60_000) as u32,
    }
}

/// A count within a limit, at it, next to it, or far beyond.
fn count_up_to(noise: &mut Noise, limit: u64) -> u64 {
    match below(noise, 12) {
        0 => limit,
        1 => limit + 1,
        2 => one_of(noise, &[u64::MAX, 1 << 32, (1 << 32) - 1, 1 << 40, limit.saturating_mul(1 << 16)]),
        3 => next_to(noise, limit),
        4 => 0,
        _ => below(noise, limit + 1),
    }
}

/// A count of packets, which is given in 32 bits.
fn packets_up_to(noise: &mut Noise, limit: u64) -> u32 {
    count_up_to(noise, limit).min(u32::MAX.into()) as u32
}

fn any_payload(noise: &mut Noise) -> Vec<u8> {
    if one_in(noise, 3) {
        return payloads::any(noise);
    }
    let length = match below(noise, 20) {
        0 => one_of(noise, &[4_094, 4_095, 4_096, 4_097]),
        1 if one_in(noise, 10) => one_of(noise, &[5_000, 65_535, 65_536, 70_000]),
        2 => below(noise, 4_096) as usize,
        3..=5 => 0,
        _ => below(noise, 90) as usize,
    };
    noise.octets(length)
}

/// A payload is written whole, and read back as far as it is kept. Counts those that are read back shorter.
fn data_alike(noise: &mut Noise, shorter: &mut usize) -> Result<(), u8> {
    let most = one_of(noise, &[3, 100, 65_534, 65_534]);
    let (stamp, number) = (any_stamp(noise), packets_up_to(noise, most));
    let elapsed = count_up_to(noise, 4_095 * u64::from(number));
    let payload = any_payload(noise);
    let room = any_room(noise, 11 + payload.len());
    let expected = write_data(stamp, number, elapsed, &payload, room);
    let mut given = Fenced::around(&payload);
    let data = Data { stamp, number: Packets(number), elapsed: Octets(elapsed), payload: given.lent() };
    let input = (stamp, number, elapsed, payload.len());
    let written = write_alike(noise, room, input, expected, |out| data.write(out));
    let in_a_list = numbered(data.to_vec());
    assert!(in_a_list == written || written == Err(12) && in_a_list.is_ok(), "{input:?}");
    if let Ok(frame) = &written {
        let payload = &payload[..kept(&payload)];
        assert_eq!(frames::payload_kept(data.payload), payload.len(), "{frame:02X?}");
        assert_eq!(frames::read(frame), Ok(Frame::Data(Data { payload, ..data })), "read again: {frame:02X?}");
        *shorter += usize::from(payload.len() < data.payload.len());
    }
    assert!(*black_box(&mut given) == Fenced::around(&payload), "the payload was written to");
    written.map(|_| ())
}

#[test]
fn data_is_written_alike() {
    let (mut noise, mut tally, mut shorter) = (Noise(81), Tally::default(), 0);
    for _ in 0..WRITTEN[0] {
        tally.add(data_alike(&mut noise, &mut shorter));
    }
    assert!(tally.calls() == WRITTEN[0] && tally.came(&[0, 5, 8, 12, 20], 2_000), "{tally:?}");
    assert!(shorter > 2_000, "{shorter} read back shorter");
}

fn given(closing: &Closing) -> quimdoral::Closing {
    let Closing { stamp, number, elapsed, total_packets, total_octets } = *closing;
    quimdoral::Closing {
        stamp,
        number: Packets(number),
        elapsed: Octets(elapsed),
        total_packets: Packets(total_packets),
        total_octets: Octets(total_octets),
    }
}

/// Totals that go with a sequence, or lie at or beyond a bound that it sets.
fn any_totals(noise: &mut Noise, number: u64, elapsed: u64) -> (u32, u64) {
    let others = packets_up_to(noise, 0xFF_FFFF_u64.saturating_sub(number));
    let octets = count_up_to(noise, 4_095 * u64::from(others));
    let packets = match below(noise, 12) {
        0 => next_to(noise, number),
        1 => one_of(noise, &[0, 0xFF_FFFF, 0x100_0000, u32::MAX.into()]),
        _ => number + u64::from(others),
    };
    let octets = if one_in(noise, 12) { next_to(noise, elapsed) } else { elapsed.saturating_add(octets) };
    (packets.min(u32::MAX.into()) as u32, octets)
}

fn any_closing(noise: &mut Noise) -> Closing {
    let most = one_of(noise, &[3, 100, 65_535, 65_535]);
    let (stamp, number) = (any_stamp(noise), packets_up_to(noise, most));
    let elapsed = count_up_to(noise, 4_095 * u64::from(number));
    let (total_packets, total_octets) = any_totals(noise, number.into(), elapsed);
    Closing { stamp, number, elapsed, total_packets, total_octets }
}

fn closing_alike(noise: &mut Noise) -> Result<(), u8> {
    let closing = any_closing(noise);
    let room = any_room(noise, 18);
    let expected = write_closing(&closing, room);
    let written = write_alike(noise, room, closing, expected, |out| given(&closing).write(out));
    let in_a_list = numbered(given(&closing).to_vec());
    assert!(in_a_list == written || written == Err(12) && in_a_list.is_ok(), "{closing:?}");
    if let Ok(frame) = &written {
        assert_eq!(frames::read(frame), Ok(Frame::Closing(given(&closing))), "read again: {frame:02X?}");
        assert_eq!(frames::lengths(frame), Ok(Vec::new()), "a Type 0 frame has no lengths: {frame:02X?}");
    }
    written.map(|_| ())
}

#[test]
fn closings_are_written_alike() {
    let (mut noise, mut tally) = (Noise(82), Tally::default());
    for _ in 0..WRITTEN[1] {
        tally.add(closing_alike(&mut noise));
    }
    assert!(tally.calls() == WRITTEN[1] && tally.came(&[0, 5, 8, 12], 5_000), "{tally:?}");
}

/// Lengths with a sum that goes with the closing, or at times one more or less, one too long, or one too many or few.
fn any_lengths(noise: &mut Noise, most: u64) -> Vec<u16> {
    let wide = one_in(noise, 2);
    (0..below(noise, most + 1)).map(|_| any_length(noise, wide) as u16).collect()
}

pub fn spoil_lengths(noise: &mut Noise, lengths: &mut Vec<u16>) {
    let place = below(noise, lengths.len().max(1) as u64) as usize;
    match below(noise, 4) {
        0 => lengths.push(one_of(noise, &[0, 0, 1, 4_095])),
        1 => drop(lengths.pop()),
        _ if lengths.is_empty() => lengths.push(u16::MAX),
        2 => lengths[place] = next_to(noise, lengths[place].into()) as u16,
        _ => lengths[place] = one_of(noise, &[4_096, 4_097, u16::MAX]),
    }
}

fn with_lengths_alike(noise: &mut Noise, most: u64) -> Result<(), u8> {
    let mut lengths = any_lengths(noise, most);
    let (number, elapsed) = (lengths.len() as u32, lengths.iter().map(|&length| u64::from(length)).sum());
    let (total_packets, total_octets) = any_totals(noise, number.into(), elapsed);
    let mut closing = Closing { stamp: any_stamp(noise), number, elapsed, total_packets, total_octets };
    if one_in(noise, 6) {
        spoil_lengths(noise, &mut lengths);
    } else if one_in(noise, 10) {
        closing = any_closing(noise);
    }
    let room = any_room(noise, 19 + (3 * lengths.len()).div_ceil(2));
    let expected = write_with_lengths(&closing, &lengths, room);
    let mut lent = Fenced::around(&lengths);
    let list: &[u16] = lent.lent();
    let written = write_alike(noise, room, (closing, &lengths), expected, |out| given(&closing).write_with_lengths(list, out));
    let in_a_list = numbered(given(&closing).to_vec_with_lengths(list));
    assert!(in_a_list == written || written == Err(12) && in_a_list.is_ok(), "{closing:?}");
    if let Ok(frame) = &written {
        assert_eq!(frames::read(frame), Ok(Frame::ClosingWithLengths(given(&closing))), "read again: {frame:02X?}");
        assert_eq!(frames::lengths(frame), Ok(lengths.clone()), "the lengths read again: {frame:02X?}");
    }
    assert!(*black_box(&mut lent) == Fenced::around(&lengths), "the lengths were written to");
    written.map(|_| ())
}

#[test]
fn closings_with_lengths_are_written_alike() {
    let (mut noise, mut tally) = (Noise(83), Tally::default());
    for round in 0..WRITTEN[2] {
        let most = if round % 1_000 == 0 { 66_000 } else { one_of(&mut noise, &[1, 4, 40]) };
        tally.add(with_lengths_alike(&mut noise, most));
    }
    assert!(tally.calls() == WRITTEN[2] && tally.came(&[0, 5, 8, 12, 22], 5_000), "{tally:?}");
}

/// A Type 3 frame with an extension, which is at times too long.
fn extended(noise: &mut Noise, reader: &Reader) -> Vec<u8> {
    let lengths: Vec<u64> = any_lengths(noise, 30).into_iter().map(u64::from).collect();
    let mut frame = generate::closing_with_lengths(reader, 7, &lengths);
    let extension = below(noise, 6) as usize;
    frame.extend(noise.octets(extension));
    reader.seal(&mut frame);
    frame
}

/// Lengths read beside the peer's, from frames good and damaged, into lists of any room.
#[test]
fn lengths_are_read_alike() {
    let (reader, mut noise, mut tally) = (Reader::new(), Noise(84), Tally::default());
    let mut lists = 0;
    for _ in 0..LISTED {
        let frame = if one_in(&mut noise, 3) { extended(&mut noise, &reader) } else { generate::any(&mut noise, &reader) };
        let read = reader.read(&frame);
        let count = if let Ok(crate::frames::Frame::ClosingWithLengths(said)) = read { said.number as usize } else { 0 };
        let lengths: Vec<u16> = (0..count).map(|place| length_at(&frame, place) as u16).collect();
        let mut memory: Vec<u16> = (0..any_room(&mut noise, count)).map(|_| noise.next() as u16).collect();
        let expected = read.and(if memory.len() < count { refused(12) } else { Ok(count) });
        let mut ours = Fenced::around(&memory);
        let answer = frames::read_lengths(&frame, ours.lent()).map_err(Refused::from);
        assert_eq!(answer, expected, "room {}, {frame:02X?}", memory.len());
        if expected.is_ok() {
            memory[..count].copy_from_slice(&lengths);
        }
        assert!(ours == Fenced::around(&memory), "the lists differ: {frame:02X?}, ours {ours:?}, expected {memory:?}");
        assert_eq!(frames::lengths(&frame).map_err(Refused::from), read.map(|_| lengths), "{frame:02X?}");
        lists += usize::from(expected.is_ok() && count > 0);
        tally.add(expected.map(|_| ()));
    }
    assert!(tally.calls() == LISTED && lists > 5_000 && tally.came(&[0, 1, 2, 3, 4, 5, 6, 7, 8, 12], 500), "{lists} lists, {tally:?}");
}

/// The frame with spare bits and padding cleared and without extension, its checks right again.
fn tidied(reader: &Reader, frame: &[u8], said: &Frame) -> Vec<u8> {
    let mut tidy = frame.to_vec();
    tidy[0] &= 0xF0;
    match said {
        Frame::Data(_) => tidy.truncate(11 + kept(&frame[11..])),
        Frame::Closing(_) => tidy[17] &= 0xFC,
        Frame::ClosingWithLengths(closing) => {
            let count = closing.number.0 as usize;
            tidy.truncate(19 + (3 * count).div_ceil(2));
            if count % 2 == 1 {
                *tidy.last_mut().expect("a length was there") &= 0xF0;
            }
        }
    }
    reader.seal(&mut tidy);
    tidy
}

/// Writing again what was read gives the same octets, but for what is not judged.
#[test]
fn what_was_read_is_written_again() {
    let (reader, mut noise) = (Reader::new(), Noise(85));
    let (mut same, mut tidier) = (0, 0);
    for _ in 0..60_000 {
        let frame = generate::sealed(&mut noise, &reader);
        let Ok(said) = frames::read(&frame) else { continue };
        let again = match said {
            Frame::Data(data) => data.to_vec(),
            Frame::Closing(closing) => closing.to_vec(),
            Frame::ClosingWithLengths(closing) => closing.to_vec_with_lengths(&frames::lengths(&frame).expect("it was read")),
        };
        assert_eq!(again, Ok(tidied(&reader, &frame, &said)), "{frame:02X?}");
        let unchanged = again.as_ref() == Ok(&frame);
        (same, tidier) = (same + usize::from(unchanged), tidier + usize::from(!unchanged));
    }
    assert!(same > 5_000 && tidier > 5_000, "{same} the same, {tidier} tidier");
}

/// The order 5, 20, 8, 22, 12: whatever else applies, the first is given.
#[test]
fn the_first_refusal_counts() {
    let mut noise = Noise(86);
    for wrong in 0..32 {
        let is_wrong = |place: u32| wrong >> place & 1 == 1;
        let first = |numbers: &[u8], places: &[u32]| {
            let refused = numbers.iter().zip(places).find(|&(_, &place)| is_wrong(place));
            refused.map_or(Ok(()), |(&number, _)| Err(number))
        };
        let (stamp, elapsed) = (if is_wrong(0) { 60_000 } else { 59_999 }, if is_wrong(2) { 4_096 } else { 4_095 });
        let (payload, short) = (vec![1; if is_wrong(1) { 4_096 } else { 4_095 }], usize::from(is_wrong(4)));
        let data = Data { stamp, number: Packets(1), elapsed: Octets(elapsed), payload: &payload };
        let room = 11 + payload.len() - short;
        let expected = write_data(stamp, 1, elapsed, &payload, room);
        let answer = write_alike(&mut noise, room, wrong, expected, |out| data.write(out));
        assert_eq!(answer.map(|_| ()), first(&[5, 20, 8, 12], &[0, 1, 2, 4]));
        let closing = Closing { stamp, number: 1, elapsed, total_packets: 1, total_octets: elapsed };
        let expected = write_closing(&closing, 18 - short);
        let answer = write_alike(&mut noise, 18 - short, wrong, expected, |out| given(&closing).write(out));
        assert_eq!(answer.map(|_| ()), first(&[5, 8, 12], &[0, 2, 4]));
        let lengths = [if is_wrong(3) { 4_094 } else { 4_095 }];
        let expected = write_with_lengths(&closing, &lengths, 21 - short);
        let answer = write_alike(&mut noise, 21 - short, wrong, expected, |out| given(&closing).write_with_lengths(&lengths, out));
        assert_eq!(answer.map(|_| ()), first(&[5, 8, 22, 12], &[0, 2, 3, 4]));
    }
}

/// Document 01's examples A to D and J; D with the payload check that the rule gives.
#[test]
fn bench_examples_are_written() {
    let data = |payload| Data { stamp: 0, number: Packets(0), elapsed: Octets(0), payload };
    assert_eq!(data(&[]).to_vec(), Ok(vec![0x10, 0, 0, 0, 0, 0, 0, 0, 0, 0x38, 0x00]));
    assert_eq!(data(&[1]).to_vec(), Ok(vec![0x10, 0, 0, 0, 0, 0, 0, 0, 0, 0x3A, 0x33, 0x01]));
    let closing = given(&Closing { stamp: 0, number: 1, elapsed: 1, total_packets: 1, total_octets: 1 });
    assert_eq!(closing.to_vec(), Ok(vec![0, 0, 0, 0, 1, 0, 0, 0, 1, 0, 0, 1, 0, 0, 0, 0, 1, 0x9C]));
    let d = vec![0x30, 0, 0, 0, 1, 0, 0, 0, 1, 0, 0, 1, 0, 0, 0, 0, 1, 0x00, 0x31, 0x00, 0x10];
    assert_eq!(closing.to_vec_with_lengths(&[1]), Ok(d));
    assert_eq!(data(&[7; 4_095]).to_vec().map(|frame| frame.len()), Ok(11 + 4_095));
    assert_eq!(data(&[7; 4_096]).to_vec(), Err(Refusal::PayloadTooLong));
}
