//! Reading and writing frames beside plain Rust: same frames, same run, rounds taken in turn, the best round of each counts.
#[path = "../peers/frames.rs"]
mod frames;
#[path = "../peers/payloads.rs"]
mod payloads;
#[path = "../peers/checks.rs"]
mod peers;

use frames::{Reader, told};
use payloads::{NO_PACKET, Shape};
use peers::Noise;
use quimdoral::frames::read;
use quimdoral::{Data, Octets, Packets};
use std::hint::black_box;
use std::time::Instant;

const ROUNDS: usize = 60;

/// A data PDU as a plain Rust program writes it: refusals first, then the fields, the payload and both checks, by tables.
fn write_plainly(reader: &Reader, data: &Data, out: &mut [u8]) -> Result<usize, u8> {
    let (number, elapsed, payload) = (data.number.0, data.elapsed.0, data.payload);
    if data.stamp > 59_999 {
        return Err(5);
    }
    if payload.len() > 4_095 {
        return Err(20);
    }
    if number > 65_534 || elapsed > 4_095 * u64::from(number) {
        return Err(8);
    }
    let size = 11 + payload.len();
    if out.len() < size {
        return Err(12);
    }
    out[0] = 0x10;
    out[1..3].copy_from_slice(&(data.stamp as u16).to_be_bytes());
    out[3..5].copy_from_slice(&(number as u16).to_be_bytes());
    out[5..9].copy_from_slice(&(elapsed as u32).to_be_bytes());
    out[11..size].copy_from_slice(payload);
    reader.seal(&mut out[..size]);
    Ok(size)
}

/// Calls in a round, so that rounds take about the same time.
fn calls(payload: usize) -> usize {
    400_000 / (payload + 40) + 50
}

/// Nanoseconds a call of both, the best of their rounds.
fn race(calls: usize, mut ours: impl FnMut(), mut plain: impl FnMut()) -> (f64, f64) {
    let (mut best, mut other) = (f64::INFINITY, f64::INFINITY);
    for _ in 0..ROUNDS {
        let start = Instant::now();
        (0..calls).for_each(|_| ours());
        best = best.min(start.elapsed().as_nanos() as f64 / calls as f64);
        let start = Instant::now();
        (0..calls).for_each(|_| plain());
        other = other.min(start.elapsed().as_nanos() as f64 / calls as f64);
    }
    (best, other)
}

fn tell(payload: usize, kind: &str, (ours, plain): (f64, f64)) {
    println!(
        "{payload:>6} octets{kind}: ours {ours:.1} ns ({:.1} million frames a second), plain Rust with slice-by-16 {plain:.1} ns = {:.2}x",
        1_000.0 / ours,
        plain / ours
    );
}

fn race_reading(reader: &Reader, payload: usize, shape: Shape) {
    let mut frame = vec![0; 11];
    frame[0] = 0x10;
    frame.extend(shape.octets(payload));
    reader.seal(&mut frame);
    assert!(read(&frame).is_ok_and(|said| matches!(said, quimdoral::Frame::Data(data) if data.payload.len() == payload)));
    assert_eq!(told(&frame), reader.read(&frame));
    let ours = || {
        let _ = black_box(read(black_box(&frame)));
    };
    let plain = || {
        let _ = black_box(reader.read(black_box(&frame)));
    };
    tell(payload, &format!(", {}", shape.name), race(calls(payload), ours, plain));
}

fn race_writing(reader: &Reader, payload: usize) {
    let octets = Noise(6).octets(payload);
    let data = Data { stamp: 4_200, number: Packets(7), elapsed: Octets(7_000), payload: &octets };
    let (mut out, mut other) = (vec![0u8; 4_200], vec![0u8; 4_200]);
    assert_eq!(data.write(&mut out).ok(), write_plainly(reader, &data, &mut other).ok());
    assert_eq!(out, other);
    let ours = || {
        let _ = black_box(black_box(&data).write(black_box(&mut out)));
    };
    let plain = || {
        let _ = black_box(write_plainly(reader, black_box(&data), black_box(&mut other)));
    };
    tell(payload, "", race(calls(payload), ours, plain));
}

fn main() {
    let reader = Reader::new();
    println!("reading a data PDU; buffers are warm and were not cleared; best of {ROUNDS} rounds");
    for payload in [0, 64, 1_400, 4_095] {
        race_reading(&reader, payload, NO_PACKET);
    }
    for payload in [64, 1_400] {
        payloads::PACKETS.iter().for_each(|&packet| race_reading(&reader, payload, packet));
    }
    println!("writing a data PDU into a lent buffer; it is warm and was not cleared");
    for payload in [0, 64, 1_400, 4_095] {
        race_writing(&reader, payload);
    }
}
