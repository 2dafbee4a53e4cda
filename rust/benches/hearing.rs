//! Hearing data PDUs beside a plain Rust record: same frames, same run, rounds taken in turn, the best round of each counts.
//!
//! Both clear three lists of one layout and then go over the same frames, each right after the other. The call that judges the whole record
//! each time takes far longer, so it is timed apart and does not come between the two.
#[path = "../peers/frames.rs"]
mod frames;
#[path = "../peers/generate.rs"]
mod generate;
#[path = "../peers/payloads.rs"]
mod payloads;
#[path = "../peers/checks.rs"]
mod peers;
#[path = "../peers/records.rs"]
mod records;

use frames::Reader;
use quimdoral::Key;
use quimdoral::lent::{self, Lists};
use records::PlainRecord;
use std::hint::black_box;
use std::time::Instant;

const PAYLOAD: usize = 64;
const KEY: Key = Key { bearer: 7, period: 3, stamp: 0 };

/// Frames one behind the other, in the order in which they are heard.
struct Heard {
    numbers: Vec<usize>,
    octets: Vec<u8>,
    ends: Vec<u32>,
}

impl Heard {
    fn new(reader: &Reader, numbers: Vec<usize>) -> Heard {
        let (mut octets, mut ends) = (Vec::new(), Vec::new());
        for &number in &numbers {
            octets.extend(generate::data(reader, KEY.stamp, number as u64, (PAYLOAD * number) as u64, PAYLOAD));
            ends.push(octets.len() as u32);
        }
        Heard { numbers, octets, ends }
    }

    /// Each frame with its number. All are of one size.
    fn frames(&self) -> impl Iterator<Item = (usize, &[u8])> {
        self.numbers.iter().copied().zip(self.octets.chunks_exact(11 + PAYLOAD))
    }
}

/// The memory of one record, used again in every round.
struct Memory {
    head: [u64; 6],
    marks: Vec<u8>,
    elapsed: Vec<u32>,
    sizes: Vec<u16>,
}

impl Memory {
    fn new(capacity: usize) -> Memory {
        Memory { head: [0; 6], marks: vec![0; capacity], elapsed: vec![0; capacity], sizes: vec![0; capacity] }
    }

    fn lists(&mut self) -> Lists<'_> {
        Lists { head: &mut self.head, marks: &mut self.marks, elapsed: &mut self.elapsed, sizes: &mut self.sizes }
    }

    /// What hearing a frame would write.
    fn put(&mut self, number: usize) {
        self.marks[number] = 1;
        self.elapsed[number] = (PAYLOAD * number) as u32;
        self.sizes[number] = PAYLOAD as u16;
    }

    fn holds_same(&self, plain: &PlainRecord) -> bool {
        self.marks.iter().map(|&mark| mark == 1).eq(plain.marks.iter().copied())
            && (&self.elapsed, &self.sizes) == (&plain.elapsed, &plain.sizes)
    }
}

fn nanoseconds(start: Instant, frames: usize) -> f64 {
    start.elapsed().as_nanos() as f64 / frames as f64
}

/// The public call, which judges the whole record each time. Only one frame in `step` goes through it; the others are put into the
/// lists directly, so that a round at a great capacity stays short and still meets records from empty to full.
fn public(memory: &mut Memory, heard: &Heard, step: usize) -> f64 {
    let start = Instant::now();
    assert_eq!(lent::fresh(KEY, memory.lists()), Ok(()));
    for (place, (number, frame)) in heard.frames().enumerate() {
        if place % step == 0 {
            let answer = lent::hear(memory.lists(), KEY.bearer, KEY.period, black_box(frame));
            assert_eq!(answer, Ok(()));
        } else {
            memory.put(number);
        }
    }
    nanoseconds(start, heard.numbers.len().div_ceil(step))
}

fn plain(record: &mut PlainRecord, reader: &Reader, heard: &Heard) -> f64 {
    let start = Instant::now();
    record.clear();
    for (_, frame) in heard.frames() {
        let answer = record.hear(reader, KEY.bearer, KEY.period, black_box(frame));
        assert_eq!(answer, Ok(()));
    }
    nanoseconds(start, heard.numbers.len())
}

/// The internal path: all frames heard in one call, into a record that no one else can have damaged.
fn in_one_call(memory: &mut Memory, heard: &Heard) -> f64 {
    let mut answers = vec![255; heard.ends.len()];
    let start = Instant::now();
    let answer = lent::hear_all(KEY, memory.lists(), black_box(&heard.octets), &heard.ends, &mut answers);
    let time = nanoseconds(start, heard.ends.len());
    assert_eq!(answer, Ok(()));
    assert!(answers.iter().all(|&answer| answer == 0));
    time
}

/// Nanoseconds a frame, the best round of each.
struct Best {
    public: f64,
    one_call: f64,
    plain: f64,
}

/// How many rounds are taken: of the two that are compared, and of the call that judges the whole record.
struct Rounds {
    compared: usize,
    public: usize,
}

fn race(reader: &Reader, heard: &Heard, capacity: usize, step: usize, rounds: &Rounds) -> Best {
    let mut memory = Memory::new(capacity);
    let mut record = PlainRecord::fresh(KEY.bearer, KEY.period, KEY.stamp, capacity);
    let mut best = Best { public: f64::INFINITY, one_call: f64::INFINITY, plain: f64::INFINITY };
    for _ in 0..rounds.compared {
        best.plain = best.plain.min(plain(&mut record, reader, heard));
        best.one_call = best.one_call.min(in_one_call(&mut memory, heard));
        assert!(memory.holds_same(&record), "the records differ");
    }
    for _ in 0..rounds.public {
        best.public = best.public.min(public(&mut memory, heard, step));
        assert!(memory.holds_same(&record), "the records differ");
    }
    best
}

fn main() {
    let reader = Reader::new();
    println!("hearing data PDUs of {PAYLOAD} octets, time a frame, a fresh record counted in; buffers are warm; best round");
    for (capacity, step, rounds) in [
        (512, 1, Rounds { compared: 1_000, public: 400 }),
        (4_096, 1, Rounds { compared: 400, public: 60 }),
        (65_535, 64, Rounds { compared: 100, public: 20 }),
    ] {
        for (order, numbers) in [
            ("in order", (0..capacity).collect::<Vec<_>>()),
            ("reversed", (0..capacity).rev().collect()),
            ("one in ten lost", (0..capacity).filter(|number| number % 10 != 3).collect()),
        ] {
            let heard = Heard::new(&reader, numbers);
            let Best { public, one_call, plain } = race(&reader, &heard, capacity, step, &rounds);
            println!(
                "{capacity:>6} places, {order:>15}: any record {public:.1} ns, plain Rust {plain:.1} ns = {:.4}x; in one call {one_call:.1} ns, plain Rust = {:.2}x",
                plain / public,
                plain / one_call
            );
        }
    }
}
