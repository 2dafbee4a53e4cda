//! Joins and reports beside plain Rust ones: same records, same run, rounds taken in turn, the best round of each counts.
//!
//! The plain ones do all that the library does. They judge the lists, then damage, in one pass over each record. Then the join goes
//! once along both records for the lowest packet that contradicts, and puts their bits together in one pass over each list; the
//! report makes one pass more and pushes the gaps to a list that keeps its memory.
#[path = "../peers/frames.rs"]
mod frames;
#[path = "../peers/joining.rs"]
mod joining;
#[path = "../peers/checks.rs"]
mod peers;
#[path = "../peers/records.rs"]
mod records;
#[path = "../peers/reports.rs"]
mod reports;

use joining::{JoinRefusal, plain_join};
use quimdoral::lent::{self, Held, Lent, Lists};
use quimdoral::{Refusal, Report};
use records::Written;
use reports::{Room, plain_report};
use std::hint::black_box;
use std::time::Instant;

const PAYLOAD: u64 = 64;

/// A record of a sequence whose payloads are all of one size.
fn record(capacity: usize, heard: impl Fn(usize) -> bool) -> Written {
    let mut record = Written::empty(7, 3, 0, capacity);
    for place in (0..capacity).filter(|&place| heard(place)) {
        record.marks[place] = 1;
        record.elapsed[place] = (PAYLOAD * place as u64) as u32;
        record.sizes[place] = PAYLOAD as u16;
    }
    record
}

fn lists(record: &mut Written) -> Lists<'_> {
    Lists { head: &mut record.head, marks: &mut record.marks, elapsed: &mut record.elapsed, sizes: &mut record.sizes }
}

fn held(record: &Written) -> Held<'_> {
    Held { head: &record.head, marks: &record.marks, elapsed: &record.elapsed, sizes: &record.sizes }
}

/// Nanoseconds a place, the best round of each.
struct Best {
    library: f64,
    plain: f64,
}

/// Takes rounds in turn; each gives the nanoseconds a place that it took.
fn race(rounds: usize, mut library: impl FnMut() -> f64, mut plain: impl FnMut() -> f64) -> Best {
    let mut best = Best { library: f64::INFINITY, plain: f64::INFINITY };
    for _ in 0..rounds {
        best.plain = best.plain.min(plain());
        best.library = best.library.min(library());
    }
    best
}

fn a_place(start: Instant, places: usize) -> f64 {
    start.elapsed().as_nanos() as f64 / places as f64
}

/// Two records to join, and the answer that both ways must give.
struct Pair {
    left: Written,
    right: Written,
    answer: Result<(), JoinRefusal>,
}

impl Pair {
    /// Joins into copies of the left, as many as make up the longest record, so that a round is long enough to time.
    fn time(&self, join: impl Fn(&mut Written, &Written) -> Result<(), JoinRefusal>) -> f64 {
        let capacity = self.left.marks.len();
        let mut copies = vec![self.left.clone(); 65_536 / capacity];
        let start = Instant::now();
        for left in &mut copies {
            let answer = join(black_box(left), black_box(&self.right));
            assert_eq!(answer, self.answer);
        }
        a_place(start, capacity * copies.len())
    }

    fn race(&self, rounds: usize) -> Best {
        let library = |left: &mut Written, right: &Written| lent::join(lists(left), held(right)).map_err(JoinRefusal::from);
        let (mut ours, mut theirs) = (self.left.clone(), self.left.clone());
        assert_eq!(library(&mut ours, &self.right), plain_join(&mut theirs, &self.right));
        assert!(ours == theirs, "the records differ");
        race(rounds, || self.time(library), || self.time(plain_join))
    }
}

/// Both heard nearly all: each lost one in a hundred, not the same ones.
fn dense(capacity: usize) -> Pair {
    let lost = |from: usize| move |place: usize| place % 100 != from;
    Pair { left: record(capacity, lost(3)), right: record(capacity, lost(57)), answer: Ok(()) }
}

/// Each heard one in ten, not the same ones.
fn sparse(capacity: usize) -> Pair {
    let heard = |from: usize| move |place: usize| place % 10 == from;
    Pair { left: record(capacity, heard(3)), right: record(capacity, heard(7)), answer: Ok(()) }
}

/// The left heard the last packet only, so the next one that it heard is far from each packet of the right.
fn lopsided(capacity: usize) -> Pair {
    Pair { left: record(capacity, |place| place + 1 == capacity), right: record(capacity, |_| true), answer: Ok(()) }
}

/// Both heard all, and only the last packet has another length.
fn at_odds_at_the_end(capacity: usize) -> Pair {
    let (left, mut right) = (record(capacity, |_| true), record(capacity, |_| true));
    right.sizes[capacity - 1] -= 1;
    Pair { left, right, answer: Err(JoinRefusal::Packet(capacity as u32 - 1)) }
}

/// Reports into the same memory again and again.
fn race_reports(record: &Written, rounds: usize) -> Best {
    let capacity = record.marks.len();
    let times = 65_536 / capacity;
    let mut room = Room { firsts: vec![0; capacity], counts: vec![0; capacity], octets: vec![0; capacity], figures: vec![0; 7] };
    let mut report = Report::default();
    assert_eq!(Report::of(held(record)).map_err(Refusal::number), plain_report(record, &mut report).map(|()| report.clone()));
    let library = || {
        let start = Instant::now();
        for _ in 0..times {
            let Room { firsts, counts, octets, figures } = &mut room;
            let answer = lent::report(held(black_box(record)), Lent { firsts, counts, octets, figures });
            assert_eq!(answer, Ok(()));
        }
        a_place(start, capacity * times)
    };
    let plain = || {
        let start = Instant::now();
        for _ in 0..times {
            assert_eq!(plain_report(black_box(record), black_box(&mut report)), Ok(()));
        }
        a_place(start, capacity * times)
    };
    race(rounds, library, plain)
}

fn print(what: &str, capacity: usize, Best { library, plain }: Best) {
    println!("{what:>36}, {capacity:>6} places: {library:.2} ns, plain Rust {plain:.2} ns = {:.2}x", plain / library);
}

fn main() {
    println!("joins and reports, time a place, damage of every record judged first by both; buffers are warm; best round");
    let rounds = 500;
    for (what, pair) in [
        ("join, nearly all heard", dense as fn(usize) -> Pair),
        ("join, one in ten heard", sparse),
        ("join, left heard the last only", lopsided),
        ("join refused for the last packet", at_odds_at_the_end),
    ] {
        for capacity in [512, 4_096, 65_535] {
            print(what, capacity, pair(capacity).race(rounds));
        }
    }
    for (what, pair) in [("report, nearly all heard", dense as fn(usize) -> Pair), ("report, one in ten heard", sparse)] {
        for capacity in [512, 4_096, 65_535] {
            print(what, capacity, race_reports(&pair(capacity).left, rounds));
        }
    }
}
