//! The proved checks beside their peers: same octets, same run, rounds taken in turn, the best round of each counts.
#[path = "../peers/checks.rs"]
mod peers;

use peers::{HeaderTable, Noise, Tables};
use std::hint::black_box;
use std::time::Instant;

type Contender<'a> = (&'a str, Box<dyn Fn(&[u8]) -> u16 + 'a>);

const ROUNDS: usize = 60;

/// Nanoseconds a call of each contender, the best of its rounds.
fn race(contenders: &[Contender], octets: &[u8]) -> Vec<f64> {
    let calls = 200_000 / (octets.len() + 20) + 50;
    let mut best = vec![f64::INFINITY; contenders.len()];
    for _ in 0..ROUNDS {
        for ((_, check), best) in contenders.iter().zip(&mut best) {
            let start = Instant::now();
            for _ in 0..calls {
                black_box(check(black_box(octets)));
            }
            *best = best.min(start.elapsed().as_nanos() as f64 / calls as f64);
        }
    }
    best
}

/// The first contender is ours: a peer's ratio says how many times as long it takes.
fn table(title: &str, contenders: &[Contender], lengths: &[usize]) {
    let row = Noise(7).octets(*lengths.iter().max().unwrap_or(&0));
    println!("{title}");
    for &length in lengths {
        let octets = &row[..length];
        let told: Vec<u16> = contenders.iter().map(|(_, check)| check(octets)).collect();
        assert!(told.iter().all(|&check| check == told[0]), "the contenders disagree at {length} octets: {told:?}");
        let times = race(contenders, octets);
        print!("{length:>6} octets: ours {:.1} ns", times[0]);
        for ((name, _), time) in contenders.iter().zip(&times).skip(1) {
            print!(", {name} {time:.1} ns = {:.2}x", time / times[0]);
        }
        println!();
    }
}

fn main() {
    let tables = Tables::new();
    let header = HeaderTable::new();
    println!("buffers are warm and were not cleared; best of {ROUNDS} rounds");
    table(
        "payload check",
        &[
            ("ours", Box::new(quimdoral::checks::payload_check)),
            ("octet table", Box::new(|s| tables.by_octets(s))),
            ("slice-by-8", Box::new(|s| tables.by_slices::<8>(s))),
            ("slice-by-16", Box::new(|s| tables.by_slices::<16>(s))),
        ],
        &[0, 9, 20, 40, 63, 64, 256, 1_400, 1_500, 4_095],
    );
    table(
        "header check",
        &[
            ("ours", Box::new(|s| u16::from(quimdoral::checks::header_check(s)))),
            ("octet table", Box::new(|s| u16::from(header.by_octets(s)))),
        ],
        &[9, 17],
    );
}
