//! The account program beside a plain Rust one: both are started on the same items in the same run, in turn, and their whole time
//! counts, from start to end. What they print is compared first and goes nowhere then.
#[path = "../peers/frames.rs"]
mod frames;
#[path = "../peers/generate.rs"]
mod generate;
#[path = "../peers/items.rs"]
mod items;
#[path = "../peers/payloads.rs"]
mod payloads;
#[path = "../peers/checks.rs"]
mod peers;

use frames::Reader;
use payloads::{NO_PACKET, PACKETS};
use quimdoral::Key;
use std::fs::{self, File};
use std::io::Write;
use std::path::{Path, PathBuf};
use std::process::{Command, Stdio};
use std::thread;
use std::time::Instant;

const OCTETS: usize = 40_000_000;
const ROUNDS: usize = 15;

/// Sequences of so many packets with payloads of one size and shape. One packet in a hundred was lost; closings of both types come in turn.
#[derive(Clone, Copy)]
struct Sequences {
    payload: u64,
    shape: payloads::Shape,
    packets: u64,
}

impl Sequences {
    fn items(self, reader: &Reader) -> Vec<u8> {
        let Sequences { payload, shape, packets } = self;
        let octets = shape.octets(payload as usize);
        let mut input = Vec::with_capacity(OCTETS + (1 << 21));
        let mut stamp = 0;
        while input.len() < OCTETS {
            input.extend(items::key(Key { bearer: 21, period: 9, stamp }));
            for number in (0..packets).filter(|number| number % 100 != 57) {
                input.extend(items::frame(&generate::data_with(reader, stamp, number, payload * number, &octets)));
            }
            input.extend(items::frame(&match stamp % 2 {
                0 => generate::closing(reader, stamp, packets, payload * packets),
                _ => generate::closing_with_lengths(reader, stamp, &vec![payload; packets as usize]),
            }));
            stamp += 1;
        }
        input
    }
}

/// Where a program's input comes from.
enum From<'a> {
    File(&'a Path),
    Pipe(&'a [u8]),
}

impl From<'_> {
    fn run(&self, program: &Path, printed: Stdio) -> Vec<u8> {
        let mut command = Command::new(program);
        let stdin = match self {
            From::File(path) => Stdio::from(File::open(path).expect("the file of items")),
            From::Pipe(_) => Stdio::piped(),
        };
        let mut child = command.stdin(stdin).stdout(printed).spawn().expect("the program starts");
        let pipe = child.stdin.take();
        thread::scope(|scope| {
            if let (From::Pipe(items), Some(mut pipe)) = (self, pipe) {
                scope.spawn(move || pipe.write_all(items).expect("the program reads all"));
            }
            let output = child.wait_with_output().expect("the program's output");
            assert!(output.status.success(), "{}", output.status);
            output.stdout
        })
    }

    fn milliseconds(&self, program: &Path) -> f64 {
        let start = Instant::now();
        self.run(program, Stdio::null());
        start.elapsed().as_secs_f64() * 1_000.0
    }

    /// Both programs in turn: the best time and the median of each.
    fn race(&self, programs: [&Path; 2]) -> [(f64, f64); 2] {
        let mut times = [Vec::new(), Vec::new()];
        for _ in 0..ROUNDS {
            for (program, times) in programs.iter().zip(&mut times) {
                times.push(self.milliseconds(program));
            }
        }
        times.map(|mut times| {
            times.sort_by(f64::total_cmp);
            (times[0], times[ROUNDS / 2])
        })
    }
}

fn compare(Sequences { payload, shape, packets }: Sequences, name: &str, from: &From, programs: [&Path; 2]) {
    let [ours, theirs] = programs.map(|program| from.run(program, Stdio::piped()));
    assert!(ours == theirs && !ours.is_empty(), "the programs print other accounts");
    let [(our_best, our_median), (best, median)] = from.race(programs);
    println!(
        "{payload:>6} octets, {}, {packets:>5} packets, {name}: ours {our_best:.1} ms, median {our_median:.1}; plain Rust {best:.1} ms, \
         median {median:.1}; ours takes {:.2}x of the best, {:.2}x of the median",
        shape.name,
        our_best / best,
        our_median / median
    );
}

/// A file that is gone when it is no longer used.
struct Temporary(PathBuf);

impl Drop for Temporary {
    fn drop(&mut self) {
        let _ = fs::remove_file(&self.0);
    }
}

fn main() {
    let ours = Path::new(env!("CARGO_MANIFEST_DIR")).join("../crates/account/out/account");
    assert!(ours.exists(), "the program is not there: run `rt run` in crates/account first");
    let programs = [&ours, Path::new(env!("CARGO_BIN_EXE_plain_account"))];
    let reader = Reader::new();
    println!(
        "accounts of {} MB of items, by payload, its shape, and packets a sequence; best and median of {ROUNDS} rounds",
        OCTETS / 1_000_000
    );
    let shapes = [NO_PACKET, PACKETS[0], PACKETS[1]];
    let of_a_thousand = [1_400, 64].into_iter().flat_map(|payload| shapes.map(|shape| (payload, shape, 1_000)));
    for (payload, shape, packets) in of_a_thousand.chain([(64, NO_PACKET, 100)]) {
        let sequences = Sequences { payload, shape, packets };
        let items = sequences.items(&reader);
        let file = Temporary(std::env::temp_dir().join(format!("quimdoral-{}.items", std::process::id())));
        fs::write(&file.0, &items).expect("room for the items");
        compare(sequences, "from a file", &From::File(&file.0), programs);
        compare(sequences, "through a pipe", &From::Pipe(&items), programs);
    }
}
