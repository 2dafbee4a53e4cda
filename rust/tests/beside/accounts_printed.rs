//! The account program as it is run: the samples beside their texts, and generated inputs beside a plain Rust program.

use crate::checks_told::{WrongChecks, every_wrong_check};
use crate::frames::{Reader, Refused};
use crate::peers::Noise;
use crate::sequences::{LONGEST, Sequence, any_length, below, next_to, one_in};
use crate::sides_met::Sides;
use crate::{account, generate, items};
use quimdoral::Key;
use std::collections::BTreeSet;
use std::fs;
use std::io::{ErrorKind, Read, Write};
use std::path::{Path, PathBuf};
use std::process::{Child, Command, Stdio};
use std::thread::{self, sleep};
use std::time::{Duration, Instant};

/// The program reads into this many octets, and takes an item only where the longest one would be there.
const BUFFER: usize = 65_536;
const LONGEST_ITEM: usize = 4 + 8_192;
const KEY: Key = Key { bearer: 7, period: 3, stamp: 0 };

fn repository() -> PathBuf {
    Path::new(env!("CARGO_MANIFEST_DIR")).join("..")
}

pub fn program() -> PathBuf {
    let program = repository().join("crates/account/out/account");
    assert!(program.exists(), "the program is not there: run `rt run` in crates/account first");
    program
}

fn spawn(command: &mut Command) -> Child {
    command.stdin(Stdio::piped()).stdout(Stdio::piped()).stderr(Stdio::piped()).spawn().expect("the program starts")
}

/// Writes an input in pieces. Bad input ends the program, so it need not read all.
fn feed<'a>(mut pipe: impl Write, pieces: impl Iterator<Item = &'a [u8]>) {
    for piece in pieces {
        match pipe.write_all(piece) {
            Err(error) if error.kind() == ErrorKind::BrokenPipe => return,
            answer => answer.expect("the pipe takes the input"),
        }
    }
}

/// What the program prints of an input that comes in pieces.
fn printed_of_pieces<'a>(pieces: impl Iterator<Item = &'a [u8]> + Send) -> Vec<u8> {
    let mut child = spawn(&mut Command::new(program()));
    let pipe = child.stdin.take().expect("a pipe to the program");
    let output = thread::scope(|scope| {
        scope.spawn(|| feed(pipe, pieces));
        child.wait_with_output().expect("the program's output")
    });
    assert!(output.status.success(), "{}", output.status);
    assert!(output.stderr.is_empty(), "{}", String::from_utf8_lossy(&output.stderr));
    output.stdout
}

fn printed(input: &[u8]) -> Vec<u8> {
    printed_of_pieces([input].into_iter())
}

pub fn plainly_printed(mut input: &[u8]) -> Vec<u8> {
    let mut text = Vec::new();
    account::account(&mut input, &mut text).expect("a slice and a list do not fail");
    text
}

/// Compares two texts, and shows the first line that differs.
fn same(ours: &[u8], expected: &[u8], input: &str) {
    if ours == expected {
        return;
    }
    let [ours, expected] = [ours, expected].map(String::from_utf8_lossy);
    let line = ours.lines().zip(expected.lines()).take_while(|(ours, expected)| ours == expected).count();
    let [ours, expected] = [&ours, &expected].map(|text| text.lines().nth(line).unwrap_or("nothing more").to_string());
    panic!("{input}, line {}: printed {ours:?}, expected {expected:?}", line + 1);
}

/// Runs the program, compares with the plain one, and gives the text.
pub fn printed_alike(input: &[u8], about: &str) -> String {
    let expected = plainly_printed(input);
    same(&printed(input), &expected, about);
    String::from_utf8(expected).expect("accounts are ASCII")
}

/// The octets of a sample: two hex digits each, `00*9` for nine of them, and comments from `#` to the line's end.
fn octets_of(hex: &str) -> Vec<u8> {
    let octet = |digits: &str| u8::from_str_radix(digits, 16).expect("two hex digits");
    let mut octets = Vec::new();
    for line in hex.lines() {
        let shown = line.split('#').next().unwrap_or("");
        for word in shown.split_whitespace() {
            let (digits, times) = word.split_once('*').unwrap_or((word, "1"));
            octets.extend(vec![octet(digits); times.parse().expect("a count")]);
        }
    }
    octets
}

struct Sample {
    name: String,
    input: Vec<u8>,
    text: String,
}

fn sample(name: &str) -> Sample {
    let read = |end: &str| fs::read_to_string(repository().join(format!("samples/{name}.{end}"))).expect("a sample and its text");
    Sample { name: name.to_string(), input: octets_of(&read("hex")), text: read("txt") }
}

fn samples() -> Vec<Sample> {
    let folder = fs::read_dir(repository().join("samples")).expect("the folder of samples");
    let mut names = BTreeSet::new();
    for file in folder {
        let path = file.expect("a file among the samples").path();
        names.insert(path.file_stem().and_then(|name| name.to_str()).expect("a sample's name").to_string());
    }
    assert!(names.len() > 50, "only {} samples", names.len());
    names.iter().map(|name| sample(name)).collect()
}

#[test]
fn samples_print_the_texts_beside_them() {
    for Sample { name, input, text } in samples() {
        same(&printed(&input), text.as_bytes(), &name);
        same(&plainly_printed(&input), text.as_bytes(), &format!("the plain program on {name}"));
    }
}

/// What a line "refused" says behind its place: the refusal's number, and behind 4 and 7, and no other, both checks.
fn refusal(line: &str) -> Option<Refused> {
    let fields = line.strip_prefix("refused ")?.split(' ').map(|field| field.parse().expect("a number"));
    match fields.collect::<Vec<u64>>()[1..] {
        [number @ (4 | 7), found, worked_out] => Some(Refused { number: number as u8, found: found as u16, worked_out: worked_out as u16 }),
        [number @ (1..=3 | 5 | 6 | 8..=11)] => Some(Refused::from(number as u8)),
        _ => panic!("a refusal is not printed so: {line}"),
    }
}

/// The numbers in "refused" lines.
fn refusals(text: &str) -> impl Iterator<Item = usize> + '_ {
    text.lines().filter_map(refusal).map(|why| why.number.into())
}

/// The numbers of hearing are 1 to 11, 13 and 14. The last two are not to be had from an input: the record is the program's own, so
/// nobody else damages it (13), and its lists have 4,096 places each (14). 12 is about lent output, of which hearing has none, and those
/// from 15 on are the sender's, the writers' and the clock's.
#[test]
fn samples_show_every_refusal_of_hearing() {
    let shown: BTreeSet<usize> = samples().iter().flat_map(|sample| refusals(&sample.text).collect::<Vec<_>>()).collect();
    assert!(shown.into_iter().eq(1..=11));
}

#[test]
fn sample_of_the_readme_is_its_hex() {
    let items = fs::read(repository().join("samples/two_services.items")).expect("the sample of the README");
    assert!(items == sample("two_services").input);
}

#[test]
fn example_of_document_01_is_the_crates_own() {
    let example = sample("only_the_closing");
    let of_crate = |file: &str| fs::read(repository().join("crates/account").join(file)).expect("the crate's input and text");
    assert_eq!((example.input, example.text.into_bytes()), (of_crate("stdin"), of_crate("stdout")));
}

/// The README shows an input and its account: they are a sample's.
#[test]
fn readme_shows_the_worked_example() {
    let readme = fs::read_to_string(repository().join("README.md")).expect("the README");
    let is_octet = |word: &str| word.len() == 2 && u8::from_str_radix(word, 16).is_ok();
    let shown = readme.lines().filter_map(|line| line.strip_prefix("    ")).filter(|line| line.split(' ').next().is_some_and(is_octet));
    let Sample { input, text, .. } = sample("worked_example");
    assert_eq!(octets_of(&shown.collect::<Vec<_>>().join("\n")), input);
    let indented: String = text.lines().map(|line| format!("    {line}\n")).collect();
    assert!(readme.contains(&indented), "the README does not show {text}");
}

/// A cut input is bad at the item that is cut, whatever was printed before; one that ends between items is whole.
#[test]
fn inputs_cut_at_every_octet() {
    let Sample { input, .. } = sample("two_services");
    let offsets = items::offsets(&input);
    for length in 0..input.len() {
        let text = printed_alike(&input[..length], &format!("the first {length} octets"));
        let begin = offsets.iter().rfind(|&&offset| offset <= length).expect("the first item is at 0");
        let last = if length == 0 { None } else { Some("end".to_string()) };
        let last = if *begin == length { last } else { Some(format!("bad input {begin}")) };
        assert_eq!(text.lines().last(), last.as_deref(), "the first {length} octets");
    }
}

/// A key and frames in order, with payloads of any size and some packets lost, of exactly so many octets.
fn input_of(noise: &mut Noise, reader: &Reader, length: usize) -> Vec<u8> {
    let mut input = items::key(KEY);
    let (mut number, mut elapsed) = (0, 0);
    while input.len() < length {
        let left = length - input.len();
        let size = if left < LONGEST as usize { left - 15 } else { below(noise, 2_000) as usize };
        if left < LONGEST as usize || !one_in(noise, 10) {
            input.extend(items::frame(&generate::data(reader, KEY.stamp, number, elapsed, size)));
        }
        (number, elapsed) = (number + 1, elapsed + size as u64);
    }
    input
}

/// Items that end at, before and behind the places where the program stops taking items and where its buffer ends.
#[test]
fn items_across_the_ends_of_the_buffer() {
    let (reader, mut noise) = (Reader::new(), Noise(71));
    for end in [BUFFER - LONGEST_ITEM, BUFFER, 2 * BUFFER - LONGEST_ITEM, 2 * BUFFER] {
        for length in end - 5..=end + 5 {
            let mut input = input_of(&mut noise, &reader, length);
            let about = format!("{length} octets of items");
            assert!(printed_alike(&input, &about).ends_with("end\n"));
            input.extend(items::key(Key { bearer: 8, ..KEY }));
            assert!(printed_alike(&input, &format!("{about} and a key")).contains("sequence 8 3 0 open"));
            input.truncate(length - 1);
            assert!(printed_alike(&input, &format!("{about}, cut by one")).starts_with("bad input"));
        }
    }
}

/// The longest items one behind the other: the buffer holds less than eight of them.
#[test]
fn longest_items() {
    let mut input = items::key(KEY);
    for octet in 0..100 {
        input.extend(items::frame(&[octet; LONGEST_ITEM - 4]));
    }
    let text = printed_alike(&input, "longest items");
    assert_eq!(refusals(&text).count(), 100);
}

/// Short items print far more than they are long, so the text has to be written before the input that is there is used up.
#[test]
fn more_text_than_room_for_it() {
    let reader = Reader::new();
    let empty_frames = [items::key(KEY), items::frame(&[]).repeat(70_000)].concat();
    assert_eq!(printed_alike(&empty_frames, "empty frames").lines().count(), 70_005);
    let mut wrong_check = generate::data(&reader, KEY.stamp, 0, 0, 0);
    generate::put_payload_check(&mut wrong_check, 1_023);
    let wrong_checks = [items::key(KEY), items::frame(&wrong_check).repeat(70_000)].concat();
    assert!(printed_alike(&wrong_checks, "wrong checks").contains("\nrefused 70001 7 1023 0\nsequence "));
    let widest = Key { bearer: u32::MAX, period: u32::MAX, stamp: 59_999 };
    let keys = items::key(widest).repeat(30_000);
    assert_eq!(printed_alike(&keys, "keys alone").lines().count(), 5 * 30_000);
    let mut every_other = items::key(widest);
    for number in (1..4_096).step_by(2) {
        every_other.extend(items::frame(&generate::data(&reader, widest.stamp, number, LONGEST * number.div_ceil(2), 0)));
    }
    let gaps = printed_alike(&every_other.repeat(20), "every other packet lost");
    assert_eq!(gaps.lines().filter(|line| line.starts_with("gap ")).count(), 20 * 2_048);
}

/// An input that comes in single octets with pauses, and one that comes in pieces of any size: neither is taken to have ended.
#[test]
fn small_pieces_through_a_pipe() {
    let Sample { input, text, name } = sample("two_services");
    let single = input.chunks(1).inspect(|_| sleep(Duration::from_micros(200)));
    same(&printed_of_pieces(single), text.as_bytes(), &name);
    let mut noise = Noise(72);
    let input = input_of(&mut noise, &Reader::new(), 5 * BUFFER);
    let (mut rest, mut pieces) = (&input[..], Vec::new());
    while !rest.is_empty() {
        let piece = rest.len().min(1 + below(&mut noise, 6_000) as usize);
        pieces.push(&rest[..piece]);
        rest = &rest[piece..];
    }
    let pieces = pieces.into_iter().inspect(|_| thread::yield_now());
    same(&printed_of_pieces(pieces), &plainly_printed(&input), "an input in pieces");
}

/// Waits for the program, and ends it where it does not end by itself.
pub fn ends(child: &mut Child) -> bool {
    let start = Instant::now();
    while start.elapsed() < Duration::from_secs(10) {
        if child.try_wait().expect("the program's state").is_some() {
            return true;
        }
        sleep(Duration::from_millis(5));
    }
    child.kill().expect("the program is still there");
    child.wait().expect("the program ends");
    false
}

/// Where nobody reads its output any more the program ends, and does not wait for the end of the input.
#[test]
fn reader_that_closes_early() {
    let input = [items::key(KEY), items::frame(&[]).repeat(500_000)].concat();
    let mut unheeding = Command::new("sh");
    unheeding.args(["-c", "trap '' PIPE; exec \"$0\""]).arg(program());
    for mut command in [Command::new(program()), unheeding] {
        let mut child = spawn(&mut command);
        let mut pipe = child.stdin.take().expect("a pipe to the program");
        let mut text = child.stdout.take().expect("a pipe from the program");
        let ended = thread::scope(|scope| {
            scope.spawn(|| feed(&mut pipe, input.chunks(BUFFER)));
            text.read_exact(&mut [0; 1_000]).expect("the first lines");
            drop(text);
            ends(&mut child)
        });
        assert!(ended, "{command:?} goes on without a reader");
    }
}

/// A packet as far from another one of the sequence as it can be or is just not, if none between was heard.
fn at_a_bound(noise: &mut Noise, reader: &Reader, sequence: &Sequence) -> Vec<u8> {
    let packets = sequence.lengths.len() as u64;
    let lower = below(noise, packets + 1).min(packets.saturating_sub(1));
    let number = lower + 1 + below(noise, 4);
    let end = sequence.octets((lower + 1).min(packets) as usize);
    let between = LONGEST * (number - lower - 1) * below(noise, 2);
    let elapsed = next_to(noise, end + between);
    let size = any_length(noise, true) as usize;
    generate::data(reader, sequence.key.stamp, number, elapsed, size)
}

/// A frame for a sequence: half of them good, the others wrong in one of many ways.
fn any_frame(noise: &mut Noise, reader: &Reader, sequence: &Sequence) -> Vec<u8> {
    let stamp = sequence.key.stamp;
    match below(noise, 24) {
        0 | 1 => sequence.almost(noise).good(noise, reader),
        2 => sequence.near_closing(noise, reader),
        3 => at_a_bound(noise, reader, sequence),
        4 => generate::data(reader, stamp, 4_095 + below(noise, 3), 0, 1),
        5 => generate::closing(reader, stamp, 4_096 + below(noise, 2), sequence.octets(sequence.lengths.len())),
        6 | 7 => generate::any(noise, reader),
        8 => {
            let other = Key { stamp: next_to(noise, stamp.into()) as u32, ..sequence.key };
            Sequence { key: other, lengths: sequence.lengths.clone() }.good(noise, reader)
        }
        9 | 10 => {
            let mut frame = sequence.good(noise, reader);
            generate::spoil_a_check(noise, &mut frame);
            frame
        }
        11 => sequence.replaced(noise, reader),
        _ => sequence.good(noise, reader),
    }
}

/// A key and up to so many frames of its sequence.
fn any_sequence(noise: &mut Noise, reader: &Reader, sequence: &Sequence, most: u64) -> Vec<u8> {
    let mut input = items::key(sequence.key);
    for _ in 0..below(noise, most) {
        input.extend(items::frame(&any_frame(noise, reader, sequence)));
    }
    input
}

/// Each line has what was put into its frame, and what long division gives.
#[test]
fn every_wrong_check_is_printed() {
    let all = every_wrong_check(&Reader::new());
    let mut input = items::key(KEY);
    all.iter().for_each(|(frame, _)| input.extend(items::frame(frame)));
    let (text, mut wrong) = (printed_alike(&input, "every wrong check"), WrongChecks::default());
    for (place, ((frame, why), line)) in all.iter().zip(text.lines()).enumerate() {
        let Refused { number, found, worked_out } = why;
        assert_eq!(line, format!("refused {} {number} {found} {worked_out}", place + 2), "{frame:02X?}");
        wrong.add(frame, refusal(line).expect("a refused frame"));
    }
    assert_eq!(text.lines().count(), all.len() + 5);
    wrong.all_came();
}

/// What the good data PDUs of an input have behind their checks.
fn sides_of(reader: &Reader, input: &[u8]) -> Sides {
    let mut sides = Sides::default();
    for ends in items::offsets(input).windows(2) {
        let frame = &input[ends[0] + 4..ends[1]];
        if input[ends[0] + 2] == 2 {
            sides.add(frame, reader.read(frame).map(|_| ()));
        }
    }
    sides
}

/// How often each refusal is in a text, and how many accounts are.
fn tally(text: &str) -> ([usize; 12], usize) {
    let mut refused = [0; 12];
    refusals(text).for_each(|number| refused[number] += 1);
    (refused, text.lines().filter(|&line| line == "end").count())
}

#[test]
fn many_short_sequences() {
    let (reader, mut noise) = (Reader::new(), Noise(73));
    let mut input = Vec::new();
    for _ in 0..6_000 {
        let sequence = Sequence::any(&mut noise, 12);
        input.extend(any_sequence(&mut noise, &reader, &sequence, 40));
    }
    let (refused, accounts) = tally(&printed_alike(&input, "short sequences"));
    assert_eq!(accounts, 6_000);
    // every refusal of hearing came up often enough to mean something, and every side of the clauses about extensions
    assert!(refused[1..].iter().all(|&times| times > 100), "{refused:?}");
    let sides = sides_of(&reader, &input);
    sides.all_came(100, 10);
    sides.long_ones_came(300);
}

/// Sequences that fill the record and go beyond it.
#[test]
fn some_long_sequences() {
    let (reader, mut noise) = (Reader::new(), Noise(74));
    let mut input = Vec::new();
    for packets in [4_095, 4_096, 4_097, 300, 3_000, 4_200, 1_000, 4_096] {
        let lengths = (0..packets).map(|_| any_length(&mut noise, false)).collect();
        let sequence = Sequence { key: Key { stamp: 59_999, ..KEY }, lengths };
        input.extend(any_sequence(&mut noise, &reader, &sequence, 9_000));
    }
    let (refused, accounts) = tally(&printed_alike(&input, "long sequences"));
    assert_eq!(accounts, 8);
    assert!(refused[9..].iter().all(|&times| times > 100), "{refused:?}");
}

/// Changes an input in one place: a bit, an octet more or less, an item's length or kind, a key's stamp, or its end.
fn mutate(noise: &mut Noise, input: &mut Vec<u8>) {
    let offsets = items::offsets(input);
    let begin = offsets[below(noise, offsets.len() as u64 - 1) as usize];
    let at = below(noise, input.len() as u64) as usize;
    match below(noise, 8) {
        0 => input[at] ^= 1 << below(noise, 8),
        1 => drop(input.remove(at)),
        2 => input.insert(at, noise.next() as u8),
        3 => input.truncate(at),
        4 => input[begin] = next_to(noise, input[begin].into()) as u8,
        5 => input[begin + 1 + below(noise, 3) as usize] = below(noise, 35) as u8,
        6 => drop(input.drain(..begin)),
        _ => input[12..14].copy_from_slice(&(next_to(noise, 60_000) as u16).to_le_bytes()),
    }
}

#[test]
fn hundreds_of_mutated_inputs() {
    let (reader, mut noise) = (Reader::new(), Noise(75));
    let (mut bad, mut whole) = (0, 0);
    for turn in 0..800 {
        let mut input = Vec::new();
        for _ in 0..=below(&mut noise, 3) {
            let sequence = Sequence::any(&mut noise, 6);
            input.extend(any_sequence(&mut noise, &reader, &sequence, 12));
        }
        mutate(&mut noise, &mut input);
        let text = printed_alike(&input, &format!("mutated input {turn}"));
        if text.lines().last().is_some_and(|line| line.starts_with("bad input ")) {
            bad += 1;
        } else {
            whole += 1;
        }
    }
    assert!(bad > 200 && whole > 100, "{bad} bad, {whole} whole");
}
