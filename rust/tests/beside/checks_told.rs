//! What is told of wrong checks: every value of either check in frames of each type, by every call that reads or hears, beside long
//! division; and the answer in one number that carries it.
//!
//! The library's answers are taken apart by `ReadRefusal::from_answer`, and a call whose answer has another form panics: so every test in
//! which a frame is refused shows too that nothing stands above a refusal's number but the two checks with 4 and 7.

use crate::fences::{Fenced, FencedRecord};
use crate::frames::{Reader, Refused, refused, told};
use crate::generate::{self, put_header_check, put_payload_check};
use crate::payloads;
use crate::peers::{HEADER, PAYLOAD, by_bits};
use crate::records::Written;
use quimdoral::{Checks, Key, ReadRefusal, Record, Refusal, frames, lent};
use std::collections::BTreeSet;

/// What came with one refusal.
#[derive(Default)]
struct Came {
    found: BTreeSet<u16>,
    worked_out: BTreeSet<u16>,
    types: BTreeSet<u8>,
}

impl Came {
    fn add(&mut self, frame: &[u8], Refused { found, worked_out, .. }: Refused) {
        assert_ne!(found, worked_out, "two checks that are alike, told of {frame:02X?}");
        self.found.insert(found);
        self.worked_out.insert(worked_out);
        self.types.insert(frame[0] >> 4);
    }

    /// Each value below the limit was found, 0 too; 0 was worked out; and each of the types came.
    fn all_came(&self, number: u8, limit: u16, types: &[u8]) {
        let lacking: Vec<u16> = (0..limit).filter(|value| !self.found.contains(value)).collect();
        assert!(lacking.is_empty() && self.found.len() == limit.into(), "refusal {number}: these were never found: {lacking:?}");
        assert!(self.worked_out.contains(&0), "refusal {number}: 0 was never worked out");
        assert!(self.types.iter().eq(types), "refusal {number}: only the types {:?} came", self.types);
    }
}

/// What came with refusals 4 and 7, to show that nothing was left out.
#[derive(Default)]
pub struct WrongChecks {
    header: Came,
    payload: Came,
}

impl WrongChecks {
    pub fn add(&mut self, frame: &[u8], why: Refused) {
        match why.number {
            4 => self.header.add(frame, why),
            7 => self.payload.add(frame, why),
            number => assert_eq!(why, Refused::from(number), "checks with another refusal"),
        }
    }

    /// The header check has six bits in Types 0, 1 and 3, the payload check ten in Types 1 and 3.
    pub fn all_came(&self) {
        self.header.all_came(4, 1 << 6, &[0, 1, 3]);
        self.payload.all_came(7, 1 << 10, &[1, 3]);
    }
}

/// An answer in one number, as the header for C has it.
pub fn as_answer(answer: Result<(), Refused>) -> u64 {
    let Err(Refused { number, found, worked_out }) = answer else { return 0 };
    u64::from(number) + 256 * (u64::from(found) + 65_536 * u64::from(worked_out))
}

const KEY: Key = Key { bearer: 7, period: 3, stamp: 0 };
const CAPACITY: usize = 4;
/// Example D as document 01 prints it; by the rule its check octets are 00 31.
const D_AS_PRINTED: [u8; 21] = [0x30, 0, 0, 0, 1, 0, 0, 0, 1, 0, 0, 1, 0, 0, 0, 0, 1, 0x02, 0x02, 0x00, 0x10];

/// Good frames of each type; of either check, one that is 0 and one that is not; and an IP packet with an extension, which is checked too.
fn good_frames(reader: &Reader) -> Vec<Vec<u8>> {
    let mut by_the_rule = D_AS_PRINTED.to_vec();
    reader.seal(&mut by_the_rule);
    let header_check_0 = |number: &u64| generate::data(reader, 0, *number, 0, 2)[9] >> 2 == 0;
    let number = (0..1_000).find(header_check_0).expect("a packet whose header check is 0");
    vec![
        vec![0; 18],
        generate::closing(reader, 0, 1, 1),
        generate::data(reader, 0, 0, 0, 0),
        generate::data(reader, 0, number, 0, 2),
        generate::data_with(reader, 0, 0, 0, &payloads::packet(4, 20, 2)),
        by_the_rule,
        generate::closing_with_lengths(reader, 0, &[]),
    ]
}

/// Each good frame with each wrong value of either check, and what has to be told of it: what was put there, and what is worked out by
/// long division.
pub fn every_wrong_check(reader: &Reader) -> Vec<(Vec<u8>, Refused)> {
    let mut all = Vec::new();
    for good in good_frames(reader) {
        assert!(told(&good).is_ok(), "{good:02X?}");
        let n = Reader::control(good[0] >> 4);
        let worked_out = by_bits(HEADER, &good[..n]) as u16;
        for found in (0..1 << 6).filter(|&found| found != worked_out) {
            let mut frame = good.clone();
            put_header_check(&mut frame, found);
            all.push((frame, Refused { number: 4, found, worked_out }));
        }
        if good[0] >> 4 == 0 {
            continue;
        }
        let worked_out = by_bits(PAYLOAD, &good[n + 2..]) as u16;
        for found in (0..1 << 10).filter(|&found| found != worked_out) {
            let mut frame = good.clone();
            put_payload_check(&mut frame, found);
            all.push((frame, Refused { number: 7, found, worked_out }));
        }
    }
    all
}

/// Both ways to read lengths refuse alike, and leave the list.
fn lengths_told(frame: &[u8]) -> Result<usize, Refused> {
    let memory = [9; 3];
    let mut ours = Fenced::around(&memory);
    let answer = frames::read_lengths(frame, ours.lent()).map_err(Refused::from);
    assert!(ours == Fenced::around(&memory), "{frame:02X?}");
    assert_eq!(frames::lengths(frame).map(|lengths| lengths.len()).map_err(Refused::from), answer, "{frame:02X?}");
    answer
}

/// Both ways to hear a frame refuse alike, and leave the record.
fn hearing_told(record: &Record, frame: &[u8]) -> Result<(), Refused> {
    let mut after = record.clone();
    let answer = after.hear(KEY.bearer, KEY.period, frame).map_err(Refused::from);
    assert_eq!(after, *record, "{frame:02X?}");
    let written = Written::empty(KEY.bearer, KEY.period, KEY.stamp, CAPACITY);
    let mut ours = FencedRecord::around(&written);
    assert_eq!(lent::hear(ours.lists(), KEY.bearer, KEY.period, frame).map_err(Refused::from), answer, "{frame:02X?}");
    assert!(ours == FencedRecord::around(&written), "{frame:02X?}");
    answer
}

#[test]
fn every_wrong_check_is_told_by_every_call() {
    let (reader, mut wrong) = (Reader::new(), WrongChecks::default());
    let empty = Record::fresh(KEY, CAPACITY).unwrap();
    for (frame, why) in every_wrong_check(&reader) {
        assert_eq!(reader.read(&frame), Err(why), "the peer on {frame:02X?}");
        assert_eq!(told(&frame), Err(why), "{frame:02X?}");
        assert_eq!(lengths_told(&frame), Err(why), "{frame:02X?}");
        assert_eq!(hearing_told(&empty, &frame), Err(why), "{frame:02X?}");
        wrong.add(&frame, why);
    }
    wrong.all_came();
}

/// All of them in one call: each answer has all its 64 bits right, and the places behind the last one stay.
#[test]
fn every_wrong_check_is_told_in_one_call() {
    let (mut octets, mut ends, mut answers) = (Vec::new(), Vec::new(), Vec::new());
    let all = every_wrong_check(&Reader::new());
    for (frame, why) in &all {
        octets.extend(frame);
        ends.push(octets.len() as u32);
        answers.push(as_answer(Err(*why)));
    }
    answers.extend([u64::MAX, 5]);
    let written = Written::empty(KEY.bearer, KEY.period, KEY.stamp, CAPACITY);
    let (mut ours, mut list) = (FencedRecord::around(&written), Fenced::around(&vec![u64::MAX; all.len() + 2]));
    list.lent()[all.len() + 1] = 5;
    assert_eq!(lent::hear_all(KEY, ours.lists(), &octets, &ends, list.lent()), Ok(()));
    assert!(list == Fenced::around(&answers), "{list:?}");
    assert!(ours == FencedRecord::around(&written), "{ours:?}");
    let (record, answers) = Record::hear_all(KEY, CAPACITY, &octets, &ends).unwrap();
    assert_eq!((record, answers.len()), (Record::fresh(KEY, CAPACITY).unwrap(), all.len()));
    let mut wrong = WrongChecks::default();
    for ((frame, why), answer) in all.iter().zip(answers) {
        assert_eq!(answer.map_err(Refused::from), Err(*why), "{frame:02X?}");
        wrong.add(frame, *why);
    }
    wrong.all_came();
}

/// Where both checks are wrong, the header's are told; where a stamp, a size or a count is wrong too, the order is as it was.
#[test]
fn the_first_refusal_says_whose_checks_are_told() {
    let reader = Reader::new();
    let data = |stamp, elapsed| generate::data(&reader, stamp, 0, elapsed, 2);
    let too_long = generate::data(&reader, 0, 0, 0, 4_096);
    let told_of = |frame: &[u8], header: u8, payload: u8| {
        let mut frame = frame.to_vec();
        frame[9] ^= header << 2;
        frame[10] ^= payload;
        let answer = told(&frame).map(|_| ());
        assert_eq!(answer, reader.read(&frame).map(|_| ()), "{frame:02X?}");
        answer.map_err(|Refused { number, found, worked_out }| (number, found ^ worked_out))
    };
    for (frame, payload_wrong, checks_right) in [
        (data(0, 0), (7, 0b1001), Ok(())),
        (data(60_000, 0), (5, 0), Err((5, 0))),
        (too_long, (6, 0), Err((6, 0))),
        (data(0, 1), (7, 0b1001), Err((8, 0))),
    ] {
        assert_eq!(told_of(&frame, 0b10_0001, 0b1001), Err((4, 0b10_0001)));
        assert_eq!(told_of(&frame, 0, 0b1001), Err(payload_wrong));
        assert_eq!(told_of(&frame, 0, 0), checks_right);
    }
}

#[test]
fn example_d_as_printed() {
    let why = Refused { number: 7, found: 514, worked_out: 49 };
    assert_eq!(told(&D_AS_PRINTED), Err(why));
    assert_eq!(lengths_told(&D_AS_PRINTED), Err(why));
    assert_eq!(hearing_told(&Record::fresh(KEY, CAPACITY).unwrap(), &D_AS_PRINTED), Err(why));
    assert_eq!(told(&D_AS_PRINTED[..18]), refused(1));
}

/// With 4 and 7 two numbers of sixteen bits stand above the refusal's, with any other nothing; other answers are none.
#[test]
fn answers_are_taken_apart() {
    let of_number = |number: u8| ReadRefusal::from_answer(number.into());
    assert!((0..=255).all(|number| of_number(number).map(ReadRefusal::number) == Refusal::from_number(number).map(Refusal::number)));
    for refusal in Refusal::ALL {
        let number = u64::from(refusal.number());
        for bit in 8..64 {
            let with_checks = matches!(number, 4 | 7) && bit < 40;
            let read = ReadRefusal::from_answer(number | 1 << bit);
            assert_eq!(read.is_some(), with_checks, "refusal {number}, bit {bit}");
            assert!(read.is_none_or(|read| read.refusal() == *refusal && as_answer(Err(read.into())) == number | 1 << bit));
        }
    }
}

/// The text of a refusal has the checks behind it where it has any, and `?` makes a plain refusal of it.
#[test]
fn refusals_of_reading_say_what_they_mean() {
    for &refusal in Refusal::ALL {
        let read = ReadRefusal::Refused(refusal);
        assert_eq!((read.to_string(), read.checks(), Refusal::from(read)), (refusal.to_string(), None, refusal));
    }
    let checks = Checks { found: 0, worked_out: 1_023 };
    for (read, refusal, text) in [
        (ReadRefusal::HeaderCheck(checks), Refusal::HeaderCheckWrong, "refusal 4: the header check is wrong: 0 was found, 1023 worked out"),
        (
            ReadRefusal::PayloadCheck(checks),
            Refusal::PayloadCheckWrong,
            "refusal 7: the payload check is wrong: 0 was found, 1023 worked out",
        ),
    ] {
        assert_eq!((read.to_string().as_str(), read.checks()), (text, Some(checks)));
        assert_eq!((read.refusal(), read.number(), Refusal::from(read)), (refusal, refusal.number(), refusal));
    }
}
