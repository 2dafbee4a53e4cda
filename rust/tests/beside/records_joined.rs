//! Compiled joins beside joins written on their own from document 01: one sequence, contradicting ones, damaged lists, and the laws.

use crate::counted::JOINED;
use crate::fences::FencedRecord;
use crate::frames::Reader;
use crate::joining::{JoinRefusal, plain_join};
use crate::peers::Noise;
use crate::records::Written;
use crate::sequences::{DAMAGES, LONGEST, Sequence, any_capacity, at_a_bound, below, damage, found_by, held, lists, next_to, one_in, put};
use quimdoral::{Key, Record, lent};
use std::hint::black_box;

/// How often each answer came, by the refusal's number, and what the contradictions named.
#[derive(Default, Debug)]
struct Tally {
    numbers: [usize; 15],
    packets: usize,
    closings: usize,
    /// Packets named that are not the first one that the right heard, so that finding them took a search.
    found_later: usize,
}

impl Tally {
    fn add(&mut self, answer: Result<(), JoinRefusal>) {
        self.numbers[answer.map_or_else(|refusal| usize::from(refusal.number()), |()| 0)] += 1;
        self.packets += usize::from(matches!(answer, Err(JoinRefusal::Packet(_))));
        self.closings += usize::from(answer == Err(JoinRefusal::Closing));
    }

    fn add_with(&mut self, answer: Result<(), JoinRefusal>, right: &Written) {
        self.add(answer);
        if let Err(JoinRefusal::Packet(packet)) = answer {
            self.found_later += usize::from(right.marks[..packet as usize].contains(&1));
        }
    }

    fn calls(&self) -> usize {
        self.numbers.iter().sum()
    }

    fn came(&self, numbers: &[usize], times: usize) -> bool {
        numbers.iter().all(|&number| self.numbers[number] > times)
    }
}

/// Joins with the library and compares the answer and all memory with what is expected, fences on every side included.
fn join_as_expected(
    left: &mut Written,
    right: &Written,
    expect: impl Fn(&mut Written, &Written) -> Result<(), JoinRefusal>,
) -> Result<(), JoinRefusal> {
    let (mut ours, mut theirs) = (FencedRecord::around(left), FencedRecord::around(right));
    let answer = lent::join(ours.lists(), theirs.held()).map_err(JoinRefusal::from);
    let before = left.clone();
    let expected = expect(left, right);
    assert!(answer == expected, "{answer:?}, expected {expected:?}: left {before:?}, right {right:?}");
    assert!(ours == FencedRecord::around(left), "the records differ: left {before:?}, right {right:?}, ours after {ours:?}");
    assert!(*black_box(&mut theirs) == FencedRecord::around(right), "the right was written: left {before:?}, right {right:?}");
    assert!(answer.is_ok() || *left == before, "a refusal changed the left: {before:?}, right {right:?}");
    answer
}

/// Joins with the library, with the peer and with the plain program.
fn join_alike(left: &mut Written, right: &Written) -> Result<(), JoinRefusal> {
    let mut plain = left.clone();
    let answer = join_as_expected(left, right, Written::join);
    assert!(plain_join(&mut plain, right) == answer && plain == *left, "the plain join of {right:?} gave {plain:?}, not {left:?}");
    answer
}

/// Joins with the library alone.
fn joined(left: &Written, right: &Written) -> Result<Written, JoinRefusal> {
    let mut both = left.clone();
    lent::join(lists(&mut both), held(right))?;
    Ok(both)
}

fn empty(key: Key, capacity: usize) -> Written {
    Written::empty(key.bearer, key.period, key.stamp, capacity)
}

/// A part of the sequence with a packet at a bound that the left sets; without the part, where the two contradict each other.
fn with_packet_at_a_bound(noise: &mut Noise, sequence: &Sequence, left: &Written) -> Written {
    let capacity = left.marks.len();
    let mut right = sequence.part_of(noise, capacity);
    if capacity == 0 {
        return right;
    }
    let (packet, elapsed, size) = at_a_bound(noise, left);
    put(&mut right, packet as usize, elapsed, size);
    if right.damaged() {
        right = empty(sequence.key, capacity);
        put(&mut right, packet as usize, elapsed, size);
    }
    right
}

/// A part of the sequence with a closing next to its own; without the part, where the two contradict each other.
fn with_near_closing(noise: &mut Noise, sequence: &Sequence, capacity: usize) -> Written {
    let packets = sequence.lengths.len();
    let closing = [1, next_to(noise, packets as u64), next_to(noise, sequence.octets(packets))];
    let mut right = sequence.part_of(noise, capacity);
    right.head[3..].copy_from_slice(&closing);
    if right.damaged() {
        right = empty(sequence.key, capacity);
        right.head[3..].copy_from_slice(&closing);
    }
    right
}

/// One bit or the stamp is another.
fn with_other_key(noise: &mut Noise, sequence: &Sequence, capacity: usize) -> Written {
    let mut right = sequence.part_of(noise, capacity);
    match below(noise, 3) {
        0 => right.head[0] ^= 1 << below(noise, 32),
        1 => right.head[1] ^= 1 << below(noise, 32),
        _ => right.head[2] = if right.head[2] == 0 { 59_999 } else { right.head[2] - 1 },
    }
    right
}

fn with_other_capacity(noise: &mut Noise, sequence: &Sequence, capacity: usize) -> Written {
    let other = [0, capacity + 1, capacity + 7, capacity.saturating_sub(1)][below(noise, 4) as usize];
    sequence.part_of(noise, other)
}

/// A record to join to the left one: a good third of them of the same sequence, the others at odds with it in one of many ways.
fn any_right(noise: &mut Noise, sequence: &Sequence, left: &Written) -> Written {
    let capacity = left.marks.len();
    match below(noise, 16) {
        0..=2 => sequence.almost(noise).part_of(noise, capacity),
        3 | 4 => with_packet_at_a_bound(noise, sequence, left),
        5 | 6 => with_near_closing(noise, sequence, capacity),
        7 => with_other_key(noise, sequence, capacity),
        8 => with_other_capacity(noise, sequence, capacity),
        9 => Sequence { key: sequence.key, ..Sequence::any(noise, capacity as u64 + 2) }.part_of(noise, capacity),
        _ => sequence.part_of(noise, capacity),
    }
}

/// Joins records of many sequences of at most so many packets, and tells how often each answer came.
fn join_many(seed: u64, most: u64, joins: usize) -> Tally {
    let (mut noise, mut tally) = (Noise(seed), Tally::default());
    for _ in 0..joins {
        let sequence = Sequence::any(&mut noise, most);
        let capacity = any_capacity(&mut noise, sequence.lengths.len());
        let mut left = sequence.part_of(&mut noise, capacity);
        let right = any_right(&mut noise, &sequence, &left);
        tally.add_with(join_alike(&mut left, &right), &right);
    }
    tally
}

#[test]
fn records_are_joined_alike() {
    let tally = join_many(31, 20, JOINED[0]);
    // every answer came up often enough to mean something, and contradictions named packets, low and high, as well as closings
    assert!(tally.calls() == JOINED[0] && tally.came(&[0, 9, 11, 14], 8_000), "{tally:?}");
    assert!(tally.packets > 8_000 && tally.found_later > 8_000 && tally.closings > 8_000, "{tally:?}");
}

#[test]
fn records_are_joined_alike_when_longer() {
    let tally = join_many(32, 300, JOINED[1]);
    assert!(tally.calls() == JOINED[1] && tally.came(&[0, 9, 11, 14], 100) && tally.found_later > 100 && tally.closings > 100, "{tally:?}");
}

#[test]
fn the_smallest_records_are_joined_alike() {
    for most in [0, 1, 2] {
        let tally = join_many(33 + most, most, 30_000);
        assert!(tally.came(&[0, 9, 14], 300) && tally.closings > 300, "{tally:?}");
        assert!(most == 0 || tally.packets > 300, "{tally:?}");
    }
}

#[test]
fn damaged_records_are_refused_alike_on_either_side() {
    let mut noise = Noise(36);
    let mut tallies: [[Tally; 2]; DAMAGES as usize] = Default::default();
    for round in 0..JOINED[2] as u64 {
        let most = if one_in(&mut noise, 40) { 100 } else { 12 };
        let sequence = Sequence::any(&mut noise, most);
        let capacity = any_capacity(&mut noise, sequence.lengths.len());
        let mut left = sequence.part_of(&mut noise, capacity);
        let mut right = any_right(&mut noise, &sequence, &left);
        let (way, on_the_right) = (round / 2 % DAMAGES, round % 2 == 1);
        damage(&mut noise, if on_the_right { &mut right } else { &mut left }, way);
        tallies[way as usize][usize::from(on_the_right)].add(join_alike(&mut left, &right));
    }
    assert_eq!(tallies.iter().flatten().map(Tally::calls).sum::<usize>(), JOINED[2]);
    // each way to damage a record was found out, on either side, by its own number
    for (way, sides) in tallies.iter().enumerate() {
        let number = found_by(way);
        assert!(sides.iter().all(|tally| tally.numbers[number] > 300), "way {way}: {sides:?}");
    }
}

#[test]
fn records_of_one_sequence_are_never_refused() {
    let mut noise = Noise(37);
    for _ in 0..10_000 {
        let sequence = Sequence::any(&mut noise, 30);
        let capacity = sequence.lengths.len() + below(&mut noise, 3) as usize;
        let mut left = sequence.part_of(&mut noise, capacity);
        let (before, right) = (left.clone(), sequence.part_of(&mut noise, capacity));
        assert_eq!(join_alike(&mut left, &right), Ok(()));
        // what either heard, and nothing else
        assert!((0..capacity).all(|place| left.marks[place] == before.marks[place] | right.marks[place]));
        assert_eq!(left.head[3], before.head[3] | right.head[3]);
    }
}

#[test]
fn either_order_gives_the_same() {
    let (mut noise, mut tally) = (Noise(38), Tally::default());
    for _ in 0..40_000 {
        let sequence = Sequence::any(&mut noise, 12);
        let capacity = any_capacity(&mut noise, sequence.lengths.len());
        let left = sequence.part_of(&mut noise, capacity);
        let right = any_right(&mut noise, &sequence, &left);
        let (one, other) = (joined(&left, &right), joined(&right, &left));
        // the other way round, something else may be named
        let number = |refusal: &JoinRefusal| refusal.number();
        assert_eq!(one.as_ref().map_err(number), other.as_ref().map_err(number), "left {left:?}, right {right:?}");
        tally.add(one.map(|_| ()));
    }
    assert!(tally.came(&[0, 9, 11, 14], 1_000), "{tally:?}");
}

#[test]
fn three_records_may_be_grouped_either_way() {
    let (mut noise, mut tally) = (Noise(39), Tally::default());
    for _ in 0..40_000 {
        let sequence = Sequence::any(&mut noise, 12);
        let capacity = any_capacity(&mut noise, sequence.lengths.len());
        let first = sequence.part_of(&mut noise, capacity);
        let second = any_right(&mut noise, &sequence, &first);
        let third = any_right(&mut noise, &sequence, &second);
        let one = joined(&first, &second).and_then(|two| joined(&two, &third));
        let other = joined(&second, &third).and_then(|two| joined(&first, &two));
        assert_eq!(one.as_ref().ok(), other.as_ref().ok(), "{first:?}, {second:?}, {third:?}");
        tally.add(one.map(|_| ()));
    }
    assert!(tally.came(&[0, 11], 4_000), "{tally:?}");
}

#[test]
fn with_itself_and_with_an_empty_one_nothing_changes() {
    let mut noise = Noise(40);
    for _ in 0..10_000 {
        let sequence = Sequence::any(&mut noise, 20);
        let capacity = any_capacity(&mut noise, sequence.lengths.len());
        let record = sequence.part_of(&mut noise, capacity);
        let nothing = empty(sequence.key, capacity);
        assert_eq!(joined(&record, &record).as_ref(), Ok(&record));
        assert_eq!(joined(&record, &nothing).as_ref(), Ok(&record));
        assert_eq!(joined(&nothing, &record).as_ref(), Ok(&record));
    }
}

/// Two receivers' records joined are the record of one that heard all frames of both.
#[test]
fn joining_is_hearing_what_both_heard() {
    let (reader, mut noise) = (Reader::new(), Noise(41));
    for _ in 0..1_000 {
        let sequence = Sequence::any(&mut noise, 20);
        let Key { bearer, period, .. } = sequence.key;
        let fresh = Record::fresh(sequence.key, sequence.lengths.len()).unwrap();
        let (mut here, mut there, mut all) = (fresh.clone(), fresh.clone(), fresh);
        for _ in 0..20 {
            let frame = sequence.good(&mut noise, &reader);
            let one = if one_in(&mut noise, 2) { &mut here } else { &mut there };
            assert_eq!(one.hear(bearer, period, &frame), Ok(()));
            assert_eq!(all.hear(bearer, period, &frame), Ok(()));
        }
        assert_eq!(here.join(&there), Ok(()));
        assert_eq!(here, all);
    }
}

fn longest_sequence() -> Sequence {
    Sequence { key: Key { bearer: 1, period: 2, stamp: 3 }, lengths: vec![LONGEST; 65_535] }
}

/// A record of the longest sequence that heard only these packets.
fn longest_with(packets: &[usize]) -> Written {
    let sequence = longest_sequence();
    let mut record = empty(sequence.key, 65_535);
    for &packet in packets {
        put(&mut record, packet, LONGEST * packet as u64, LONGEST);
    }
    record
}

#[test]
fn the_longest_records_are_joined_alike() {
    let mut noise = Noise(42);
    let mut left = longest_with(&[1, 65_533]);
    for _ in 0..8 {
        let packets = [0; 3].map(|_| below(&mut noise, 65_535) as usize);
        assert_eq!(join_alike(&mut left, &longest_with(&packets)), Ok(()));
    }
    let mut right = longest_with(&[0, 65_534]);
    assert_eq!(join_alike(&mut left.clone(), &right), Ok(()));
    right.elapsed[65_534] -= 1;
    assert_eq!(join_alike(&mut left, &right), Err(JoinRefusal::Packet(65_534)));
    right = longest_with(&[]);
    for (packets, octets, expected) in [
        (65_533, LONGEST * 65_533, Err(JoinRefusal::Closing)),
        (65_535, LONGEST * 65_534 - 1, Err(JoinRefusal::Closing)),
        (65_535, LONGEST * 65_534, Ok(())),
        (65_535, LONGEST * 65_535, Ok(())),
    ] {
        right.head[3..].copy_from_slice(&[1, packets, octets]);
        assert_eq!(join_alike(&mut left.clone(), &right), expected);
    }
}

/// Dense ones, beside the plain program only: the peer that tries each packet alone would take minutes.
#[test]
fn the_longest_full_records_are_joined_alike() {
    let (mut noise, sequence) = (Noise(43), longest_sequence());
    let mut tally = Tally::default();
    for round in 0..60 {
        let mut left = sequence.part_of(&mut noise, 65_535);
        let mut right = sequence.part_of(&mut noise, 65_535);
        if round % 3 == 1 {
            right = sequence.almost(&mut noise).part_of(&mut noise, 65_535);
        } else if round % 3 == 2 {
            let way = below(&mut noise, DAMAGES);
            damage(&mut noise, &mut right, way);
        }
        tally.add(join_as_expected(&mut left, &right, plain_join));
    }
    assert!(tally.came(&[0, 11, 13], 4), "{tally:?}");
}

#[test]
fn capacities_at_their_limits() {
    let key = Key { bearer: 7, period: 3, stamp: 0 };
    let refused = |number| Err(JoinRefusal::Refused(number));
    let capacities = [0, 1, 2, 65_534, 65_535, 65_536];
    for left in capacities {
        for right in capacities {
            let expected = if left == right && left <= 65_535 { Ok(()) } else { refused(14) };
            assert_eq!(join_alike(&mut empty(key, left), &empty(key, right)), expected, "{left} and {right} places");
        }
    }
    let none_sent = Written { head: vec![7, 3, 0, 1, 0, 0], ..empty(key, 0) };
    let mut left = empty(key, 0);
    assert_eq!(join_alike(&mut left, &none_sent), Ok(()));
    assert_eq!(left, none_sent);
    let mut one = empty(key, 1);
    put(&mut one, 0, 0, LONGEST);
    assert_eq!(join_alike(&mut Written { head: vec![7, 3, 0, 1, 0, 0], ..empty(key, 1) }, &one), Err(JoinRefusal::Packet(0)));
    assert_eq!(join_alike(&mut one, &Written { head: vec![7, 3, 0, 1, 0, 0], ..empty(key, 1) }), Err(JoinRefusal::Closing));
}

/// The order 14, 13, 9, 11, each refusal beside the next.
#[test]
fn the_first_refusal_counts() {
    let key = Key { bearer: 7, period: 3, stamp: 0 };
    let record = |size: u64| {
        let mut record = empty(key, 2);
        put(&mut record, 0, 0, size);
        record
    };
    let mut right = record(6);
    assert_eq!(join_alike(&mut record(5), &right), Err(JoinRefusal::Packet(0)));
    right.head[1] = 4;
    assert_eq!(join_alike(&mut record(5), &right), Err(JoinRefusal::Refused(9)));
    right.marks[1] = 2;
    assert_eq!(join_alike(&mut record(5), &right), Err(JoinRefusal::Refused(13)));
    assert_eq!(join_alike(&mut right.clone(), &record(5)), Err(JoinRefusal::Refused(13)));
    right.sizes.pop();
    assert_eq!(join_alike(&mut record(5), &right), Err(JoinRefusal::Refused(14)));
    assert_eq!(join_alike(&mut right, &record(5)), Err(JoinRefusal::Refused(14)));
}
