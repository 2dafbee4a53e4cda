//! Compiled records beside records written on their own from document 01: good frames, contradicting ones, and damaged lists.

use crate::checks_told::{WrongChecks, as_answer};
use crate::counted::{FRESH, HEARD};
use crate::fences::{Fenced, FencedRecord};
use crate::frames::{Reader, Refused, refused};
use crate::generate;
use crate::peers::Noise;
use crate::records::{PlainRecord, Written};
use crate::sequences::{DAMAGES, LONGEST, Sequence, Tally, any_capacity, at_a_bound, below, damage, found_by, next_to, numbered, one_in};
use crate::sides_met::Sides;
use quimdoral::{Key, Record, lent};

/// Hears with the library and with the peer, and compares the answers and every number of the record afterwards, fences included.
fn hear_alike(record: &mut Written, reader: &Reader, (bearer, period): (u32, u32), frame: &[u8]) -> Result<(), Refused> {
    let mut ours = FencedRecord::around(record);
    let answer = lent::hear(ours.lists(), bearer, period, frame).map_err(Refused::from);
    let before = record.clone();
    let expected = record.hear(reader, bearer, period, frame);
    let input = || format!("bearer {bearer}, period {period}, frame {:02X?}, record {before:?}", &frame[..frame.len().min(24)]);
    assert_eq!(answer, expected, "{}", input());
    assert!(ours == FencedRecord::around(record), "the records differ: {}, ours after {ours:?}", input());
    assert!(answer.is_ok() || *record == before, "a refusal changed the record: {}", input());
    answer
}

fn fresh_alike(record: &mut Written, Key { bearer, period, stamp }: Key) -> Result<(), u8> {
    let mut ours = FencedRecord::around(record);
    let answer = numbered(lent::fresh(Key { bearer, period, stamp }, ours.lists()));
    assert_eq!(answer, record.fresh(bearer, period, stamp), "key {bearer} {period} {stamp}, capacity {}", record.marks.len());
    assert!(ours == FencedRecord::around(record), "the records differ: key {bearer} {period} {stamp}, capacity {}", record.marks.len());
    answer
}

/// A number at or above the capacity, or a closing count there, with octets that reading does not refuse.
fn beyond(noise: &mut Noise, reader: &Reader, capacity: u64, stamp: u32) -> Vec<u8> {
    let number = [capacity, capacity + 1, 65_534, 65_535][below(noise, 4) as usize];
    let octets = below(noise, LONGEST * number + 1);
    match below(noise, 3) {
        0 => generate::closing(reader, stamp, number, octets),
        1 => generate::closing_with_lengths(reader, stamp, &vec![1; number.min(300) as usize]),
        _ => generate::data(reader, stamp, number, octets, 3),
    }
}

fn spoil(noise: &mut Noise, frame: &mut Vec<u8>) {
    let bit = below(noise, 8 * frame.len() as u64) as usize;
    match below(noise, 3) {
        0 => frame.truncate(bit / 8),
        1 => frame.push(noise.next() as u8),
        _ => frame[bit / 8] ^= 1 << (bit % 8),
    }
}

/// A frame for a record of a sequence: half of them good, the others wrong in one of many ways.
fn any_frame(noise: &mut Noise, reader: &Reader, sequence: &Sequence, record: &Written) -> Vec<u8> {
    let stamp = sequence.key.stamp;
    match below(noise, 24) {
        0 | 1 => sequence.almost(noise).good(noise, reader),
        2 | 3 => {
            let (packet, elapsed, size) = at_a_bound(noise, record);
            generate::data(reader, stamp, packet, elapsed, size as usize)
        }
        4 => sequence.near_closing(noise, reader),
        5 => beyond(noise, reader, record.marks.len() as u64, stamp),
        6 | 9 => generate::any(noise, reader),
        7 => {
            let mut frame = sequence.good(noise, reader);
            spoil(noise, &mut frame);
            frame
        }
        8 => {
            let other = Key { stamp: next_to(noise, stamp.into()) as u32, ..sequence.key };
            Sequence { key: other, lengths: sequence.lengths.clone() }.good(noise, reader)
        }
        10..=12 => {
            let mut frame = sequence.good(noise, reader);
            generate::spoil_a_check(noise, &mut frame);
            frame
        }
        13 => sequence.replaced(noise, reader),
        _ => sequence.good(noise, reader),
    }
}

/// Mostly the sequence's bearer and period.
fn any_way(noise: &mut Noise, key: Key) -> (u32, u32) {
    match below(noise, 24) {
        0 => (key.bearer ^ 1 << below(noise, 32), key.period),
        1 => (key.bearer, key.period ^ 1 << below(noise, 32)),
        2 if key.bearer != key.period => (key.period, key.bearer),
        _ => (key.bearer, key.period),
    }
}

/// Hears frames of many sequences of at most so many packets, and tells how often each answer came, with which checks, and of which
/// payloads.
fn hear_many(seed: u64, most: u64, calls: usize) -> (Tally, WrongChecks, Sides) {
    let reader = Reader::new();
    let mut noise = Noise(seed);
    let (mut tally, mut wrong, mut sides) = (Tally::default(), WrongChecks::default(), Sides::default());
    while tally.calls() < calls {
        let sequence = Sequence::any(&mut noise, most);
        let Key { bearer, period, stamp } = sequence.key;
        let capacity = any_capacity(&mut noise, sequence.lengths.len());
        let mut record = Written::empty(bearer, period, stamp, capacity);
        let mut plain = PlainRecord::fresh(bearer, period, stamp, capacity);
        for _ in 0..below(&mut noise, 4 * most) {
            let frame = any_frame(&mut noise, &reader, &sequence, &record);
            let way = any_way(&mut noise, sequence.key);
            let answer = hear_alike(&mut record, &reader, way, &frame);
            assert_eq!(plain.hear(&reader, way.0, way.1, &frame), answer, "the plain record on {frame:02X?} after {record:?}");
            tally.add(answer);
            sides.add(&frame, answer);
            if let Err(why) = answer {
                wrong.add(&frame, why);
            }
        }
        same_as_plain(&record, &plain);
    }
    (tally, wrong, sides)
}

#[test]
fn frames_are_heard_alike() {
    let (tally, wrong, sides) = hear_many(21, 30, HEARD[0]);
    // every answer that an undamaged record can give came up often enough to mean something
    assert!(tally.calls() >= HEARD[0] && (0..12).all(|answer| tally.0[answer] > 300), "{tally:?}");
    wrong.all_came();
    // packets were heard without what stood behind them, also from frames that are longer than the longest payload
    sides.extensions_came(1_500);
    sides.long_ones_came(1_000);
}

#[test]
fn frames_are_heard_alike_in_longer_records() {
    let (tally, ..) = hear_many(26, 1_000, HEARD[1]);
    assert!(tally.calls() >= HEARD[1] && [0, 9, 10, 11].iter().all(|&answer| tally.0[answer] > 1_000), "{tally:?}");
}

fn same_as_plain(record: &Written, plain: &PlainRecord) {
    assert!(record.marks.iter().map(|&mark| mark == 1).eq(plain.marks.iter().copied()));
    assert_eq!((&record.elapsed, &record.sizes), (&plain.elapsed, &plain.sizes));
    let closing = (record.head[3] == 1).then(|| (record.head[4] as usize, record.head[5]));
    assert_eq!(closing, plain.closing);
}

/// Nor does an extension, be it there in one of the frames of a packet and not in another.
#[test]
fn no_order_repeat_or_loss_makes_hearing_refuse() {
    let (reader, mut sides) = (Reader::new(), Sides::default());
    let mut noise = Noise(22);
    for _ in 0..1_000 {
        let sequence = Sequence::any(&mut noise, 30);
        let Key { bearer, period, stamp } = sequence.key;
        let capacity = sequence.lengths.len() + below(&mut noise, 3) as usize;
        let mut frames: Vec<_> = (0..30).map(|_| sequence.good(&mut noise, &reader)).collect();
        let mut one = Written::empty(bearer, period, stamp, capacity);
        let mut other = one.clone();
        for frame in &frames {
            assert_eq!(hear_alike(&mut one, &reader, (bearer, period), frame), Ok(()));
            sides.add(frame, Ok(()));
        }
        frames.sort_by_key(|frame| frame.iter().rev().copied().collect::<Vec<u8>>());
        for frame in &frames {
            assert_eq!(hear_alike(&mut other, &reader, (bearer, period), frame), Ok(()));
        }
        assert_eq!(one, other);
    }
    sides.extensions_came(300);
}

/// A record of a sequence after some of its frames.
fn part_heard(noise: &mut Noise, reader: &Reader, sequence: &Sequence, capacity: usize) -> Written {
    let Key { bearer, period, stamp } = sequence.key;
    let mut record = Written::empty(bearer, period, stamp, capacity);
    for _ in 0..below(noise, 16) {
        let frame = sequence.good(noise, reader);
        let _ = record.hear(reader, bearer, period, &frame);
    }
    record
}

#[test]
fn damaged_records_are_refused_alike() {
    let reader = Reader::new();
    let mut noise = Noise(23);
    let mut tallies: [Tally; DAMAGES as usize] = Default::default();
    for round in 0..HEARD[2] as u64 {
        let most = if one_in(&mut noise, 40) { 700 } else { 12 };
        let sequence = Sequence::any(&mut noise, most);
        let capacity = any_capacity(&mut noise, sequence.lengths.len());
        let whole = part_heard(&mut noise, &reader, &sequence, capacity);
        let mut record = whole.clone();
        let way = round % DAMAGES;
        damage(&mut noise, &mut record, way);
        let frame = any_frame(&mut noise, &reader, &sequence, &whole);
        let by = any_way(&mut noise, sequence.key);
        tallies[way as usize].add(hear_alike(&mut record, &reader, by, &frame));
    }
    assert_eq!(tallies.iter().map(Tally::calls).sum::<usize>(), HEARD[2]);
    // each way to damage a record was found out, by its own number
    for (way, tally) in tallies.iter().enumerate() {
        let number = found_by(way);
        assert!(tally.0[number] > 300, "way {way}: {tally:?}");
    }
}

/// Many frames at once, from memory that held anything, against the peer hearing them one by one; ends are at times out of order.
fn hear_all_alike(noise: &mut Noise, reader: &Reader, wrong: &mut WrongChecks) -> Result<(), u8> {
    let sequence = Sequence::any(noise, 20);
    let Key { bearer, period, stamp } = sequence.key;
    let capacity = any_capacity(noise, sequence.lengths.len());
    let mut expected = Written::empty(bearer, period, stamp, capacity);
    let (mut octets, mut ends) = (Vec::new(), Vec::new());
    for _ in 0..below(noise, 30) {
        let frame = any_frame(noise, reader, &sequence, &expected);
        octets.extend(frame);
        ends.push(if one_in(noise, 20) { below(noise, octets.len() as u64 + 9) as u32 } else { octets.len() as u32 });
    }
    let (mut from, mut told, mut reasons) = (0, Vec::new(), Vec::new());
    for &end in &ends {
        let frame = octets.get(from..(end as usize).min(octets.len())).unwrap_or(&[]);
        let answer = expected.hear(reader, bearer, period, frame);
        told.push(as_answer(answer));
        reasons.extend(answer.err().map(|why| (frame, why)));
        from = end as usize;
    }
    hear_all_as_told(noise, sequence.key, (&octets, &ends), expected, &told)?;
    reasons.into_iter().for_each(|(frame, why)| wrong.add(frame, why));
    Ok(())
}

/// The call itself, at times with lists that do not match, a stamp that is too high or too little room: 14, 5, 12.
fn hear_all_as_told(noise: &mut Noise, mut key: Key, (octets, ends): (&[u8], &[u32]), expected: Written, told: &[u64]) -> Result<(), u8> {
    let capacity = expected.marks.len();
    let mut memory = Written { head: vec![5; 6], marks: noise.octets(capacity), elapsed: vec![7; capacity], sizes: vec![9; capacity] };
    let room = ends.len() + 2 - below(noise, 4) as usize % (ends.len() + 3);
    let mut held: Vec<u64> = (0..room).map(|_| noise.next()).collect();
    if one_in(noise, 8) {
        let way = 10 + below(noise, 2);
        damage(noise, &mut memory, way);
    }
    if one_in(noise, 8) {
        key.stamp = [60_000, u32::MAX][below(noise, 2) as usize];
    }
    let refusal = memory.lists_fit().and(if key.stamp > 59_999 { Err(5) } else { Ok(()) });
    let refusal = refusal.and(if room < ends.len() { Err(12) } else { Ok(()) });
    let (mut ours, mut answers) = (FencedRecord::around(&memory), Fenced::around(&held));
    assert_eq!(numbered(lent::hear_all(key, ours.lists(), octets, ends, answers.lent())), refusal);
    // where all is refused, the answers stay as they were; else those behind the last frame's
    if refusal.is_ok() {
        held[..told.len()].copy_from_slice(told);
        memory = expected;
    }
    assert!(ours == FencedRecord::around(&memory), "the records differ: ends {ends:?}, ours {ours:?}, expected {memory:?}");
    assert!(answers == Fenced::around(&held), "the answers differ: ends {ends:?}, ours {answers:?}, expected {held:?}");
    refusal
}

#[test]
fn frames_in_one_call_are_heard_alike() {
    let (reader, mut noise, mut tally) = (Reader::new(), Noise(27), Tally::default());
    let mut wrong = WrongChecks::default();
    for _ in 0..HEARD[3] {
        tally.add(hear_all_alike(&mut noise, &reader, &mut wrong));
    }
    assert!(tally.calls() == HEARD[3] && [0, 5, 12, 14].iter().all(|&answer| tally.0[answer] > 1_000), "{tally:?}");
    wrong.all_came();
}

#[test]
fn fresh_records_are_made_alike() {
    let mut noise = Noise(24);
    let mut tally = Tally::default();
    for round in 0..FRESH {
        let capacity = if round < 60 { [65_534, 65_535, 65_536][round % 3] } else { below(&mut noise, 20) as usize };
        let mut record = Written {
            head: (0..6).map(|_| noise.next()).collect(),
            marks: noise.octets(capacity),
            elapsed: (0..capacity).map(|_| noise.next() as u32).collect(),
            sizes: (0..capacity).map(|_| noise.next() as u16).collect(),
        };
        if one_in(&mut noise, 4) {
            let way = 10 + below(&mut noise, 3);
            damage(&mut noise, &mut record, way);
        }
        let stamp = [0, 59_999, 60_000, 65_536, u32::MAX][below(&mut noise, 5) as usize];
        tally.add(fresh_alike(&mut record, Key { bearer: noise.next() as u32, period: noise.next() as u32, stamp }));
    }
    assert!(tally.calls() == FRESH && [0, 5, 14].iter().all(|&answer| tally.0[answer] > 1_000), "{tally:?}");
}

#[test]
fn the_longest_records_are_heard_alike() {
    let reader = Reader::new();
    let mut noise = Noise(25);
    let sequence = Sequence { key: Key { bearer: 1, period: 2, stamp: 3 }, lengths: vec![LONGEST; 65_535] };
    let mut record = Written::empty(1, 2, 3, 65_535);
    let mut packets: Vec<usize> = (0..150).map(|_| below(&mut noise, 65_535) as usize).collect();
    packets.extend([0, 1, 65_533, 65_534]);
    for (turn, &packet) in packets.iter().enumerate() {
        let frame = sequence.data(&reader, packet);
        assert_eq!(hear_alike(&mut record, &reader, (1, 2), &frame), Ok(()));
        let off = generate::data(&reader, 3, packet as u64, sequence.octets(packet).saturating_sub(1), LONGEST as usize);
        assert_eq!(hear_alike(&mut record, &reader, (1, 2), &off), if packet == 0 { Ok(()) } else { refused(11) });
        if turn % 30 == 0 {
            let frame = any_frame(&mut noise, &reader, &sequence, &record);
            let _ = hear_alike(&mut record, &reader, (1, 2), &frame);
        }
    }
    for closing in [sequence.closing(&reader), sequence.closing_with_lengths(&reader)] {
        assert_eq!(hear_alike(&mut record, &reader, (1, 2), &closing), Ok(()));
    }
    for list in 0..3 {
        damage_the_last_place(&reader, &sequence, &record, list);
    }
}

fn damage_the_last_place(reader: &Reader, sequence: &Sequence, record: &Written, list: usize) {
    let mut record = record.clone();
    match list {
        0 => record.marks[65_534] = 2,
        1 => record.elapsed[65_534] -= 1,
        _ => record.sizes[65_534] -= 1,
    }
    assert_eq!(hear_alike(&mut record, reader, (1, 2), &sequence.data(reader, 0)), refused(13));
}

#[test]
fn capacities_at_their_limits() {
    let reader = Reader::new();
    let first = generate::data(&reader, 0, 0, 0, 1);
    let none = generate::closing(&reader, 0, 0, 0);
    let mut record = Written::empty(7, 3, 0, 0);
    assert_eq!(hear_alike(&mut record, &reader, (7, 3), &first), refused(10));
    assert_eq!(hear_alike(&mut record, &reader, (7, 3), &generate::closing(&reader, 0, 1, 1)), refused(10));
    assert_eq!(hear_alike(&mut record, &reader, (7, 3), &none), Ok(()));
    assert_eq!(record.head, [7, 3, 0, 1, 0, 0]);
    let mut too_long = Written::empty(7, 3, 0, 65_536);
    assert_eq!(hear_alike(&mut too_long, &reader, (7, 3), &first), refused(14));
    assert_eq!(hear_alike(&mut too_long, &reader, (7, 3), &[]), refused(14));
    assert_eq!(fresh_alike(&mut too_long, Key { bearer: 7, period: 3, stamp: 60_000 }), Err(14));
    let mut longest = Written::empty(7, 3, 0, 65_535);
    assert_eq!(hear_alike(&mut longest, &reader, (7, 3), &generate::data(&reader, 0, 65_534, LONGEST * 65_534, 0)), Ok(()));
    assert_eq!(hear_alike(&mut longest, &reader, (7, 3), &generate::closing(&reader, 0, 65_535, LONGEST * 65_535)), refused(11));
    assert_eq!(hear_alike(&mut longest, &reader, (7, 3), &generate::closing(&reader, 0, 65_535, LONGEST * 65_534)), Ok(()));
}

/// After packet 1, both ends of what the packets around it and a closing can say.
#[test]
fn bounds_hold_at_both_ends() {
    let reader = Reader::new();
    let start = LONGEST / 2;
    let heard = || {
        let mut record = Written::empty(7, 3, 0, 8);
        assert_eq!(hear_alike(&mut record, &reader, (7, 3), &generate::data(&reader, 0, 1, start, 10)), Ok(()));
        record
    };
    let answer = |frame: &[u8]| hear_alike(&mut heard(), &reader, (7, 3), frame);
    for number in 2..8 {
        let least = start + 10;
        let most = least + (number - 2) * LONGEST;
        for (octets, expected) in [(least - 1, refused(11)), (least, Ok(())), (most, Ok(())), (most + 1, refused(11))] {
            assert_eq!(answer(&generate::data(&reader, 0, number, octets, 0)), expected);
            assert_eq!(answer(&generate::closing(&reader, 0, number, octets)), expected);
        }
    }
    for (size, expected) in [(start - 1, refused(11)), (start, Ok(())), (start + 1, refused(11))] {
        assert_eq!(answer(&generate::data(&reader, 0, 0, 0, size as usize)), expected);
    }
    assert_eq!(answer(&generate::closing(&reader, 0, 1, start)), refused(11));
    assert_eq!(answer(&generate::closing(&reader, 0, 2, start + 10)), Ok(()));
}

/// Document 01's examples G and H, by the record that owns its memory.
#[test]
fn examples_g_and_h() {
    let reader = Reader::new();
    let b = [0x10, 0, 0, 0, 0, 0, 0, 0, 0, 0x3A, 0x33, 0x01];
    for (number, elapsed, expected) in [(1, 2, refused(11)), (2, 1, Ok(())), (2, 4_096, Ok(())), (2, 4_097, refused(11))] {
        let mut record = Record::fresh(Key { bearer: 7, period: 3, stamp: 0 }, 4).unwrap();
        assert_eq!(record.hear(7, 3, &b), Ok(()));
        let before = record.clone();
        assert_eq!(record.hear(7, 3, &generate::data(&reader, 0, number, elapsed, 5)).map_err(Refused::from), expected);
        assert_eq!(record == before, expected.is_err());
    }
}
