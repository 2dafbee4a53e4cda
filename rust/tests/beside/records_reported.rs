//! Compiled reports beside reports counted over a sending: one sequence with losses, damaged lists, lists too short, and the laws.

use crate::counted::REPORTED;
use crate::fences::{FencedRecord, FencedRoom};
use crate::frames::Reader;
use crate::peers::Noise;
use crate::records::Written;
use crate::reports::{Room, plain_report};
use crate::sequences::{
    DAMAGES, LONGEST, Sequence, Tally, any_capacity, at_a_bound, below, damage, found_by, held, lists, numbered, one_in, put,
};
use quimdoral::{Amount, Gap, Key, Octets, Packets, Record, Report, lent};
use std::hint::black_box;

fn amount(packets: u32, octets: u64) -> Amount {
    Amount { packets: Packets(packets), octets: Octets(octets) }
}

fn gap(first: u32, count: u32, octets: u64) -> Gap {
    Gap { first: Packets(first), count: Packets(count), octets: Octets(octets) }
}

/// Lent memory full of noise, with so many places in each list.
fn room(noise: &mut Noise, [firsts, counts, octets, figures]: [usize; 4]) -> Room {
    Room {
        firsts: (0..firsts).map(|_| noise.next() as u32).collect(),
        counts: (0..counts).map(|_| noise.next() as u32).collect(),
        octets: (0..octets).map(|_| noise.next()).collect(),
        figures: (0..figures).map(|_| noise.next()).collect(),
    }
}

/// Room for so many gaps, or for a little more, or in one list for one too few.
fn any_room(noise: &mut Noise, gaps: usize) -> Room {
    let mut lengths = [gaps, gaps, gaps, 7].map(|least| least + below(noise, 3) as usize);
    let least = [gaps, gaps, gaps, 7];
    if one_in(noise, 4) {
        let list = below(noise, 4) as usize;
        lengths[list] = least[list].saturating_sub(1);
    } else if one_in(noise, 12) {
        lengths[below(noise, 4) as usize] = 0;
    }
    room(noise, lengths)
}

/// Reports with the library and with the peer into the same memory, and compares the answers and all memory, fences included.
fn report_alike(record: &Written, room: &mut Room) -> Result<(), u8> {
    let (mut ours, mut theirs) = (FencedRoom::around(room), FencedRecord::around(record));
    let answer = numbered(lent::report(theirs.held(), ours.lent()));
    let before = room.clone();
    let expected = record.report_into(room);
    let input = || format!("record {record:?}, lent {before:?}");
    assert!(answer == expected, "{answer:?}, expected {expected:?}: {}", input());
    assert!(ours == FencedRoom::around(room), "the reports differ: {}, ours {ours:?}", input());
    assert!(*black_box(&mut theirs) == FencedRecord::around(record), "the record was written: {}", input());
    assert!(answer.is_ok() || *room == before, "a refusal wrote something: {}", input());
    answer
}

/// Reports with the library into memory of its own, and compares with the peer and with the plain program.
fn report_of(record: &Written) -> Result<Report, u8> {
    let answer = numbered(Report::of(held(record)));
    assert_eq!(answer, record.report(), "{record:?}");
    let mut plain = Report::default();
    assert_eq!(plain_report(record, &mut plain).map(|()| plain), answer, "the plain report on {record:?}");
    answer
}

/// Both ways, in lent memory that may be too short.
fn report_both_ways(noise: &mut Noise, record: &Written) -> Result<(), u8> {
    let gaps = report_of(record).map_or_else(|_| below(noise, 4) as usize, |report| report.gaps.len());
    report_alike(record, &mut any_room(noise, gaps))
}

/// Parts of one sequence, at times with a packet at a bound, which may damage the record.
fn any_record(noise: &mut Noise, most: u64) -> Written {
    let sequence = Sequence::any(noise, most);
    let capacity = any_capacity(noise, sequence.lengths.len());
    let mut record = sequence.part_of(noise, capacity);
    if capacity > 0 && one_in(noise, 6) {
        let (packet, elapsed, size) = at_a_bound(noise, &record);
        put(&mut record, packet as usize, elapsed, size);
    }
    record
}

fn report_many(seed: u64, most: u64, reports: usize) -> Tally {
    let (mut noise, mut tally) = (Noise(seed), Tally::default());
    for _ in 0..reports {
        let record = any_record(&mut noise, most);
        tally.add(report_both_ways(&mut noise, &record));
    }
    tally
}

#[test]
fn records_are_reported_on_alike() {
    let tally = report_many(51, 24, REPORTED[0]);
    assert!(tally.calls() == REPORTED[0] && tally.came(&[0, 12, 13], 8_000), "{tally:?}");
}

#[test]
fn records_are_reported_on_alike_when_longer() {
    let tally = report_many(52, 1_000, REPORTED[1]);
    assert!(tally.calls() == REPORTED[1] && tally.came(&[0, 12, 13], 150), "{tally:?}");
}

#[test]
fn the_smallest_records_are_reported_on_alike() {
    for most in [0, 1, 2] {
        let tally = report_many(53 + most, most, 20_000);
        assert!(tally.came(&[0, 12], 1_000), "{tally:?}");
    }
}

#[test]
fn damaged_records_are_refused_alike() {
    let mut noise = Noise(56);
    let mut tallies: [Tally; DAMAGES as usize] = Default::default();
    for round in 0..REPORTED[2] as u64 {
        let most = if one_in(&mut noise, 40) { 300 } else { 12 };
        let mut record = any_record(&mut noise, most);
        let way = round % DAMAGES;
        damage(&mut noise, &mut record, way);
        tallies[way as usize].add(report_both_ways(&mut noise, &record));
    }
    assert_eq!(tallies.iter().map(Tally::calls).sum::<usize>(), REPORTED[2]);
    // each way to damage a record was found out, by its own number
    for (way, tally) in tallies.iter().enumerate() {
        let number = found_by(way);
        assert!(tally.0[number] > 300, "way {way}: {tally:?}");
    }
}

/// Beside the sequence that was sent, and not one that the peer made up: the counts are the same for each sending.
#[test]
fn reports_tell_what_was_sent() {
    let mut noise = Noise(57);
    for _ in 0..20_000 {
        let sequence = Sequence::any(&mut noise, 24);
        let capacity = sequence.lengths.len() + below(&mut noise, 3) as usize;
        let record = sequence.part_of(&mut noise, capacity);
        let last = record.marks.iter().rposition(|&mark| mark == 1).map_or(0, |last| last + 1);
        let sent = if record.closed() { sequence.lengths.len() } else { last };
        assert_eq!(report_of(&record), Ok(record.count_over(&sequence.lengths[..sent])), "{record:?}");
    }
}

/// Heard and missing make up what was sent, the gaps what is missing; gaps rise, hold unheard numbers only and do not touch.
fn check_laws(record: &Written, report: &Report) {
    let Report { sent, heard, missing, gaps } = report;
    assert_eq!(heard.packets.0 + missing.packets.0, sent.packets.0);
    assert_eq!(heard.octets.0 + missing.octets.0, sent.octets.0);
    assert_eq!(gaps.iter().map(|gap| gap.count.0).sum::<u32>(), missing.packets.0);
    assert_eq!(gaps.iter().map(|gap| gap.octets.0).sum::<u64>(), missing.octets.0);
    assert!(gaps.windows(2).all(|two| two[0].first + two[0].count < two[1].first));
    for gap in gaps {
        let (first, end) = (gap.first.0 as usize, (gap.first + gap.count).0 as usize);
        assert!(first < end && end <= sent.packets.0 as usize && !record.marks[first..end].contains(&1));
        assert!(gap.octets.0 <= LONGEST * u64::from(gap.count.0));
    }
}

#[test]
fn heard_and_missing_make_up_what_was_sent() {
    let (mut noise, mut reported) = (Noise(58), 0);
    for _ in 0..40_000 {
        let record = any_record(&mut noise, 24);
        if let Ok(report) = Report::of(held(&record)) {
            check_laws(&record, &report);
            reported += 1;
        }
    }
    assert!(reported > 30_000, "{reported}");
}

/// Two records joined tell of no less sent or heard than either, and of no more missing than a closed one.
#[test]
fn a_join_tells_no_less_than_either_record() {
    let mut noise = Noise(59);
    for _ in 0..10_000 {
        let sequence = Sequence::any(&mut noise, 24);
        let capacity = sequence.lengths.len();
        let (mut left, right) = (sequence.part_of(&mut noise, capacity), sequence.part_of(&mut noise, capacity));
        let alone = [report_of(&left).unwrap(), report_of(&right).unwrap()];
        assert_eq!(lent::join(lists(&mut left), held(&right)), Ok(()));
        let both = report_of(&left).unwrap();
        check_laws(&left, &both);
        for one in &alone {
            assert!(both.heard.packets >= one.heard.packets && both.heard.octets >= one.heard.octets);
            assert!(both.sent.packets >= one.sent.packets && both.sent.octets >= one.sent.octets);
        }
        assert!(!right.closed() || both.missing.packets <= alone[1].missing.packets);
    }
}

/// A record that hears frames tells the same as the lists it holds.
#[test]
fn records_that_own_their_memory_report_alike() {
    let (reader, mut noise) = (Reader::new(), Noise(60));
    for _ in 0..2_000 {
        let sequence = Sequence::any(&mut noise, 16);
        let Key { bearer, period, stamp } = sequence.key;
        let mut record = Record::fresh(sequence.key, sequence.lengths.len()).unwrap();
        let mut written = Written::empty(bearer, period, stamp, sequence.lengths.len());
        for _ in 0..below(&mut noise, 12) {
            let frame = sequence.good(&mut noise, &reader);
            assert_eq!(record.hear(bearer, period, &frame), Ok(()));
            assert_eq!(written.hear(&reader, bearer, period, &frame), Ok(()));
        }
        assert_eq!(numbered(record.report()), report_of(&written));
    }
}

/// The longest record, with so much of it heard, and closed where asked.
fn longest(heard: impl Fn(usize) -> bool, closed: bool) -> Written {
    let mut record = Written::empty(1, 2, 3, 65_535);
    for place in (0..65_535).filter(|&place| heard(place)) {
        put(&mut record, place, LONGEST * place as u64, LONGEST);
    }
    if closed {
        record.head[3..].copy_from_slice(&[1, 65_535, LONGEST * 65_535]);
    }
    record
}

#[test]
fn the_longest_records_are_reported_on_alike() {
    let mut noise = Noise(61);
    let all = amount(65_535, LONGEST * 65_535);
    for (record, gaps) in [
        (longest(|_| true, true), 0),
        (longest(|_| false, true), 1),
        (longest(|_| false, false), 0),
        (longest(|place| place % 2 == 1, true), 32_768),
        (longest(|place| place % 2 == 1, false), 32_767),
        (longest(|place| place % 2 == 0, true), 32_767),
        (longest(|place| place == 65_534, false), 1),
        (longest(|place| place == 0, true), 1),
    ] {
        let report = report_of(&record).unwrap();
        check_laws(&record, &report);
        assert_eq!(report.gaps.len(), gaps);
        assert!(!record.closed() || report.sent == all);
        assert_eq!(report_alike(&record, &mut room(&mut noise, [gaps, gaps, gaps, 7])), Ok(()));
        for list in 0..4 {
            let mut lengths = [gaps + 1, gaps + 1, gaps + 1, 8];
            lengths[list] = [gaps, gaps, gaps, 7][list].saturating_sub(1);
            let expected = if list < 3 && gaps == 0 { Ok(()) } else { Err(12) };
            assert_eq!(report_alike(&record, &mut room(&mut noise, lengths)), expected);
        }
    }
}

#[test]
fn capacities_at_their_limits() {
    let mut noise = Noise(62);
    for capacity in [0, 1, 65_535] {
        assert_eq!(report_of(&Written::empty(7, 3, 0, capacity)), Ok(Report::default()));
    }
    let too_long = Written::empty(7, 3, 0, 65_536);
    assert_eq!(report_of(&too_long), Err(14));
    assert_eq!(report_alike(&too_long, &mut room(&mut noise, [0, 0, 0, 0])), Err(14));
    let none_sent = Written { head: vec![7, 3, 0, 1, 0, 0], ..Written::empty(7, 3, 0, 0) };
    assert_eq!(report_of(&none_sent), Ok(Report::default()));
    let one_sent = Written { head: vec![7, 3, 0, 1, 1, 1], ..Written::empty(7, 3, 0, 1) };
    let missing = Report { sent: amount(1, 1), heard: amount(0, 0), missing: amount(1, 1), gaps: vec![gap(0, 1, 1)] };
    assert_eq!(report_of(&one_sent), Ok(missing));
}

/// The order 14, 13, 12, each refusal beside the next; and a gap of no octets is a gap.
#[test]
fn the_first_refusal_counts() {
    let mut noise = Noise(63);
    let mut record = Written::empty(7, 3, 0, 3);
    put(&mut record, 1, 0, 5);
    let told = Report { sent: amount(2, 5), heard: amount(1, 5), missing: amount(1, 0), gaps: vec![gap(0, 1, 0)] };
    assert_eq!(report_of(&record), Ok(told));
    for short in [[0, 1, 1, 7], [1, 0, 1, 7], [1, 1, 0, 7], [1, 1, 1, 6], [0, 0, 0, 0]] {
        let mut lent = |record: &Written| report_alike(record, &mut room(&mut noise, short));
        assert_eq!(lent(&record), Err(12));
        let mut damaged = record.clone();
        damaged.marks[2] = 2;
        assert_eq!(lent(&damaged), Err(13));
        damaged.elapsed.push(0);
        assert_eq!(lent(&damaged), Err(14));
        damaged.elapsed.pop();
        damaged.head.pop();
        assert_eq!(lent(&damaged), Err(14));
    }
}
