//! The types that own their memory, from the sender to the report: what receivers lost is what is told missing. Then records made from
//! parts, damaged ones too, beside the peer.
use crate::counted::{MADE, PERIODS};
use crate::frames::{Reader, Refused, kept, refused};
use crate::joining::JoinRefusal;
use crate::payloads::packet;
use crate::peers::Noise;
use crate::records::Written;
use crate::sequences::{DAMAGES, Sequence, Tally, any_capacity, any_length, below, damage, numbered, one_in};
use quimdoral::record::{Closed, Heard, Parts};
use quimdoral::{Amount, Gap, Key, Octets, Packets, Record, Report, Sender, frames};

/// A sequence as our sender sent it.
struct Sent {
    key: Key,
    lengths: Vec<u64>,
    /// One frame for each packet, then the closing.
    frames: Vec<Vec<u8>>,
}

/// A payload from which nothing is dropped: octets of any kind, or a whole IP packet.
fn whole_payload(noise: &mut Noise, length: u64) -> Vec<u8> {
    let payload = match below(noise, 4) {
        0 => packet(4, length as usize, 0),
        1 => packet(6, length as usize, 0),
        _ => noise.octets(length as usize),
    };
    assert_eq!(kept(&payload), payload.len(), "a payload that is read back shorter: {payload:02X?}");
    payload
}

impl Sent {
    fn by(sender: &mut Sender, noise: &mut Noise, key: Key) -> Sent {
        sender.open(key.stamp).expect("a later stamp");
        let before = sender.state();
        let wide = one_in(noise, 8);
        let lengths: Vec<u64> = (0..below(noise, 25)).map(|_| any_length(noise, wide)).collect();
        let send = |&length: &u64| sender.data_to_vec(&whole_payload(noise, length)).expect("a packet of an open sequence");
        let mut frames: Vec<_> = lengths.iter().map(send).collect();
        let (number, elapsed) = (Packets(lengths.len() as u32), Octets(lengths.iter().sum()));
        let with_lengths: Vec<u16> = lengths.iter().map(|&length| length as u16).collect();
        let closing = if one_in(noise, 2) { sender.close_to_vec() } else { sender.close_with_lengths_to_vec(&with_lengths) };
        frames.push(closing.expect("the closing of an open sequence"));
        let said = match frames::read(&frames[lengths.len()]).expect("our own frame") {
            frames::Frame::Closing(closing) | frames::Frame::ClosingWithLengths(closing) => closing,
            frames::Frame::Data(_) => panic!("a closing was sent"),
        };
        assert_eq!((said.stamp, said.number, said.elapsed), (key.stamp, number, elapsed));
        assert_eq!((said.total_packets, said.total_octets), (before.total_packets + number, before.total_octets + elapsed));
        Sent { key, lengths, frames }
    }

    /// Hears some of the frames in any order, at times twice, and marks which.
    fn heard_by(&self, noise: &mut Noise, record: &mut Record) -> Vec<bool> {
        let mut came = vec![false; self.frames.len()];
        for _ in 0..below(noise, 2 * self.frames.len() as u64) {
            let which = below(noise, self.frames.len() as u64) as usize;
            assert_eq!(record.hear(self.key.bearer, self.key.period, &self.frames[which]), Ok(()), "frame {which} of {:?}", self.lengths);
            came[which] = true;
        }
        came
    }

    /// The report that has to come of it, counted packet by packet.
    fn report(&self, came: &[bool]) -> Report {
        let packets = self.lengths.len();
        let last = came[..packets].iter().rposition(|&came| came).map_or(0, |last| last + 1);
        let sent = if came[packets] { packets } else { last };
        let mut report = Report::default();
        for place in 0..sent {
            let more = |amount: &mut Amount| {
                amount.packets = amount.packets + Packets(1);
                amount.octets = amount.octets + Octets(self.lengths[place]);
            };
            more(&mut report.sent);
            more(if came[place] { &mut report.heard } else { &mut report.missing });
            if came[place] {
                continue;
            }
            if place == 0 || came[place - 1] {
                report.gaps.push(Gap { first: Packets(place as u32), count: Packets(0), octets: Octets(0) });
            }
            let gap = report.gaps.last_mut().expect("a gap was begun");
            (gap.count, gap.octets) = (gap.count + Packets(1), gap.octets + Octets(self.lengths[place]));
        }
        report
    }

    /// What the record holds is what came.
    fn check_held(&self, record: &Record, came: &[bool]) {
        let mut elapsed = 0;
        let mut held = Vec::new();
        for (place, &length) in self.lengths.iter().enumerate() {
            if came[place] {
                held.push((Packets(place as u32), Heard { elapsed: Octets(elapsed), length: Octets(length) }));
            }
            elapsed += length;
        }
        assert!(record.packets().eq(held.iter().copied()), "{record:?}");
        let closed = Closed { packets: Packets(self.lengths.len() as u32), octets: Octets(elapsed) };
        assert_eq!(record.closed(), came[self.lengths.len()].then_some(closed));
        assert_eq!(record.report(), Ok(self.report(came)));
        assert_eq!(record.key(), self.key);
    }
}

#[test]
fn what_two_receivers_lost_is_told_missing() {
    let mut noise = Noise(101);
    for period in 0..PERIODS {
        let (mut sender, mut stamp) = (Sender::new(), below(&mut noise, 30_000) as u32);
        for _ in 0..below(&mut noise, 8) {
            let sent = Sent::by(&mut sender, &mut noise, Key { bearer: 7, period: period as u32, stamp });
            let nothing = Record::fresh(sent.key, sent.lengths.len() + below(&mut noise, 3) as usize).unwrap();
            let (mut here, mut there) = (nothing.clone(), nothing);
            let came = [sent.heard_by(&mut noise, &mut here), sent.heard_by(&mut noise, &mut there)];
            sent.check_held(&here, &came[0]);
            sent.check_held(&there, &came[1]);
            let either: Vec<bool> = came[0].iter().zip(&came[1]).map(|(&one, &other)| one || other).collect();
            assert_eq!(here.join(&there), Ok(()));
            sent.check_held(&here, &either);
            stamp += 1 + below(&mut noise, 3_000) as u32;
        }
        assert_eq!(sender.new_period(), Ok(()));
        assert_eq!(sender, Sender::new());
    }
}

/// Two frames that our sender sends after some others: this payload, which has the packet number given, and then a packet or the closing.
fn sent_with_stray_octets(noise: &mut Noise, key: Key, stray: &[u8]) -> (Packets, [Vec<u8>; 2]) {
    let mut sender = Sender::new();
    sender.open(key.stamp).unwrap();
    for _ in 0..below(noise, 4) {
        let length = any_length(noise, false);
        sender.data_to_vec(&whole_payload(noise, length)).unwrap();
    }
    let number = sender.state().number;
    let data = sender.data_to_vec(stray).unwrap();
    let next = if one_in(noise, 2) { sender.close_to_vec() } else { sender.data_to_vec(b"news") };
    (number, [data, next.unwrap()])
}

/// The sender counts all octets that it is given, and receivers drop those behind an IP packet: the frame and the next one contradict each
/// other, whichever is heard first. So what our sender wrote is heard as it was sent only where nothing is dropped from it.
#[test]
fn octets_behind_our_own_packets_contradict() {
    let (mut noise, key) = (Noise(104), Key { bearer: 7, period: 3, stamp: 5 });
    for (version, behind) in [4, 6].into_iter().flat_map(|version| (1..=4).map(move |behind| (version, behind))) {
        for _ in 0..50 {
            let length = 40 + below(&mut noise, 100) as usize;
            let (number, [stray, next]) = sent_with_stray_octets(&mut noise, key, &packet(version, length, behind));
            let mut record = Record::fresh(key, 8).unwrap();
            assert_eq!(record.hear(7, 3, &stray), Ok(()));
            assert_eq!(record.heard(number).map(|heard| heard.length), Some(Octets(length as u64)));
            assert_eq!(record.hear(7, 3, &next).map_err(Refused::from), refused(11), "behind {behind} octets of IPv{version}");
            let mut record = Record::fresh(key, 8).unwrap();
            assert_eq!(record.hear(7, 3, &next), Ok(()));
            assert_eq!(record.hear(7, 3, &stray).map_err(Refused::from), refused(11), "{behind} octets behind IPv{version}");
        }
    }
}

#[test]
fn many_frames_in_a_call_are_heard_as_one_by_one() {
    let mut noise = Noise(102);
    for _ in 0..3_000 {
        let sent = Sent::by(&mut Sender::new(), &mut noise, Key { bearer: 1, period: 2, stamp: 3 });
        let capacity = any_capacity(&mut noise, sent.lengths.len());
        let mut one_by_one = Record::fresh(sent.key, capacity).unwrap();
        let (mut octets, mut ends, mut expected) = (Vec::new(), Vec::new(), Vec::new());
        for _ in 0..below(&mut noise, 20) {
            let mut frame = sent.frames[below(&mut noise, sent.frames.len() as u64) as usize].clone();
            if one_in(&mut noise, 4) {
                frame.truncate(below(&mut noise, frame.len() as u64) as usize);
            }
            expected.push(one_by_one.hear(1, 2, &frame));
            octets.extend(frame);
            ends.push(octets.len() as u32);
        }
        assert_eq!(Record::hear_all(sent.key, capacity, &octets, &ends), Ok((one_by_one, expected)));
    }
}

/// The record of these lists, where its numbers fit the types.
fn made(written: &Written) -> Option<Record> {
    let &[bearer, period, stamp, closed, packets, octets] = written.head.as_slice() else { return None };
    let key = Key { bearer: bearer.try_into().ok()?, period: period.try_into().ok()?, stamp: stamp.try_into().ok()? };
    let closed = match (closed, packets, octets) {
        (0, 0, 0) => None,
        (1, _, _) => Some(Closed { packets: Packets(packets.try_into().ok()?), octets: Octets(octets) }),
        _ => return None,
    };
    let (marks, elapsed, sizes) = (written.marks.clone(), written.elapsed.clone(), written.sizes.clone());
    Some(Record::from_parts(Parts { key, closed, marks, elapsed, sizes }))
}

/// A record from parts, mostly damaged, beside the peer: it hears, is joined from either side, and is reported on.
fn use_made(noise: &mut Noise, reader: &Reader, way: u64) -> Option<Result<Report, u8>> {
    let sequence = Sequence::any(noise, 12);
    let capacity = any_capacity(noise, sequence.lengths.len());
    let (mut written, other) = (sequence.part_of(noise, capacity), sequence.part_of(noise, capacity));
    damage(noise, &mut written, way);
    let (record, right) = (made(&written)?, made(&other).expect("an undamaged record"));
    assert_eq!(made(&written).map(|record| Record::from_parts(record.into_parts())), Some(record.clone()));
    let frame = sequence.good(noise, reader);
    let (mut ours, mut theirs) = (record.clone(), written.clone());
    let answer = ours.hear(sequence.key.bearer, sequence.key.period, &frame).map_err(Refused::from);
    assert_eq!(answer, theirs.hear(reader, sequence.key.bearer, sequence.key.period, &frame), "{written:?}, {frame:02X?}");
    assert_eq!(Some(ours), made(&theirs));
    for (left, right, left_written, right_written) in [(&record, &right, &written, &other), (&right, &record, &other, &written)] {
        let (mut ours, mut theirs) = (left.clone(), left_written.clone());
        assert_eq!(ours.join(right).map_err(JoinRefusal::from), theirs.join(right_written), "{left_written:?}, {right_written:?}");
        assert_eq!(Some(ours), made(&theirs));
    }
    let report = numbered(record.report());
    assert_eq!(report, written.report(), "{written:?}");
    Some(report)
}

#[test]
fn records_made_from_parts_are_used_alike() {
    let (reader, mut noise, mut tally) = (Reader::new(), Noise(103), Tally::default());
    let mut way = 0;
    while tally.calls() < MADE {
        way = (way + 1) % DAMAGES;
        if let Some(report) = use_made(&mut noise, &reader, way) {
            tally.add(report.map(|_| ()));
        }
    }
    assert!(tally.came(&[0, 13, 14], 1_000), "{tally:?}");
}

/// Every octet: the numbers of the table stand for their refusals, and no other number for any.
#[test]
fn refusals_are_known_by_their_numbers() {
    for number in 0..=255 {
        let refusal = quimdoral::Refusal::from_number(number).map(quimdoral::Refusal::number);
        let given = (1..=18).contains(&number) || (20..=23).contains(&number);
        assert_eq!(refusal, given.then_some(number), "number {number}");
    }
    assert_eq!(quimdoral::Refusal::ALL.len(), 22);
}

#[test]
fn refusals_say_what_they_mean() {
    for refusal in quimdoral::Refusal::ALL {
        let text = refusal.to_string();
        assert!(text.starts_with(&format!("refusal {}: ", refusal.number())) && text.len() > 30, "{text}");
    }
    assert_eq!(quimdoral::JoinRefusal::Packet(Packets(3)).to_string(), "refusal 11: packet 3 of the right record contradicts the left");
}
