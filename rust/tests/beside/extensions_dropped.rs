//! Request 2 of document 02 in plain cases: what stands behind an IP packet is dropped, and where it is not one, nothing is.
use crate::accounts_printed::printed_alike;
use crate::frames::{Frame, Reader, Refused, refused, told};
use crate::generate::{closing, closing_with_lengths, data_with, put_payload_check};
use crate::items;
use crate::payloads::packet;
use crate::peers::{PAYLOAD, by_bits};
use quimdoral::{Amount, Gap, Key, Octets, Packets, Record, frames};

const KEY: Key = Key { bearer: 7, period: 3, stamp: 0 };

/// The length of the payload that the library and the peer read.
fn read_length(frame: &[u8]) -> Result<u32, Refused> {
    let said = told(frame);
    assert_eq!(said, Reader::new().read(frame), "{frame:02X?}");
    said.map(|said| if let Frame::Data(data) = said { data.length } else { panic!("{said:?} is no data PDU") })
}

/// The same of a frame with these octets behind its checks.
fn taken_of(part: &[u8]) -> Result<u32, Refused> {
    let frame = data_with(&Reader::new(), 0, 0, 0, part);
    let taken = read_length(&frame);
    assert!(taken.is_err() || taken == Ok(frames::payload_kept(part) as u32), "{frame:02X?}");
    taken
}

/// The frames of a core that adds two octets after each packet and counts the packets alone; behind them two closings.
fn partners_frames(packets: &[Vec<u8>]) -> Vec<Vec<u8>> {
    let (reader, mut elapsed, mut frames) = (Reader::new(), 0, Vec::new());
    for (number, packet) in packets.iter().enumerate() {
        frames.push(data_with(&reader, KEY.stamp, number as u64, elapsed, &[packet, &[0xAA, 0xBB][..]].concat()));
        elapsed += packet.len() as u64;
    }
    frames.push(closing(&reader, KEY.stamp, packets.len() as u64, elapsed));
    let lengths: Vec<u64> = packets.iter().map(|packet| packet.len() as u64).collect();
    frames.push(closing_with_lengths(&reader, KEY.stamp, &lengths));
    frames
}

fn partners_packets() -> Vec<Vec<u8>> {
    [40, 20, 1_400, 576, 21, 4_095].map(|length| packet(4, length, 0)).into()
}

/// All is heard, one by one and in one call, with the octets that were sent; and what is lost is missing with its own octets.
#[test]
fn a_core_that_adds_two_octets_is_heard() {
    let packets = partners_packets();
    let frames = partners_frames(&packets);
    for (frame, packet) in frames.iter().zip(&packets) {
        let Ok(frames::Frame::Data(data)) = frames::read(frame) else { panic!("{frame:02X?}") };
        assert_eq!((data.payload, frame.len()), (&packet[..], 11 + packet.len() + 2));
    }
    let octets = packets.iter().map(Vec::len).sum::<usize>() as u64;
    let mut record = Record::fresh(KEY, packets.len()).unwrap();
    for (turn, frame) in frames.iter().enumerate().filter(|&(turn, _)| turn != 2) {
        assert_eq!(record.hear(KEY.bearer, KEY.period, frame), Ok(()), "frame {turn}");
    }
    let report = record.report().unwrap();
    assert_eq!(report.sent, Amount { packets: Packets(6), octets: Octets(octets) });
    assert_eq!(report.gaps, [Gap { first: Packets(2), count: Packets(1), octets: Octets(1_400) }]);
    assert_eq!(record.hear(KEY.bearer, KEY.period, &frames[2]), Ok(()));
    assert_eq!(record.report().unwrap().heard, report.sent);
    assert_eq!(record.sizes(), [40, 20, 1_400, 576, 21, 4_095]);
    let ends: Vec<u32> = frames.iter().scan(0, |end, frame| Some((*end += frame.len() as u32, *end).1)).collect();
    let at_once = Record::hear_all(KEY, packets.len(), &frames.concat(), &ends);
    assert_eq!(at_once, Ok((record, vec![Ok(()); frames.len()])));
}

#[test]
fn the_account_of_a_core_that_adds_two_octets() {
    let mut input = items::key(KEY);
    partners_frames(&partners_packets()).iter().for_each(|frame| input.extend(items::frame(frame)));
    let text = printed_alike(&input, "a core that adds two octets");
    assert_eq!(text, "sequence 7 3 0 closed\nsent 6 6152\nheard 6 6152\nmissing 0 0\nend\n");
}

/// The frame as it stands on the wire: an IPv4 header of 20 octets, which is the whole packet, and AA BB behind it.
const EXTENDED: [u8; 33] =
    [0x10, 0, 0, 0, 0, 0, 0, 0, 0, 0x3B, 0x98, 0x45, 0, 0, 0x14, 0, 0, 0, 0, 0, 0, 0, 0, 0, 0, 0, 0, 0, 0, 0, 0, 0xAA, 0xBB];

#[test]
fn two_octets_behind_a_header() {
    assert_eq!(read_length(&EXTENDED), Ok(20));
    let Ok(frames::Frame::Data(data)) = frames::read(&EXTENDED) else { panic!("a data PDU") };
    assert_eq!(data.payload, &EXTENDED[11..31]);
    assert_eq!(frames::lengths(&EXTENDED), Ok(Vec::new()));
    // written whole, it is this frame; what was read is written as a frame without the two octets
    let whole = frames::Data { payload: &EXTENDED[11..], ..data };
    assert_eq!(whole.to_vec().unwrap(), EXTENDED);
    assert_eq!(data.to_vec().unwrap(), data_with(&Reader::new(), 0, 0, 0, &EXTENDED[11..31]));
}

/// Each clause by which all is payload, next to the case in which it does not hold.
#[test]
fn all_is_payload() {
    let part = |first: u8, stated: u8, there: usize| {
        let mut part = vec![0; there];
        (part[0], part[3]) = (first, stated);
        taken_of(&part)
    };
    assert_eq!((part(0x45, 20, 22), part(0x45, 20, 24), part(0x45, 20, 25)), (Ok(20), Ok(20), Ok(25)), "over four less");
    assert_eq!((part(0x45, 22, 22), part(0x45, 23, 22)), (Ok(22), Ok(22)), "more than is there");
    assert_eq!((part(0x45, 19, 22), part(0x46, 23, 26), part(0x46, 24, 26)), (Ok(22), Ok(26), Ok(24)), "less than its own header");
    assert_eq!((part(0x44, 20, 22), part(0x40, 20, 22)), (Ok(22), Ok(22)), "an IHL under 5");
    assert_eq!((part(0x35, 20, 22), part(0x55, 20, 22)), (Ok(22), Ok(22)), "another version");
    assert_eq!((part(0x45, 18, 19), part(0x45, 20, 19)), (Ok(19), Ok(19)), "an incomplete header");
    assert_eq!(taken_of(&[]), Ok(0));
    assert_eq!(taken_of(&[0x45]), Ok(1));
}

#[test]
fn packets_of_ipv6() {
    let part = |carried: u8, there: usize| {
        let mut part = vec![0; there];
        (part[0], part[5]) = (0x60, carried);
        taken_of(&part)
    };
    assert_eq!((part(1, 41), part(1, 44), part(1, 45), part(1, 46)), (Ok(41), Ok(41), Ok(41), Ok(46)));
    // a payload length of 0 states the header alone
    assert_eq!((part(0, 40), part(0, 43), part(0, 45)), (Ok(40), Ok(40), Ok(45)));
    assert_eq!((part(1, 40), part(0, 39)), (Ok(40), Ok(39)));
}

/// The check of a frame covers its extension: one over the packet alone is wrong, and is told with the one over everything.
#[test]
fn the_check_covers_the_extension() {
    let [found, worked_out] = [31, 33].map(|end| by_bits(PAYLOAD, &EXTENDED[11..end]) as u16);
    let mut frame = EXTENDED;
    put_payload_check(&mut frame, found);
    assert_eq!(read_length(&frame), Err(Refused { number: 7, found, worked_out }));
    assert_eq!(read_length(&frame[..31]), Ok(20));
}

/// Refusal 6 judges what is left after dropping, and still comes before 7.
#[test]
fn the_longest_payloads() {
    for (version, stated, there, expected) in [
        (4, 4_095, 4_095, Ok(4_095)),
        (4, 4_095, 4_099, Ok(4_095)),
        (4, 4_095, 4_100, refused(6)),
        (4, 4_092, 4_096, Ok(4_092)),
        (4, 4_091, 4_096, refused(6)),
        (4, 4_096, 4_096, refused(6)),
        (4, 4_096, 4_099, refused(6)),
        (6, 4_095, 4_099, Ok(4_095)),
        (6, 4_095, 4_100, refused(6)),
        (6, 4_096, 4_097, refused(6)),
        (5, 4_095, 4_099, refused(6)),
        (7, 4_095, 4_099, refused(6)),
    ] {
        let mut frame = data_with(&Reader::new(), 0, 0, 0, &packet(version, stated, there - stated));
        assert_eq!(read_length(&frame), expected, "version {version}, {stated} stated, {there} there");
        frame[10] ^= 1;
        let number = read_length(&frame).map_err(|why| why.number);
        assert_eq!(number, Err(if expected.is_ok() { 7 } else { 6 }), "version {version}, {stated} stated, {there} there, a wrong check");
    }
}
