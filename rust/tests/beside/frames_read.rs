//! Compiled reading beside a plain Rust reader that was written on its own, on frames near every limit, and on damaged ones.
use crate::checks_told::WrongChecks;
use crate::counted::{READ, READ_AS_PACKETS};
use crate::frames::{Frame, Reader, kept, told};
use crate::generate::{WAYS, any_way};
use crate::peers::Noise;
use crate::sides_met::Sides;

/// Whether a frame is a data PDU whose payload begins as an IP packet.
fn has_a_packet(frame: &[u8]) -> bool {
    frame.len() > 11 && frame[0] >> 4 == 1 && matches!(frame[11] >> 4, 4 | 6)
}

#[test]
fn a_million_frames_are_read_alike() {
    let (reader, mut noise) = (Reader::new(), Noise(11));
    let (mut accepted, mut refused, mut ways) = ([0usize; 3], [0usize; 9], [0usize; WAYS.len()]);
    let (mut wrong, mut sides, mut packets) = (WrongChecks::default(), Sides::default(), 0);
    for _ in 0..READ {
        let (way, frame) = any_way(&mut noise, &reader);
        let ours = told(&frame);
        assert_eq!(ours, reader.read(&frame), "{frame:02X?}");
        ways[way] += 1;
        packets += usize::from(has_a_packet(&frame));
        sides.add(&frame, ours.map(|_| ()));
        match ours {
            Ok(Frame::Closing(_)) => accepted[0] += 1,
            Ok(Frame::Data(_)) => accepted[1] += 1,
            Ok(Frame::ClosingWithLengths(_)) => accepted[2] += 1,
            Err(why) => {
                refused[usize::from(why.number)] += 1;
                wrong.add(&frame, why);
            }
        }
    }
    // every way to make a frame, every case and every refusal of reading came up often enough to mean something
    assert_eq!(ways.iter().sum::<usize>(), READ);
    assert!(ways.iter().all(|&times| times > READ / 12), "{WAYS:?}: {ways:?}");
    assert!(accepted.iter().all(|&times| times > 1_000), "accepted {accepted:?}");
    assert!(refused[1..].iter().all(|&times| times > 1_000), "refused {refused:?}");
    wrong.all_came();
    // so did every side of every clause about extensions
    assert!(packets > READ_AS_PACKETS, "{packets} frames with IP packets");
    sides.all_came(2_000, 250);
    sides.long_ones_came(150);
    sides.refusals_came(1_000);
}

/// The payload of an accepted data PDU is the frame's own octets, from the twelfth on, and as far as its extension.
#[test]
fn payloads_are_borrowed_from_the_frame() {
    let (reader, mut noise, mut whole, mut extended) = (Reader::new(), Noise(12), 0, 0);
    for _ in 0..40_000 {
        let frame = any_way(&mut noise, &reader).1;
        if let Ok(quimdoral::Frame::Data(data)) = quimdoral::frames::read(&frame) {
            let payload = &frame[11..][..kept(&frame[11..])];
            assert!(std::ptr::eq(data.payload, payload), "{frame:02X?}");
            *if payload.len() + 11 == frame.len() { &mut whole } else { &mut extended } += 1;
        }
    }
    assert!(whole > 2_000 && extended > 500, "{whole} whole, {extended} extended");
}
