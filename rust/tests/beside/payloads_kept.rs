//! How many octets of a payload are kept: the library beside the peer's rule and the request's clauses, on payloads at every limit.
use crate::counted::KEPT;
use crate::frames::kept;
use crate::payloads;
use crate::peers::Noise;
use crate::sides_met::{Sides, length};
use quimdoral::frames::payload_kept;

fn kept_alike(payload: &[u8]) -> usize {
    let ours = payload_kept(payload);
    let shown = &payload[..payload.len().min(48)];
    assert_eq!(ours, kept(payload), "{} octets, {shown:02X?}", payload.len());
    assert_eq!(ours, length(payload), "{} octets, {shown:02X?}", payload.len());
    ours
}

#[test]
fn payloads_are_kept_alike() {
    let (mut noise, mut sides) = (Noise(111), Sides::default());
    for _ in 0..KEPT {
        let payload = payloads::any(&mut noise);
        kept_alike(&payload);
        sides.taken(&payload);
    }
    sides.all_came(5_000, 1_000);
    sides.long_ones_came(500);
}

/// Every first octet and every length stated, for every length there up to six octets more than the longest header. The octets beside are
/// ones, so that a length that is read from another place is more than is there; other versions state it in the places of both.
#[test]
fn short_packets_are_kept_alike() {
    let mut dropped = 0;
    for first in 0..=255 {
        for there in 0..=66 {
            for stated in 0..=70 {
                let mut payload = [0xFF; 66];
                payload[0] = first;
                for (other, at) in [(6, 2), (4, 4)] {
                    if first / 16 != other {
                        payload[at..at + 2].copy_from_slice(&[0, stated]);
                    }
                }
                dropped += usize::from(kept_alike(&payload[..there]) < there);
            }
        }
    }
    // IPv4 from each IHL on, with one to four octets behind; IPv6 alike from 40 octets on, in each of 16 first octets
    let packets = |least: usize| (least..=66).map(|stated| 4.min(66 - stated)).sum::<usize>();
    let expected = (5..=15).map(|ihl| packets(4 * ihl)).sum::<usize>() + 16 * packets(40);
    assert_eq!(dropped, expected);
}

/// The rule knows no longest payload: the widest fields, and an octet more or less than they allow.
#[test]
fn the_longest_packets_are_kept_alike() {
    for (version, stated) in [(4, 65_535), (6, 65_535 + 40)] {
        for (behind, dropped) in [(0, 0), (1, 1), (4, 4), (5, 0)] {
            let payload = payloads::packet(version, stated, behind);
            assert_eq!(kept_alike(&payload), stated + behind - dropped);
        }
        assert_eq!(kept_alike(&payloads::packet(version, stated, 0)[..stated - 1]), stated - 1);
    }
    assert_eq!(kept_alike(&[]), 0);
}
