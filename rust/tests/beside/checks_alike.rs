//! The compiled checks beside long division bit by bit: what no proof covers is the compiler's back end.

use crate::peers::{HEADER, HeaderTable, Noise, PAYLOAD, Tables, by_bits};
use quimdoral::checks::{header_check, payload_check};

fn agree(octets: &[u8]) {
    assert_eq!(u32::from(header_check(octets)), by_bits(HEADER, octets), "header check of {octets:02X?}");
    assert_eq!(u32::from(payload_check(octets)), by_bits(PAYLOAD, octets), "payload check of {octets:02X?}");
}

#[test]
fn every_length_to_600_at_every_alignment() {
    let row = Noise(1).octets(700);
    for start in 0..16 {
        for length in 0..=600 {
            agree(&row[start..start + length]);
        }
    }
}

#[test]
fn every_single_bit_of_200_octets() {
    let mut row = [0u8; 200];
    for bit in 0..1600 {
        row[bit / 8] ^= 0x80 >> (bit % 8);
        for length in [9, 17, 63, 64, 65, 127, 128, 191, 192, 200] {
            agree(&row[..length]);
        }
        row[bit / 8] = 0;
    }
}

#[test]
fn long_rows() {
    let mut noise = Noise(2);
    for _ in 0..400 {
        let length = (noise.next() % 70_000) as usize;
        agree(&noise.octets(length));
    }
    agree(&[0xFF; 65_535]);
}

#[test]
fn the_peers_agree_among_themselves() {
    let tables = Tables::new();
    let header = HeaderTable::new();
    let row = Noise(3).octets(5_000);
    for length in (0..300).chain([1_500, 4_095, 5_000]) {
        let octets = &row[..length];
        let check = by_bits(PAYLOAD, octets) as u16;
        assert_eq!(tables.by_octets(octets), check);
        assert_eq!(tables.by_slices::<8>(octets), check);
        assert_eq!(tables.by_slices::<16>(octets), check);
        assert_eq!(u32::from(header.by_octets(octets)), by_bits(HEADER, octets));
    }
}
