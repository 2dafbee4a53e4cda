//! What may stand behind the checks of a data PDU: IP packets, whole, cut and with octets behind them, headers at and beyond each limit of
//! request 2 of document 02, and octets that are no IP packet; the same in every run.
#![allow(dead_code)]

use crate::peers::Noise;

/// Makes octets begin as an IP packet that states a length, as far as they reach. IPv6 states 40 at least. Octets of another version get
/// the fields of both, so that nothing but the version is wrong with them.
fn begin(octets: &mut [u8], version: u8, ihl: u8, stated: usize) {
    let [total, carried] = [stated, stated.saturating_sub(40)].map(|length| (length as u16).to_be_bytes());
    let mut put = |at: usize, values: &[u8]| octets.iter_mut().skip(at).zip(values).for_each(|(octet, value)| *octet = *value);
    put(0, &[version << 4 | ihl]);
    if version != 6 {
        put(2, &total);
    }
    if version != 4 {
        put(4, &carried);
    }
}

/// An IP packet of so many octets, and so many behind it. With another version than 4 and 6 it is none.
pub fn packet(version: u8, length: usize, behind: usize) -> Vec<u8> {
    let mut octets = Noise(5).octets(length + behind);
    begin(&mut octets, version, 5, length);
    octets
}

/// What stands behind the checks of the frames that a benchmark times.
#[derive(Clone, Copy)]
pub struct Shape {
    pub name: &'static str,
    version: u8,
    behind: usize,
}

pub const NO_PACKET: Shape = Shape { name: "no IP packet", version: 0, behind: 0 };
pub const PACKETS: [Shape; 4] = [
    Shape { name: "an IPv4 packet", version: 4, behind: 0 },
    Shape { name: "an IPv4 packet and 2 octets behind it", version: 4, behind: 2 },
    Shape { name: "an IPv6 packet", version: 6, behind: 0 },
    Shape { name: "an IPv6 packet and 2 octets behind it", version: 6, behind: 2 },
];

impl Shape {
    /// A payload of so many octets, with what stands behind it.
    pub fn octets(self, length: usize) -> Vec<u8> {
        packet(self.version, length, self.behind)
    }
}

/// A number, or one that is up to six away from it.
fn around(noise: &mut Noise, number: usize) -> usize {
    (number + (noise.next() >> 8) as usize % 13).saturating_sub(6)
}

fn one_of<T: Copy>(noise: &mut Noise, all: &[T]) -> T {
    all[(noise.next() >> 8) as usize % all.len()]
}

/// Octets that begin as an IP packet, mostly: the length stated is a limit or lies around one, and the length there lies around that, so
/// that up to six octets stand behind the packet, or lack.
pub fn any(noise: &mut Noise) -> Vec<u8> {
    let nibbles = noise.next() >> 32;
    let version = one_of(noise, &[4, 4, 4, 4, 6, 6, 6, nibbles as u8 & 15]);
    let ihl = one_of(noise, &[5, 5, 5, 5, 4, 6, nibbles as u8 >> 4]);
    let least = if version == 6 { 40 } else { 0 };
    let limits = [20, 40, 4 * usize::from(ihl), 64, 4_095, 4_099].map(|limit| limit.max(least));
    let [limit, other] = [one_of(noise, &limits), one_of(noise, &limits)];
    let stated = match noise.next() >> 8 & 15 {
        0 => (noise.next() >> 32) as usize & 0xFFFF,
        1..=4 => limit,
        _ => around(noise, limit).max(least),
    };
    let there = match noise.next() >> 8 & 15 {
        draw if draw < 2 || stated > 5_000 => around(noise, other),
        2..=7 => stated + (noise.next() >> 8) as usize % 7,
        _ => around(noise, stated),
    };
    let mut octets = noise.octets(there);
    begin(&mut octets, version, ihl, stated);
    octets
}

/// An IP packet of so many octets with 0 to 4 behind it; where that is too few for an IP header, what there is of one and nothing behind.
pub fn extended(noise: &mut Noise, length: usize) -> Vec<u8> {
    let version = if length >= 40 { one_of(noise, &[4, 6]) } else { 4 };
    let behind = if length < 20 { 0 } else { one_of(noise, &[0, 1, 2, 3, 4]) };
    let ihl = one_of(noise, &[5, (length / 4).clamp(5, 15) as u8]);
    let mut octets = noise.octets(length + behind);
    begin(&mut octets, version, ihl, length);
    octets
}
