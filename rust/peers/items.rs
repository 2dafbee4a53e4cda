//! Inputs of the account program: keys and frames as items, one behind the other.
#![allow(dead_code)]

use quimdoral::Key;

/// An item of any kind: body length and kind, then the body.
pub fn item(kind: u16, body: &[u8]) -> Vec<u8> {
    let length = u16::try_from(body.len()).expect("a body's length has two octets");
    [&length.to_le_bytes()[..], &kind.to_le_bytes(), body].concat()
}

pub fn key(Key { bearer, period, stamp }: Key) -> Vec<u8> {
    let stamp = u16::try_from(stamp).expect("a key's stamp has two octets");
    item(1, &[&bearer.to_le_bytes()[..], &period.to_le_bytes(), &stamp.to_le_bytes()].concat())
}

pub fn frame(frame: &[u8]) -> Vec<u8> {
    item(2, frame)
}

/// The offset of each item, and the end of the last.
pub fn offsets(input: &[u8]) -> Vec<usize> {
    let mut all = vec![0];
    let mut at = 0;
    while at < input.len() {
        at += 4 + usize::from(u16::from_le_bytes([input[at], input[at + 1]]));
        all.push(at);
    }
    all
}
