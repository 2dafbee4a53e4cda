//! The account program in plain Rust, std alone, written from document 01, requests 2 and 6 of document 02, and TS 25.446: a program of its
//! own, which the benchmark times, and the same as a function, which the tests compare with.
//!
//! It reads and prints in large pieces. The checks go by tables over slices of 16 and 8 octets. A bit a packet says what was heard, so
//! the neighbours of a packet are found in a few steps, and nothing but the bits is cleared for a new sequence.
#![allow(dead_code)]

use std::io::{self, ErrorKind, Read, Write};

const PLACES: usize = 4_096;
const LONGEST_PAYLOAD: u64 = 4_095;
const LONGEST_EXTENSION: u64 = 4;
const LAST_STAMP: u16 = 59_999;
const LONGEST_BODY: usize = 8_192;
const PIECE: usize = 1 << 16;

/// Division by a generator of at most 16 digits: `tables[z][octet]` is what an octet leaves that `z` zero octets follow, with the first
/// digit of the remainder in the first bit.
struct Check<const N: usize> {
    tables: [[u16; 256]; N],
    degree: u32,
}

/// The generators without their first digit (clause 5.6.2).
static HEADER: Check<8> = Check::new(0b10_1111, 6);
static PAYLOAD: Check<16> = Check::new(0b10_0011_0011, 10);

impl<const N: usize> Check<N> {
    const fn new(generator: u16, degree: u32) -> Check<N> {
        let generator = generator << (16 - degree);
        let mut tables = [[0; 256]; N];
        let mut octet = 0;
        while octet < 256 {
            let mut rest = (octet as u16) << 8;
            let mut bits = 0;
            while bits < 8 * N {
                rest = if rest >> 15 == 1 { rest << 1 ^ generator } else { rest << 1 };
                bits += 1;
                if bits % 8 == 0 {
                    tables[bits / 8 - 1][octet] = rest;
                }
            }
            octet += 1;
        }
        Check { tables, degree }
    }

    #[inline]
    fn of(&self, octets: &[u8]) -> u16 {
        let mut rest = 0u16;
        let mut slices = octets.chunks_exact(N);
        for slice in &mut slices {
            let slice: &[u8; N] = slice.try_into().expect("a slice of N octets");
            let [first, second] = rest.to_be_bytes();
            rest = self.tables[N - 1][usize::from(slice[0] ^ first)] ^ self.tables[N - 2][usize::from(slice[1] ^ second)];
            for place in 2..N {
                rest ^= self.tables[N - 1 - place][usize::from(slice[place])];
            }
        }
        for octet in slices.remainder() {
            rest = rest << 8 ^ self.tables[0][usize::from((rest >> 8) as u8 ^ octet)];
        }
        rest >> (16 - self.degree)
    }
}

/// What a record takes from a frame. The totals of the period are judged and then dropped, and so are the lengths of Type 3.
enum Said {
    Packet { number: usize, start: u64, length: u64 },
    Closing { packets: usize, octets: u64 },
}

struct Frame {
    stamp: u16,
    said: Said,
}

/// Why a frame is not taken: the refusal's number, and with 4 and 7 the check found and the check worked out; with any other both are 0.
struct Refused {
    number: u8,
    found: u16,
    worked_out: u16,
}

impl From<u8> for Refused {
    fn from(number: u8) -> Refused {
        Refused { number, found: 0, worked_out: 0 }
    }
}

impl Refused {
    fn print(&self, place: u64, text: &mut Vec<u8>) -> io::Result<()> {
        let Refused { number, found, worked_out } = self;
        match number {
            4 | 7 => writeln!(text, "refused {place} {number} {found} {worked_out}"),
            _ => writeln!(text, "refused {place} {number}"),
        }
    }
}

fn refused<T>(number: u8) -> Result<T, Refused> {
    Err(number.into())
}

fn number(octets: &[u8]) -> u64 {
    octets.iter().fold(0, |sum, &octet| sum << 8 | u64::from(octet))
}

/// Reads a frame, or gives the first refusal that applies.
fn read(frame: &[u8]) -> Result<Frame, Refused> {
    let Some(first) = frame.first() else { return refused(1) };
    let kind = first >> 4;
    let least = match kind {
        0 => 18,
        1 => 11,
        2 => return refused(2),
        3 => 19,
        _ => return refused(3),
    };
    if frame.len() < least {
        return refused(1);
    }
    let control = if kind == 1 { 9 } else { 17 };
    let (found, worked_out) = (u16::from(frame[control] >> 2), HEADER.of(&frame[..control]));
    if found != worked_out {
        return Err(Refused { number: 4, found, worked_out });
    }
    let stamp = number(&frame[1..3]) as u16;
    if stamp > LAST_STAMP {
        return refused(5);
    }
    let said = match kind {
        0 => closing(frame)?,
        1 => packet(frame)?,
        _ => closing_with_lengths(frame)?,
    };
    Ok(Frame { stamp, said })
}

/// The ten bits behind the header check against the rest of the frame, which they cover.
fn payload_checked(checks: &[u8], payload: &[u8]) -> Result<(), Refused> {
    let found = (u16::from(checks[0]) << 8 | u16::from(checks[1])) & 0x3FF;
    let worked_out = PAYLOAD.of(payload);
    if found == worked_out { Ok(()) } else { Err(Refused { number: 7, found, worked_out }) }
}

/// The length that an IP header states: IPv4's total length (RFC 791), or 40 more than IPv6's payload length (RFC 8200). Nothing where the
/// octets are no such header, or not all of it, or state less than the header itself.
fn stated(packet: &[u8]) -> Option<u64> {
    match packet.first()? >> 4 {
        4 if packet.len() >= 20 => {
            let (header, total) = (4 * u64::from(packet[0] & 15), number(&packet[2..4]));
            (header >= 20 && total >= header).then_some(total)
        }
        6 if packet.len() >= 40 => Some(number(&packet[4..6]) + 40),
        _ => None,
    }
}

/// The octets of a packet, without the extension behind it; without an IP header that says where the packet ends, all that is there.
fn payload_length(part: &[u8]) -> u64 {
    let there = part.len() as u64;
    stated(part).filter(|&stated| stated <= there && there - stated <= LONGEST_EXTENSION).unwrap_or(there)
}

fn packet(frame: &[u8]) -> Result<Said, Refused> {
    let part = &frame[11..];
    let length = payload_length(part);
    if length > LONGEST_PAYLOAD {
        return refused(6);
    }
    payload_checked(&frame[9..11], part)?;
    let (number, start) = (number(&frame[3..5]), number(&frame[5..9]));
    if number == 65_535 || start > LONGEST_PAYLOAD * number {
        return refused(8);
    }
    Ok(Said::Packet { number: number as usize, start, length })
}

fn closing(frame: &[u8]) -> Result<Said, Refused> {
    if frame.len() != 18 {
        return refused(6);
    }
    counts(frame)
}

/// The counts of a closing PDU, where they are possible.
fn counts(frame: &[u8]) -> Result<Said, Refused> {
    let (packets, octets) = (number(&frame[3..5]), number(&frame[5..9]));
    let (total_packets, total_octets) = (number(&frame[9..12]), number(&frame[12..17]));
    let before = total_packets.checked_sub(packets).ok_or(Refused::from(8))?;
    let octets_before = total_octets.checked_sub(octets).ok_or(Refused::from(8))?;
    if octets > LONGEST_PAYLOAD * packets || octets_before > LONGEST_PAYLOAD * before {
        return refused(8);
    }
    Ok(Said::Closing { packets: packets as usize, octets })
}

fn closing_with_lengths(frame: &[u8]) -> Result<Said, Refused> {
    let packets = number(&frame[3..5]) as usize;
    let filled = (3 * packets).div_ceil(2);
    let rest = &frame[19..];
    if rest.len() < filled || rest.len() > filled + 4 {
        return refused(6);
    }
    payload_checked(&frame[17..19], rest)?;
    let said = counts(frame)?;
    if sum_of_lengths(&rest[..filled], packets) != number(&frame[5..9]) {
        return refused(8);
    }
    Ok(said)
}

/// Two lengths of 12 bits in three octets; the last of an odd number has padding behind it.
fn sum_of_lengths(lengths: &[u8], packets: usize) -> u64 {
    let pairs = lengths.chunks_exact(3).map(number).map(|pair| (pair >> 12) + (pair & 0xFFF));
    let last = if packets % 2 == 1 { number(&lengths[lengths.len() - 2..]) >> 4 } else { 0 };
    pairs.sum::<u64>() + last
}

#[derive(Clone, Copy)]
struct Key {
    bearer: u32,
    period: u32,
    stamp: u16,
}

/// The octets of a sequence before a packet's payload, and with it.
#[derive(Clone, Copy, PartialEq)]
struct Span {
    start: u32,
    end: u32,
}

/// What was heard of a sequence. A span is there only where the packet's bit is set.
struct Record {
    key: Key,
    heard: [u64; PLACES / 64],
    spans: [Span; PLACES],
    /// One above the highest number heard.
    reach: usize,
    heard_packets: usize,
    heard_octets: u64,
    closing: Option<(usize, u64)>,
}

/// Whether so many packets can take the octets from one count to another.
fn can_carry(packets: usize, from: u64, to: u64) -> bool {
    to >= from && to - from <= LONGEST_PAYLOAD * packets as u64
}

fn agree(same: bool) -> Result<(), Refused> {
    if same { Ok(()) } else { refused(11) }
}

impl Record {
    fn new() -> Record {
        Record {
            key: Key { bearer: 0, period: 0, stamp: 0 },
            heard: [0; PLACES / 64],
            spans: [Span { start: 0, end: 0 }; PLACES],
            reach: 0,
            heard_packets: 0,
            heard_octets: 0,
            closing: None,
        }
    }

    fn begin(&mut self, key: Key) {
        self.key = key;
        self.heard.fill(0);
        (self.reach, self.heard_packets, self.heard_octets, self.closing) = (0, 0, 0, None);
    }

    fn hear(&mut self, frame: &[u8]) -> Result<(), Refused> {
        let Frame { stamp, said } = read(frame)?;
        if stamp != self.key.stamp {
            return refused(9);
        }
        match said {
            Said::Packet { number, start, length } => self.hear_packet(number, start, length),
            Said::Closing { packets, octets } => self.hear_closing(packets, octets),
        }
    }

    fn hear_packet(&mut self, number: usize, start: u64, length: u64) -> Result<(), Refused> {
        if number >= PLACES {
            return refused(10);
        }
        let end = start + length;
        let span = Span { start: start as u32, end: end as u32 };
        if self.heard[number / 64] >> (number % 64) & 1 == 1 {
            return agree(self.spans[number] == span);
        }
        let (after, from) = self.end_below(number);
        agree(can_carry(number - after, from, start))?;
        if let Some((before, to)) = self.start_above(number) {
            agree(before > number && can_carry(before - number - 1, end, to))?;
        }
        self.heard[number / 64] |= 1 << (number % 64);
        self.spans[number] = span;
        self.reach = self.reach.max(number + 1);
        self.heard_packets += 1;
        self.heard_octets += length;
        Ok(())
    }

    fn hear_closing(&mut self, packets: usize, octets: u64) -> Result<(), Refused> {
        if packets > PLACES {
            return refused(10);
        }
        if let Some(held) = self.closing {
            return agree(held == (packets, octets));
        }
        let (after, from) = self.end_below(PLACES);
        agree(after <= packets && can_carry(packets - after, from, octets))?;
        self.closing = Some((packets, octets));
        Ok(())
    }

    /// The number behind the nearest packet heard below a number, and the octets up to there.
    fn end_below(&self, number: usize) -> (usize, u64) {
        let after = if number >= self.reach { self.reach } else { self.after_below(number) };
        if after == 0 {
            return (0, 0);
        }
        (after, self.spans[after - 1].end.into())
    }

    fn after_below(&self, number: usize) -> usize {
        let mut word = number / 64;
        let mut bits = self.heard[word] & ((1 << (number % 64)) - 1);
        while bits == 0 && word > 0 {
            word -= 1;
            bits = self.heard[word];
        }
        64 * word + 64 - bits.leading_zeros() as usize
    }

    /// The nearest packet heard above a number, or the closing: its number, and the octets before it.
    fn start_above(&self, number: usize) -> Option<(usize, u64)> {
        if number >= self.reach {
            return self.closing;
        }
        let mut word = number / 64;
        let mut bits = self.heard[word] & !0 << (number % 64);
        while bits == 0 {
            word += 1;
            bits = self.heard[word];
        }
        let above = 64 * word + bits.trailing_zeros() as usize;
        Some((above, self.spans[above].start.into()))
    }

    fn print(&self, text: &mut Vec<u8>) -> io::Result<()> {
        let Key { bearer, period, stamp } = self.key;
        let (word, sent, octets) = match self.closing {
            Some((packets, octets)) => ("closed", packets, octets),
            None => ("open", self.reach, self.end_below(PLACES).1),
        };
        writeln!(text, "sequence {bearer} {period} {stamp} {word}")?;
        writeln!(text, "sent {sent} {octets}")?;
        writeln!(text, "heard {} {}", self.heard_packets, self.heard_octets)?;
        writeln!(text, "missing {} {}", sent - self.heard_packets, octets - self.heard_octets)?;
        self.print_gaps((sent, octets), text)?;
        text.extend(b"end\n");
        Ok(())
    }

    fn print_gaps(&self, end: (usize, u64), text: &mut Vec<u8>) -> io::Result<()> {
        let (mut after, mut from) = (0, 0);
        let mut gap_before = |(number, start): (usize, u64), end: u64| {
            if number > after {
                writeln!(text, "gap {after} {} {}", number - after, start - from)?;
            }
            (after, from) = (number + 1, end);
            Ok(())
        };
        for (word, &bits) in self.heard[..self.reach.div_ceil(64)].iter().enumerate() {
            let mut bits = bits;
            while bits != 0 {
                let number = 64 * word + bits.trailing_zeros() as usize;
                let Span { start, end } = self.spans[number];
                gap_before((number, start.into()), end.into())?;
                bits &= bits - 1;
            }
        }
        gap_before(end, 0)
    }
}

enum Item<'a> {
    Begins(Key),
    Frame(&'a [u8]),
    /// More octets are needed, or the item is cut.
    Short,
    Bad,
}

fn little(octets: &[u8]) -> u32 {
    octets.iter().rev().fold(0, |sum, &octet| sum << 8 | u32::from(octet))
}

/// The item in front of the octets.
fn item(octets: &[u8]) -> Item<'_> {
    let Some((head, rest)) = octets.split_first_chunk::<4>() else { return Item::Short };
    let length = usize::from(u16::from_le_bytes([head[0], head[1]]));
    let kind = u16::from_le_bytes([head[2], head[3]]);
    let possible = match kind {
        1 => length == 10,
        2 => length <= LONGEST_BODY,
        _ => false,
    };
    if !possible {
        return Item::Bad;
    }
    let Some(body) = rest.get(..length) else { return Item::Short };
    if kind == 2 {
        return Item::Frame(body);
    }
    let key = Key { bearer: little(&body[..4]), period: little(&body[4..8]), stamp: little(&body[8..]) as u16 };
    if key.stamp > LAST_STAMP { Item::Bad } else { Item::Begins(key) }
}

/// The program between two items.
struct Account {
    record: Box<Record>,
    begun: bool,
    places: u64,
    offset: u64,
    text: Vec<u8>,
}

impl Account {
    fn new() -> Account {
        Account { record: Box::new(Record::new()), begun: false, places: 0, offset: 0, text: Vec::with_capacity(2 * PIECE) }
    }

    /// Takes items from the front as long as they are all there, and answers how many octets they were, or nothing where one is bad.
    fn take(&mut self, octets: &[u8], out: &mut impl Write) -> io::Result<Option<usize>> {
        let mut used = 0;
        loop {
            let size = match item(&octets[used..]) {
                Item::Begins(key) => {
                    self.print_record()?;
                    self.record.begin(key);
                    self.begun = true;
                    14
                }
                Item::Frame(frame) if self.begun => {
                    if let Err(refused) = self.record.hear(frame) {
                        refused.print(self.places + 1, &mut self.text)?;
                    }
                    4 + frame.len()
                }
                Item::Short => return Ok(Some(used)),
                Item::Frame(_) | Item::Bad => return Ok(None),
            };
            self.places += 1;
            self.offset += size as u64;
            used += size;
            if self.text.len() >= PIECE {
                self.write(out)?;
            }
        }
    }

    fn print_record(&mut self) -> io::Result<()> {
        if self.begun { self.record.print(&mut self.text) } else { Ok(()) }
    }

    fn write(&mut self, out: &mut impl Write) -> io::Result<()> {
        out.write_all(&self.text)?;
        self.text.clear();
        Ok(())
    }
}

fn read_some(input: &mut impl Read, room: &mut [u8]) -> io::Result<usize> {
    loop {
        match input.read(room) {
            Err(error) if error.kind() == ErrorKind::Interrupted => {}
            answer => return answer,
        }
    }
}

/// Reads items to the end of the input, and prints the accounts.
pub fn account(input: &mut impl Read, out: &mut impl Write) -> io::Result<()> {
    let mut account = Account::new();
    let mut buffer = vec![0; PIECE + 4 + LONGEST_BODY];
    let mut have = 0;
    let ended_well = loop {
        let got = read_some(input, &mut buffer[have..])?;
        if got == 0 {
            break have == 0;
        }
        have += got;
        let Some(used) = account.take(&buffer[..have], out)? else { break false };
        buffer.copy_within(used..have, 0);
        have -= used;
    };
    if ended_well {
        account.print_record()?;
    } else {
        writeln!(account.text, "bad input {}", account.offset)?;
    }
    account.write(out)?;
    out.flush()
}

pub fn main() -> io::Result<()> {
    account(&mut io::stdin().lock(), &mut io::stdout().lock())
}
