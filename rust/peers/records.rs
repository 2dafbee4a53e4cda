//! The reception record of document 01, written on its own and twice: word for word, and as a plain Rust program would keep it.
#![allow(dead_code)]

use crate::frames::{Closing, Data, Frame, Reader, Refused, refused};

pub const LONGEST: u64 = 4_095;
const MOST: usize = 65_535;

fn stamp_of(said: &Frame) -> u32 {
    match said {
        Frame::Data(data) => data.stamp,
        Frame::Closing(closing) | Frame::ClosingWithLengths(closing) => closing.stamp,
    }
}

/// A record in lists that may hold anything: it is judged by working out a sending that explains it.
#[derive(Clone, Debug, PartialEq, Eq)]
pub struct Written {
    pub head: Vec<u64>,
    pub marks: Vec<u8>,
    pub elapsed: Vec<u32>,
    pub sizes: Vec<u16>,
}

impl Written {
    /// An empty record, whatever its key.
    pub fn empty(bearer: u32, period: u32, stamp: u32, capacity: usize) -> Written {
        Written {
            head: vec![bearer.into(), period.into(), stamp.into(), 0, 0, 0],
            marks: vec![0; capacity],
            elapsed: vec![0; capacity],
            sizes: vec![0; capacity],
        }
    }

    pub fn fresh(&mut self, bearer: u32, period: u32, stamp: u32) -> Result<(), u8> {
        self.lists_fit()?;
        if stamp > 59_999 {
            return Err(5);
        }
        let empty = Written::empty(bearer, period, stamp, self.marks.len());
        self.head[..6].copy_from_slice(&empty.head);
        *self = Written { head: std::mem::take(&mut self.head), ..empty };
        Ok(())
    }

    pub fn hear(&mut self, reader: &Reader, bearer: u32, period: u32, frame: &[u8]) -> Result<(), Refused> {
        self.lists_fit()?;
        let said = reader.read(frame)?;
        if self.damaged() {
            return refused(13);
        }
        if self.head[..3] != [bearer, period, stamp_of(&said)].map(u64::from) {
            return refused(9);
        }
        let mut with_it = self.clone();
        with_it.write_down(said)?;
        if !with_it.explained() {
            return refused(11);
        }
        *self = with_it;
        Ok(())
    }

    pub fn lists_fit(&self) -> Result<(), u8> {
        let capacity = self.marks.len();
        let alike = self.elapsed.len() == capacity && self.sizes.len() == capacity;
        if self.head.len() >= 6 && alike && capacity <= MOST { Ok(()) } else { Err(14) }
    }

    /// Adds what a frame says: 10 where it has no place, 11 where something else stands in its place.
    pub fn write_down(&mut self, said: Frame) -> Result<(), u8> {
        match said {
            Frame::Data(data) => self.write_data(data),
            Frame::Closing(closing) | Frame::ClosingWithLengths(closing) => self.write_closing(closing),
        }
    }

    fn write_data(&mut self, data: Data) -> Result<(), u8> {
        let place = data.number as usize;
        if place >= self.marks.len() {
            return Err(10);
        }
        let held = (self.marks[place], self.elapsed[place], self.sizes[place]);
        let new = (1, data.elapsed as u32, data.length as u16);
        if held.0 == 1 && held != new {
            return Err(11);
        }
        (self.marks[place], self.elapsed[place], self.sizes[place]) = new;
        Ok(())
    }

    fn write_closing(&mut self, closing: Closing) -> Result<(), u8> {
        if closing.number as usize > self.marks.len() {
            return Err(10);
        }
        let new = [1, u64::from(closing.number), closing.elapsed];
        if self.closed() && self.head[3..6] != new {
            return Err(11);
        }
        self.head[3..6].copy_from_slice(&new);
        Ok(())
    }

    pub fn closed(&self) -> bool {
        self.head[3] == 1
    }

    pub fn damaged(&self) -> bool {
        let widest = u64::from(u32::MAX);
        let [bearer, period, stamp, closed, packets, octets] = self.head[..6] else { return true };
        let too_wide = bearer > widest || period > widest || closed > 1;
        let not_zero = closed == 0 && (packets, octets) != (0, 0);
        too_wide || stamp > 59_999 || not_zero || packets > self.marks.len() as u64 || self.place_damaged() || !self.explained()
    }

    fn place_damaged(&self) -> bool {
        let mut places = self.marks.iter().zip(&self.elapsed).zip(&self.sizes);
        places.any(|((&mark, &elapsed), &size)| mark > 1 || mark == 0 && (elapsed, size) != (0, 0))
    }

    /// Whether a sending explains the record. A yes has a sending to show for it.
    pub fn explained(&self) -> bool {
        let Some(bounds) = self.bounds() else { return false };
        assert!(self.explained_by(&sending_within(&bounds)), "the sending within {bounds:?} does not explain {self:?}");
        true
    }

    /// The places that a sending must have: the closing's, or those up to the last heard.
    fn places(&self) -> usize {
        if self.closed() {
            return self.head[4] as usize;
        }
        self.marks.iter().rposition(|&mark| mark == 1).map_or(0, |last| last + 1)
    }

    /// The least and the most octets before each place and after the last one, or nothing where a place is left without any.
    pub fn bounds(&self) -> Option<Vec<(u64, u64)>> {
        let places = self.places();
        if self.marks[places..].contains(&1) {
            return None;
        }
        let mut all = Vec::with_capacity(places + 1);
        let (mut least, mut most) = (0, 0);
        for place in 0..places {
            if self.marks[place] == 0 {
                all.push((least, most));
                most += LONGEST;
                continue;
            }
            let (elapsed, size) = (u64::from(self.elapsed[place]), u64::from(self.sizes[place]));
            if elapsed < least || elapsed > most || size > LONGEST {
                return None;
            }
            all.push((elapsed, elapsed));
            (least, most) = (elapsed + size, elapsed + size);
        }
        if self.closed() {
            let octets = self.head[5];
            if octets < least || octets > most {
                return None;
            }
            (least, most) = (octets, octets);
        }
        all.push((least, most));
        Some(all)
    }

    /// Document 01's sentence on what explains a record.
    fn explained_by(&self, lengths: &[u64]) -> bool {
        let mut before = vec![0];
        for (place, length) in lengths.iter().enumerate() {
            before.push(before[place] + length);
        }
        let is_sending = lengths.len() <= MOST && lengths.iter().all(|&length| length <= LONGEST);
        let mut heard = (0..self.marks.len()).filter(|&place| self.marks[place] == 1);
        let packets_right =
            heard.all(|place| lengths.get(place) == Some(&self.sizes[place].into()) && before[place] == u64::from(self.elapsed[place]));
        let whole = [lengths.len() as u64, before[lengths.len()]];
        is_sending && packets_right && (!self.closed() || self.head[4..6] == whole)
    }
}

/// A sending with the octets before each place within its bounds, worked out from the end.
pub fn sending_within(bounds: &[(u64, u64)]) -> Vec<u64> {
    let Some((&(mut after, _), places)) = bounds.split_last() else { return Vec::new() };
    let mut lengths = Vec::with_capacity(places.len());
    for &(least, _) in places.iter().rev() {
        let before = after.saturating_sub(LONGEST).max(least);
        lengths.push(after - before);
        after = before;
    }
    lengths.reverse();
    lengths
}

/// A record that no one else writes to: a new packet is compared with its nearest neighbours only.
pub struct PlainRecord {
    key: [u32; 3],
    pub marks: Vec<bool>,
    pub elapsed: Vec<u32>,
    pub sizes: Vec<u16>,
    /// First and last packet number heard, so that frames in order need no search.
    heard: Option<(usize, usize)>,
    /// Packets and octets of the closing.
    pub closing: Option<(usize, u64)>,
}

/// Whether so many packets can carry the octets from one count to another.
pub fn carry(packets: usize, from: u64, to: u64) -> bool {
    from <= to && to - from <= LONGEST * packets as u64
}

impl PlainRecord {
    pub fn fresh(bearer: u32, period: u32, stamp: u32, capacity: usize) -> PlainRecord {
        PlainRecord {
            key: [bearer, period, stamp],
            marks: vec![false; capacity],
            elapsed: vec![0; capacity],
            sizes: vec![0; capacity],
            heard: None,
            closing: None,
        }
    }

    /// Forgets what was heard and keeps the memory.
    pub fn clear(&mut self) {
        self.marks.fill(false);
        self.elapsed.fill(0);
        self.sizes.fill(0);
        self.heard = None;
        self.closing = None;
    }

    pub fn hear(&mut self, reader: &Reader, bearer: u32, period: u32, frame: &[u8]) -> Result<(), Refused> {
        let said = reader.read(frame)?;
        if self.key != [bearer, period, stamp_of(&said)] {
            return refused(9);
        }
        match said {
            Frame::Data(data) => self.hear_data(data),
            Frame::Closing(closing) | Frame::ClosingWithLengths(closing) => self.hear_closing(closing),
        }
    }

    fn hear_data(&mut self, data: Data) -> Result<(), Refused> {
        let number = data.number as usize;
        let (elapsed, size) = (data.elapsed as u32, data.length as u16);
        if number >= self.marks.len() {
            return refused(10);
        }
        if self.marks[number] {
            return if (self.elapsed[number], self.sizes[number]) == (elapsed, size) { Ok(()) } else { refused(11) };
        }
        if !self.fits(number, data.elapsed, data.elapsed + u64::from(data.length)) {
            return refused(11);
        }
        self.marks[number] = true;
        self.elapsed[number] = elapsed;
        self.sizes[number] = size;
        self.heard = Some(self.heard.map_or((number, number), |(first, last)| (first.min(number), last.max(number))));
        Ok(())
    }

    fn hear_closing(&mut self, closing: Closing) -> Result<(), Refused> {
        let (packets, octets) = (closing.number as usize, closing.elapsed);
        if packets > self.marks.len() {
            return refused(10);
        }
        if let Some(held) = self.closing {
            return if held == (packets, octets) { Ok(()) } else { refused(11) };
        }
        let (before, from) = self.heard.map_or((0, 0), |(_, last)| (last + 1, self.end(last)));
        if before > packets || !carry(packets - before, from, octets) {
            return refused(11);
        }
        self.closing = Some((packets, octets));
        Ok(())
    }

    /// Octets up to the end of a heard packet.
    fn end(&self, number: usize) -> u64 {
        u64::from(self.elapsed[number]) + u64::from(self.sizes[number])
    }

    fn fits(&self, number: usize, start: u64, end: u64) -> bool {
        let (packets, from) = self.below(number).map_or((number, 0), |below| (number - below - 1, self.end(below)));
        if !carry(packets, from, start) {
            return false;
        }
        if let Some(above) = self.above(number) {
            return carry(above - number - 1, end, self.elapsed[above].into());
        }
        self.closing.is_none_or(|(packets, octets)| number < packets && carry(packets - number - 1, end, octets))
    }

    fn below(&self, number: usize) -> Option<usize> {
        let (first, last) = self.heard?;
        if last < number {
            return Some(last);
        }
        (first..number).rev().find(|&other| self.marks[other])
    }

    fn above(&self, number: usize) -> Option<usize> {
        let (first, last) = self.heard?;
        if number < first {
            return Some(first);
        }
        (number + 1..=last).find(|&other| self.marks[other])
    }
}
