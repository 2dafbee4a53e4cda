//! On which side of each clause of request 2 of document 02 the payloads of a test lay, so that the test can show that it met all of them.
//! The clauses are written out here on their own, in the request's order, and give the length too.

use crate::frames::Refused;
use std::collections::BTreeMap;

#[derive(Clone, Copy, Debug, PartialEq, Eq, PartialOrd, Ord)]
pub enum Side {
    /// So many octets behind an IP packet, 0 to 4.
    Behind(usize),
    Incomplete,
    OtherVersion,
    ShortHeader,
    LessThanItsHeader,
    MoreThanIsThere,
    OverFourLess,
}

use Side::*;

/// The fewest octets of a header.
fn least(version: u8) -> usize {
    if version == 4 { 20 } else { 40 }
}

/// The header's own octets, and the length that it states.
fn fields(version: u8, part: &[u8]) -> (usize, usize) {
    let two = |at: usize| 256 * usize::from(part[at]) + usize::from(part[at + 1]);
    if version == 4 { (usize::from(part[0] % 16) * 4, two(2)) } else { (40, two(4) + 40) }
}

/// The side of what stands behind the checks, if it were of this version.
fn side_as(version: u8, part: &[u8]) -> Side {
    if part.len() < least(version) {
        return Incomplete;
    }
    let (own, stated) = fields(version, part);
    match part.len().checked_sub(stated) {
        _ if own < least(version) => ShortHeader,
        _ if stated < own => LessThanItsHeader,
        None => MoreThanIsThere,
        Some(behind @ 0..=4) => Behind(behind),
        Some(_) => OverFourLess,
    }
}

/// The version, or 0 where it is another, and the side. No octets have no version.
pub fn side(part: &[u8]) -> (u8, Side) {
    match part.first().map(|first| first / 16) {
        Some(version @ (4 | 6)) => (version, side_as(version, part)),
        _ => (0, OtherVersion),
    }
}

/// The payload's length.
pub fn length(part: &[u8]) -> usize {
    if let (_, Behind(behind)) = side(part) { part.len() - behind } else { part.len() }
}

/// Whether a step would bring it to another side, and alone decides: an octet more there or stated, or another version or IHL with which an
/// extension would be dropped. Of a packet, whether its header states itself alone.
fn at_the_edge(part: &[u8]) -> bool {
    let (version, side) = side(part);
    if side == OtherVersion {
        let next_to_one = part.first().is_some_and(|first| matches!(first / 16, 3 | 5 | 7));
        return next_to_one && [4, 6].iter().any(|&version| matches!(side_as(version, part), Behind(1..=4)));
    }
    if side == Incomplete {
        return part.len() + 1 == least(version);
    }
    let (own, stated) = fields(version, part);
    let extended = (stated + 1..=stated + 4).contains(&part.len());
    match side {
        ShortHeader => own == 16 && stated >= 20 && extended,
        LessThanItsHeader => stated >= 20 && stated + 4 >= own && extended,
        MoreThanIsThere => stated == part.len() + 1,
        OverFourLess => stated + 5 == part.len(),
        _ => stated == own,
    }
}

/// What became of a payload.
#[derive(Clone, Copy, Debug, PartialEq, Eq, PartialOrd, Ord)]
pub enum Became {
    Taken,
    TakenAtTheEdge,
    /// Taken from so many octets, 4,096 to 4,099.
    TakenFrom(usize),
    /// Refused with 6.
    TooLong,
    /// Refused with 7.
    WrongCheck,
}

use Became::*;

const DROPPED: [Side; 4] = [Behind(1), Behind(2), Behind(3), Behind(4)];

/// How often payloads of each version lay on each side, by what became of them.
#[derive(Debug, Default)]
pub struct Sides(BTreeMap<(Became, u8, Side), usize>);

impl Sides {
    fn count(&mut self, became: Became, (version, side): (u8, Side)) {
        *self.0.entry((became, version, side)).or_default() += 1;
    }

    /// Counts a data PDU by the answer to it. Refusals other than 6 and 7 say nothing about the payload's length.
    pub fn add(&mut self, frame: &[u8], answer: Result<(), Refused>) {
        let Some(part) = frame.get(11..).filter(|_| frame[0] / 16 == 1) else { return };
        match answer.map_err(|why| why.number) {
            Ok(()) => self.taken(part),
            Err(6) => self.count(TooLong, side(part)),
            Err(7) => self.count(WrongCheck, side(part)),
            Err(_) => {}
        }
    }

    /// Counts what a payload was taken from.
    pub fn taken(&mut self, part: &[u8]) {
        self.count(Taken, side(part));
        if at_the_edge(part) {
            self.count(TakenAtTheEdge, side(part));
        }
        if (4_096..=4_099).contains(&part.len()) {
            self.count(TakenFrom(part.len()), side(part));
        }
    }

    fn times(&self, became: Became, version: u8, side: Side) -> usize {
        self.0.get(&(became, version, side)).copied().unwrap_or(0)
    }

    fn came(&self, became: Became, version: u8, sides: &[Side], least: usize) {
        for &side in sides {
            let times = self.times(became, version, side);
            assert!(times > least, "{became:?}, IPv{version}, {side:?}: only {times} of {self:?}");
        }
    }

    /// Payloads of either version were taken with nothing behind them, and with one to four octets.
    pub fn extensions_came(&self, least: usize) {
        for version in [4, 6] {
            self.came(Taken, version, &DROPPED, least);
            self.came(Taken, version, &[Behind(0)], least);
        }
    }

    /// The same from 4,096 to 4,099 octets.
    pub fn long_ones_came(&self, least: usize) {
        for (version, from) in [4, 6].into_iter().flat_map(|version| (4_096..=4_099).map(move |from| (version, from))) {
            let times: usize = DROPPED.iter().map(|&side| self.times(TakenFrom(from), version, side)).sum();
            assert!(times > least, "taken from {from} octets, IPv{version}: only {times} of {self:?}");
        }
    }

    /// Payloads were taken on every side, and on every side at the edge.
    pub fn all_came(&self, least: usize, at_the_edge: usize) {
        self.extensions_came(least);
        for (became, least) in [(Taken, least), (TakenAtTheEdge, at_the_edge)] {
            self.came(became, 4, &[Incomplete, ShortHeader, LessThanItsHeader, MoreThanIsThere, OverFourLess], least);
            self.came(became, 6, &[Incomplete, MoreThanIsThere, OverFourLess], least);
            self.came(became, 0, &[OtherVersion], least);
        }
        for version in [4, 6] {
            self.came(TakenAtTheEdge, version, &DROPPED, at_the_edge);
            self.came(TakenAtTheEdge, version, &[Behind(0)], at_the_edge);
        }
    }

    /// Payloads were refused with 6 of which dropping left more than 4,095 octets, and others of which all was payload; and with 7 such as
    /// had an extension.
    pub fn refusals_came(&self, least: usize) {
        for version in [4, 6] {
            self.came(TooLong, version, &DROPPED, least);
            self.came(TooLong, version, &[Behind(0), MoreThanIsThere, OverFourLess], least);
            self.came(WrongCheck, version, &DROPPED, least);
        }
        self.came(TooLong, 0, &[OtherVersion], least);
        self.came(TooLong, 4, &[ShortHeader], least);
    }
}
