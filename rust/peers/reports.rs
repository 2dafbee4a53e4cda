//! The report of document 01, written on its own and twice: counted over a sending, and as a plain Rust program would do it.
#![allow(dead_code)]

use crate::joining::plain_damaged;
use crate::records::{Written, sending_within};
use quimdoral::{Amount, Gap, Octets, Packets, Report};

/// The memory that is lent for a report.
#[derive(Clone, Debug, PartialEq, Eq)]
pub struct Room {
    pub firsts: Vec<u32>,
    pub counts: Vec<u32>,
    pub octets: Vec<u64>,
    pub figures: Vec<u64>,
}

impl Room {
    fn fits(&self, gaps: usize) -> bool {
        let shortest = self.firsts.len().min(self.counts.len()).min(self.octets.len());
        gaps <= shortest && self.figures.len() >= 7
    }

    fn write(&mut self, report: &Report) {
        let amounts = [report.sent, report.heard, report.missing];
        let mut figures: Vec<u64> = amounts.iter().flat_map(|amount| [amount.packets.0.into(), amount.octets.0]).collect();
        figures.push(report.gaps.len() as u64);
        self.figures[..7].copy_from_slice(&figures);
        for (at, gap) in report.gaps.iter().enumerate() {
            (self.firsts[at], self.counts[at], self.octets[at]) = (gap.first.0, gap.count.0, gap.octets.0);
        }
    }
}

impl Written {
    /// Works out a sending that explains the record and ends where document 01 says that sent ends, and counts over it.
    pub fn report(&self) -> Result<Report, u8> {
        self.lists_fit()?;
        if self.damaged() {
            return Err(13);
        }
        let bounds = self.bounds().expect("an undamaged record is explained");
        Ok(self.count_over(&sending_within(&bounds)))
    }

    pub fn report_into(&self, room: &mut Room) -> Result<(), u8> {
        let report = self.report()?;
        if !room.fits(report.gaps.len()) {
            return Err(12);
        }
        room.write(&report);
        Ok(())
    }

    pub fn count_over(&self, lengths: &[u64]) -> Report {
        let mut report = Report::default();
        for (place, &length) in lengths.iter().enumerate() {
            count(&mut report.sent, length);
            if self.marks.get(place) == Some(&1) {
                count(&mut report.heard, length);
                continue;
            }
            count(&mut report.missing, length);
            if place == 0 || self.marks[place - 1] == 1 {
                report.gaps.push(Gap { first: Packets(place as u32), count: Packets(0), octets: Octets(0) });
            }
            let gap = report.gaps.last_mut().expect("a gap was begun");
            gap.count.0 += 1;
            gap.octets.0 += length;
        }
        report
    }
}

fn count(amount: &mut Amount, length: u64) {
    amount.packets.0 += 1;
    amount.octets.0 += length;
}

/// One pass for damage, then one over the packets heard: what lies between two of them is a gap.
pub fn plain_report(record: &Written, report: &mut Report) -> Result<(), u8> {
    record.lists_fit()?;
    if plain_damaged(record) {
        return Err(13);
    }
    report.gaps.clear();
    report.heard = Amount::default();
    let (mut after, mut from) = (0, 0);
    for (place, ((&mark, &elapsed), &size)) in record.marks.iter().zip(&record.elapsed).zip(&record.sizes).enumerate() {
        if mark == 1 {
            let (place, elapsed, size) = (place as u32, u64::from(elapsed), u64::from(size));
            push_gap(&mut report.gaps, (after, from), (place, elapsed));
            count(&mut report.heard, size);
            (after, from) = (place + 1, elapsed + size);
        }
    }
    if record.closed() {
        let closing = (record.head[4] as u32, record.head[5]);
        push_gap(&mut report.gaps, (after, from), closing);
        (after, from) = closing;
    }
    let heard = report.heard;
    report.sent = Amount { packets: Packets(after), octets: Octets(from) };
    report.missing = Amount { packets: Packets(after - heard.packets.0), octets: Octets(from - heard.octets.0) };
    Ok(())
}

/// Adds what lies between the end of one packet and the start of another, if a packet does.
fn push_gap(gaps: &mut Vec<Gap>, (after, from): (u32, u64), (place, start): (u32, u64)) {
    if place > after {
        gaps.push(Gap { first: Packets(after), count: Packets(place - after), octets: Octets(start - from) });
    }
}
