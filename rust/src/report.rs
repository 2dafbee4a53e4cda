//! Reports: what was sent, heard and missing of one sequence, and the gaps.

use crate::lent::{self, Held, Lent};
use crate::{Octets, Packets, Refusal};
use std::ops::Range;

/// Packets, and the octets of their payloads.
#[derive(Clone, Copy, Debug, Default, PartialEq, Eq, Hash)]
pub struct Amount {
    /// How many packets.
    pub packets: Packets,
    /// The octets of their payloads.
    pub octets: Octets,
}

/// Packets in a row that were not heard, with a heard one or an end of the sequence on either side. A gap may have no octets.
#[derive(Clone, Copy, Debug, PartialEq, Eq, Hash)]
pub struct Gap {
    /// The number of the first packet; the first of a sequence is 0.
    pub first: Packets,
    /// How many packets.
    pub count: Packets,
    /// The octets of their payloads.
    pub octets: Octets,
}

impl Gap {
    /// The numbers of the packets.
    ///
    /// ```
    /// use quimdoral::{Gap, Octets, Packets};
    /// assert_eq!(Gap { first: Packets(4), count: Packets(2), octets: Octets(0) }.numbers(), 4..6);
    /// ```
    pub fn numbers(&self) -> Range<u32> {
        self.first.0..(self.first + self.count).0
    }
}

/// The report on a record. The counts are those of every sending that explains the record. While no closing was heard, what was sent
/// reaches to the last packet heard.
#[derive(Clone, Debug, Default, PartialEq, Eq, Hash)]
pub struct Report {
    /// What was sent.
    pub sent: Amount,
    /// What was heard; a packet that came twice counts once.
    pub heard: Amount,
    /// What was sent and not heard.
    pub missing: Amount,
    /// What is missing, in rising order.
    pub gaps: Vec<Gap>,
}

/// The most gaps that a record of so many places can have: every second number. Longer records are refused.
fn most_gaps(capacity: usize) -> usize {
    capacity.min(65_535).div_ceil(2)
}

impl Report {
    /// Reports on a record in borrowed memory. Refusals, in this order: 14, 13.
    ///
    /// ```
    /// use quimdoral::{Amount, Gap, Octets, Packets, Refusal, Report, lent::Held};
    /// let mut record = Held { head: &[7, 3, 0, 1, 3, 9], marks: &[0, 1, 0], elapsed: &[0, 5, 0], sizes: &[0, 4, 0] };
    /// let told = Report::of(record)?;
    /// assert_eq!(told.sent, Amount { packets: Packets(3), octets: Octets(9) });
    /// assert_eq!(told.missing, Amount { packets: Packets(2), octets: Octets(5) });
    /// assert_eq!(told.gaps[1], Gap { first: Packets(2), count: Packets(1), octets: Octets(0) }); // a gap of no octets is a gap
    /// record.head = &[7, 3, 0, 1, 3, 8];
    /// assert_eq!(Report::of(record), Err(Refusal::RecordDamaged));
    /// # Ok::<(), Refusal>(())
    /// ```
    pub fn of(record: Held) -> Result<Report, Refusal> {
        let room = most_gaps(record.marks.len());
        let (mut firsts, mut counts, mut octets, mut figures) = (vec![0; room], vec![0; room], vec![0; room], [0; 7]);
        lent::report(record, Lent { firsts: &mut firsts, counts: &mut counts, octets: &mut octets, figures: &mut figures })?;
        // Each count of packets fits: a sequence has at most 65,535.
        let amount = |at: usize| Amount { packets: Packets(figures[at] as u32), octets: Octets(figures[at + 1]) };
        let gap = |at: usize| Gap { first: Packets(firsts[at]), count: Packets(counts[at]), octets: Octets(octets[at]) };
        let gaps = (0..figures[6] as usize).map(gap).collect();
        Ok(Report { sent: amount(0), heard: amount(2), missing: amount(4), gaps })
    }
}
