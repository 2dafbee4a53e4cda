//! Reception records: what was heard of one sequence.

use crate::lent::{self, Held, Lists};
use crate::{JoinRefusal, Octets, Packets, ReadRefusal, Refusal, Report};

/// What a sequence belongs to: frames of another key are refused with 9.
#[derive(Clone, Copy, Debug, PartialEq, Eq, Hash)]
pub struct Key {
    /// The bearer, by the caller's numbers.
    pub bearer: u32,
    /// The period, by the caller's numbers.
    pub period: u32,
    /// The Time Stamp of the sequence's frames.
    pub stamp: u32,
}

impl Key {
    #[inline]
    pub(crate) fn numbers(self) -> [u32; 3] {
        [self.bearer, self.period, self.stamp]
    }
}

/// What a record holds of a closing PDU.
#[derive(Clone, Copy, Debug, PartialEq, Eq, Hash)]
pub struct Closed {
    /// The packets of the sequence.
    pub packets: Packets,
    /// Their octets.
    pub octets: Octets,
}

/// What a record holds of a packet.
#[derive(Clone, Copy, Debug, PartialEq, Eq, Hash)]
pub struct Heard {
    /// The octets of the packets before it.
    pub elapsed: Octets,
    /// The octets of its payload, an extension not counted.
    pub length: Octets,
}

/// All that a record holds, for storing it and making it again.
#[derive(Clone, Debug, PartialEq, Eq, Hash)]
pub struct Parts {
    /// Which sequence it is of.
    pub key: Key,
    /// The closing, if one was heard.
    pub closed: Option<Closed>,
    /// 1 for each packet number that was heard, 0 for the others.
    pub marks: Vec<u8>,
    /// The octets before each heard packet, 0 for the others.
    pub elapsed: Vec<u32>,
    /// The payload length of each heard packet, 0 for the others.
    pub sizes: Vec<u16>,
}

/// A reception record that owns its memory. No label is kept, and no payload.
///
/// ```
/// use quimdoral::{Key, Octets, Packets, ReadRefusal, Record, Refusal, record::{Closed, Heard}};
/// let first = [0x10, 0, 0, 0, 0, 0, 0, 0, 0, 0x3A, 0x33, 0x01];
/// let closing = [0, 0, 0, 0, 1, 0, 0, 0, 1, 0, 0, 1, 0, 0, 0, 0, 1, 0x9C];
/// let mut record = Record::fresh(Key { bearer: 7, period: 3, stamp: 0 }, 4)?;
/// record.hear(7, 3, &closing)?;
/// record.hear(7, 3, &first)?;
/// assert_eq!(record.hear(8, 3, &first), Err(ReadRefusal::Refused(Refusal::OtherSequence)));
/// assert_eq!(record.heard(Packets(0)), Some(Heard { elapsed: Octets(0), length: Octets(1) }));
/// assert_eq!(record.closed(), Some(Closed { packets: Packets(1), octets: Octets(1) }));
/// # Ok::<(), Refusal>(())
/// ```
#[derive(Clone, Debug, PartialEq, Eq, Hash)]
pub struct Record {
    head: [u64; 6],
    marks: Vec<u8>,
    elapsed: Vec<u32>,
    sizes: Vec<u16>,
}

impl Record {
    /// A record of zeros. Every capacity above 65,535 is refused alike, so no more than one place above it is ever set aside.
    fn zeros(capacity: usize) -> Record {
        let room = capacity.min(65_536);
        Record { head: [0; 6], marks: vec![0; room], elapsed: vec![0; room], sizes: vec![0; room] }
    }

    /// An empty record for packet numbers below `capacity`. Refusals, in this order: 14, 5.
    ///
    /// ```
    /// use quimdoral::{Key, Record, Refusal};
    /// assert_eq!(Record::fresh(Key { bearer: 7, period: 3, stamp: 60_000 }, 4), Err(Refusal::StampTooHigh));
    /// assert_eq!(Record::fresh(Key { bearer: 7, period: 3, stamp: 60_000 }, 65_536), Err(Refusal::CapacitiesDiffer));
    /// ```
    pub fn fresh(key: Key, capacity: usize) -> Result<Record, Refusal> {
        let mut record = Record::zeros(capacity);
        lent::fresh(key, record.lists())?;
        Ok(record)
    }

    /// A record of these parts, whatever they are: each call judges them, and refuses lists of different lengths with 14 and other damage
    /// with 13.
    ///
    /// ```
    /// use quimdoral::{Key, Record, Refusal};
    /// let mut parts = Record::fresh(Key { bearer: 7, period: 3, stamp: 0 }, 4)?.into_parts();
    /// parts.sizes[2] = 5; // though packet 2 was not heard
    /// assert_eq!(Record::from_parts(parts.clone()).report(), Err(Refusal::RecordDamaged));
    /// parts.sizes.pop();
    /// assert_eq!(Record::from_parts(parts).report(), Err(Refusal::CapacitiesDiffer));
    /// # Ok::<(), Refusal>(())
    /// ```
    pub fn from_parts(parts: Parts) -> Record {
        let Parts { key, closed, marks, elapsed, sizes } = parts;
        let [bearer, period, stamp] = key.numbers().map(u64::from);
        let closing = closed.map_or([0; 3], |closed| [1, closed.packets.0.into(), closed.octets.0]);
        Record { head: [bearer, period, stamp, closing[0], closing[1], closing[2]], marks, elapsed, sizes }
    }

    /// All that the record holds.
    pub fn into_parts(self) -> Parts {
        Parts { key: self.key(), closed: self.closed(), marks: self.marks, elapsed: self.elapsed, sizes: self.sizes }
    }

    /// Takes a frame that came in a bearer and a period. What is held already is accepted and changes nothing. Refusals, in this order: 14,
    /// those of [`frames::read`](crate::frames::read), 13, 9, 10, 11.
    ///
    /// Of a packet the length is recorded that reading gives: up to four octets behind an IP packet do not count.
    ///
    /// Each call goes over the whole record to judge it. Where many frames are at hand, [`Record::hear_all`] is quicker.
    ///
    /// ```
    /// use quimdoral::{Checks, Key, ReadRefusal, Record, Refusal};
    /// let spoilt = [0, 0, 0, 0, 1, 0, 0, 0, 1, 0, 0, 1, 0, 0, 0, 0, 1, 0x1C]; // the first bit of the header check was turned
    /// let mut record = Record::fresh(Key { bearer: 7, period: 3, stamp: 0 }, 4)?;
    /// assert_eq!(record.hear(7, 3, &spoilt), Err(ReadRefusal::HeaderCheck(Checks { found: 7, worked_out: 39 })));
    /// # Ok::<(), Refusal>(())
    /// ```
    #[inline]
    pub fn hear(&mut self, bearer: u32, period: u32, frame: &[u8]) -> Result<(), ReadRefusal> {
        lent::hear(self.lists(), bearer, period, frame)
    }

    /// An empty record that then takes many frames, and the answer to each. Refusals of the whole, in this order: 14, 5.
    ///
    /// The frames stand in one row of octets, and frame `i` ends before `ends[i]`. An end beyond the octets is taken as theirs, and one
    /// before the frame's begin gives an empty frame.
    ///
    /// ```
    /// use quimdoral::{Checks, Key, ReadRefusal, Record, Refusal};
    /// let first = [0x10, 0, 0, 0, 0, 0, 0, 0, 0, 0x3A, 0x33, 0x01];
    /// let (record, answers) = Record::hear_all(Key { bearer: 7, period: 3, stamp: 0 }, 4, &[first, first].concat(), &[12, 23])?;
    /// let wrong = Checks { found: 563, worked_out: 0 };
    /// assert_eq!(answers, [Ok(()), Err(ReadRefusal::PayloadCheck(wrong))]); // the second frame was cut
    /// assert_eq!(record.marks(), [1, 0, 0, 0]);
    /// # Ok::<(), Refusal>(())
    /// ```
    pub fn hear_all(key: Key, capacity: usize, octets: &[u8], ends: &[u32]) -> Result<(Record, Vec<Result<(), ReadRefusal>>), Refusal> {
        let (mut record, mut answers) = (Record::zeros(capacity), vec![0; ends.len()]);
        lent::hear_all(key, record.lists(), octets, ends, &mut answers)?;
        Ok((record, answers.into_iter().map(ReadRefusal::of_answer).collect()))
    }

    /// Adds what another record of the same sequence heard. Refusals, in this order: 14, 13, 9, 11.
    ///
    /// ```
    /// use quimdoral::{JoinRefusal, Key, Packets, Record, Refusal};
    /// let first = [0x10, 0, 0, 0, 0, 0, 0, 0, 0, 0x3A, 0x33, 0x01];
    /// let closing = [0, 0, 0, 0, 1, 0, 0, 0, 1, 0, 0, 1, 0, 0, 0, 0, 1, 0x9C];
    /// let nothing = Record::fresh(Key { bearer: 7, period: 3, stamp: 0 }, 4)?;
    /// let (mut here, mut there, mut silent) = (nothing.clone(), nothing.clone(), nothing.clone());
    /// here.hear(7, 3, &first)?;
    /// there.hear(7, 3, &closing)?;
    /// here.join(&there)?;
    /// assert_eq!((here.marks(), here.closed()), (&[1, 0, 0, 0][..], there.closed()));
    /// silent.hear(7, 3, &[0; 18])?; // a closing that says that nothing was sent
    /// assert_eq!(here.join(&silent), Err(JoinRefusal::Closing));
    /// assert_eq!(silent.join(&here), Err(JoinRefusal::Packet(Packets(0))));
    /// # Ok::<(), Refusal>(())
    /// ```
    #[inline]
    pub fn join(&mut self, other: &Record) -> Result<(), JoinRefusal> {
        lent::join(self.lists(), other.held())
    }

    /// What was sent, heard and missing of the sequence so far, and the gaps. Refusals, in this order: 14, 13; a record that was fresh and
    /// then heard and joined gets none.
    ///
    /// ```
    /// use quimdoral::{Amount, Gap, Key, Octets, Packets, Record, Refusal};
    /// let closing = [0, 0, 0, 0, 1, 0, 0, 0, 1, 0, 0, 1, 0, 0, 0, 0, 1, 0x9C];
    /// let mut record = Record::fresh(Key { bearer: 7, period: 3, stamp: 0 }, 4)?;
    /// assert_eq!(record.report()?.sent, Amount::default());
    /// record.hear(7, 3, &closing)?;
    /// let told = record.report()?;
    /// assert_eq!(told.missing, Amount { packets: Packets(1), octets: Octets(1) });
    /// assert_eq!(told.gaps, [Gap { first: Packets(0), count: Packets(1), octets: Octets(1) }]);
    /// # Ok::<(), Refusal>(())
    /// ```
    pub fn report(&self) -> Result<Report, Refusal> {
        Report::of(self.held())
    }

    fn lists(&mut self) -> Lists<'_> {
        Lists { head: &mut self.head, marks: &mut self.marks, elapsed: &mut self.elapsed, sizes: &mut self.sizes }
    }

    /// The record's lists, only to be read.
    pub fn held(&self) -> Held<'_> {
        Held { head: &self.head, marks: &self.marks, elapsed: &self.elapsed, sizes: &self.sizes }
    }

    /// Packet numbers below this have a place.
    pub fn capacity(&self) -> usize {
        self.marks.len()
    }

    /// Which sequence the record is of.
    pub fn key(&self) -> Key {
        // Each number fits: only numbers of 32 bits are ever put there.
        Key { bearer: self.head[0] as u32, period: self.head[1] as u32, stamp: self.head[2] as u32 }
    }

    /// The closing, if one was heard.
    pub fn closed(&self) -> Option<Closed> {
        // The count fits: only a number of 32 bits is ever put there.
        (self.head[3] == 1).then(|| Closed { packets: Packets(self.head[4] as u32), octets: Octets(self.head[5]) })
    }

    /// The packet of a number, if it was heard.
    pub fn heard(&self, number: Packets) -> Option<Heard> {
        let place = number.0 as usize;
        let (&elapsed, &size) = (self.elapsed.get(place)?, self.sizes.get(place)?);
        (*self.marks.get(place)? == 1).then(|| Heard { elapsed: Octets(elapsed.into()), length: Octets(size.into()) })
    }

    /// The packets heard, by rising number.
    ///
    /// ```
    /// use quimdoral::{Key, Octets, Packets, Record, Refusal, record::Heard};
    /// let first = [0x10, 0, 0, 0, 0, 0, 0, 0, 0, 0x3A, 0x33, 0x01];
    /// let mut record = Record::fresh(Key { bearer: 7, period: 3, stamp: 0 }, 4)?;
    /// record.hear(7, 3, &first)?;
    /// assert!(record.packets().eq([(Packets(0), Heard { elapsed: Octets(0), length: Octets(1) })]));
    /// # Ok::<(), Refusal>(())
    /// ```
    pub fn packets(&self) -> impl Iterator<Item = (Packets, Heard)> + '_ {
        // Longer records are refused by every call, so numbers of more bits are never needed.
        let places = u32::try_from(self.marks.len()).unwrap_or(u32::MAX);
        (0..places).map(Packets).filter_map(|number| Some((number, self.heard(number)?)))
    }

    /// 1 for each packet number that was heard, 0 for the others.
    pub fn marks(&self) -> &[u8] {
        &self.marks
    }

    /// The octets before each heard packet, 0 for the others.
    pub fn elapsed(&self) -> &[u32] {
        &self.elapsed
    }

    /// The payload length of each heard packet, 0 for the others.
    pub fn sizes(&self) -> &[u16] {
        &self.sizes
    }
}
