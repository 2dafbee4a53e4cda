//! Why a call was refused. After a refusal, all memory and state is as it was before the call.

use crate::Packets;
use std::error::Error;
use std::fmt;

/// Why a call was refused: of the reasons that apply, the first in the order that the call documents.
///
/// ```
/// use quimdoral::{Refusal, frames};
/// let refusal = frames::read(&[0x20]).unwrap_err().refusal();
/// assert_eq!((refusal, refusal.number()), (Refusal::TypeTwo, 2));
/// assert_eq!(refusal.to_string(), "refusal 2: the frame is of Type 2, which M1 does not use");
/// ```
///
/// Later versions may have more refusals, or lack one, so a match outside of this crate needs an arm for the rest.
#[derive(Clone, Copy, Debug, PartialEq, Eq, PartialOrd, Ord, Hash)]
#[non_exhaustive]
#[repr(u8)]
pub enum Refusal {
    /// The frame is empty, or shorter than its type's least size.
    TooShort = 1,
    /// The frame is of Type 2, which M1 does not use.
    TypeTwo = 2,
    /// The frame is of Types 4 to 15.
    TypeUnknown = 3,
    /// The header check is wrong.
    HeaderCheckWrong = 4,
    /// The stamp is above 59,999.
    StampTooHigh = 5,
    /// The frame has a size that its type does not have.
    SizeWrong = 6,
    /// The payload check is wrong.
    PayloadCheckWrong = 7,
    /// No sending has these counts, or one is too wide for its field.
    CountsImpossible = 8,
    /// The bearer, the period or the stamp is another sequence's.
    OtherSequence = 9,
    /// The packet number is at or above the record's capacity, or the closing's count is above it.
    BeyondCapacity = 10,
    /// No sending explains what the record holds together with what it was brought.
    Contradiction = 11,
    /// The lent output is shorter than what is to be written.
    NoRoom = 12,
    /// The record is damaged.
    RecordDamaged = 13,
    /// Two capacities, or one record's lists, differ, or one is above 65,535, or a head has fewer than six numbers.
    CapacitiesDiffer = 14,
    /// The sender is not in the phase that the call needs.
    OutOfTurn = 15,
    /// The stamp is not later than the last one of this period.
    StampNotLater = 16,
    /// The sequence has 65,535 data PDUs already.
    SequenceFull = 17,
    /// The period has 16,777,215 packets already.
    PeriodFull = 18,
    /// The payload to be written is above 4,095 octets.
    PayloadTooLong = 20,
    /// The sender's state is damaged.
    SenderDamaged = 21,
    /// The lengths given for Type 3 are not one of at most 4,095 for each packet, with the elapsed octets as their sum.
    LengthsWrong = 22,
    /// The moment is 60,000 ticks or more past the period's start.
    PeriodOver = 23,
}

use Refusal::*;

impl Refusal {
    /// All refusals, by rising number. A number that a refusal had once is not used again, so numbers may be left out: the refusal of a
    /// number is found by [`Refusal::from_number`], and not by its place here.
    #[rustfmt::skip]
    pub const ALL: &'static [Refusal] = &[
        TooShort, TypeTwo, TypeUnknown, HeaderCheckWrong, StampTooHigh, SizeWrong, PayloadCheckWrong, CountsImpossible, OtherSequence,
        BeyondCapacity, Contradiction, NoRoom, RecordDamaged, CapacitiesDiffer, OutOfTurn, StampNotLater, SequenceFull, PeriodFull,
        PayloadTooLong, SenderDamaged, LengthsWrong, PeriodOver,
    ];

    /// The number by which reports and other programs name the refusal.
    #[inline]
    pub fn number(self) -> u8 {
        self as u8
    }

    /// The refusal of a number, or nothing where no refusal has it.
    ///
    /// ```
    /// use quimdoral::Refusal;
    /// assert_eq!(Refusal::from_number(1), Some(Refusal::TooShort));
    /// assert!(Refusal::ALL.iter().all(|refusal| Refusal::from_number(refusal.number()) == Some(*refusal)));
    /// assert_eq!([0, 19, 255].map(Refusal::from_number), [None; 3]); // no refusal has 19 any more
    /// ```
    #[inline]
    pub fn from_number(number: u8) -> Option<Refusal> {
        Refusal::ALL.iter().copied().find(|refusal| refusal.number() == number)
    }

    /// What the refusal means, in plain words and without its number.
    pub fn meaning(self) -> &'static str {
        match self {
            TooShort => "the frame is empty, or shorter than its type allows",
            TypeTwo => "the frame is of Type 2, which M1 does not use",
            TypeUnknown => "the frame is of a reserved type, 4 to 15",
            HeaderCheckWrong => "the header check is wrong",
            StampTooHigh => "the stamp is above 59,999",
            SizeWrong => "the frame has a size that its type does not have",
            PayloadCheckWrong => "the payload check is wrong",
            CountsImpossible => "no sending has these counts, or one is too wide for its field",
            OtherSequence => "the bearer, the period or the stamp is another sequence's",
            BeyondCapacity => "the packet number or the closing's count is beyond the record's capacity",
            Contradiction => "it contradicts what the record holds",
            NoRoom => "the lent output is shorter than what is to be written",
            RecordDamaged => "the record is damaged",
            CapacitiesDiffer => "two capacities or one record's lists differ, or one is above 65,535",
            OutOfTurn => "the sender's call is out of turn",
            StampNotLater => "the stamp is not later than the last one of this period",
            SequenceFull => "the sequence has 65,535 packets already",
            PeriodFull => "the period has 16,777,215 packets already",
            PayloadTooLong => "the payload is above 4,095 octets",
            SenderDamaged => "the sender's state is damaged",
            LengthsWrong => "the lengths are not one of at most 4,095 for each packet, with the elapsed octets as their sum",
            PeriodOver => "the moment is 60,000 ticks or more past the period's start",
        }
    }
}

impl fmt::Display for Refusal {
    fn fmt(&self, f: &mut fmt::Formatter<'_>) -> fmt::Result {
        write!(f, "refusal {}: {}", self.number(), self.meaning())
    }
}

impl Error for Refusal {}

/// Why two records were not joined. A contradiction names what in the right record is at odds with the left.
#[derive(Clone, Copy, Debug, PartialEq, Eq, Hash)]
pub enum JoinRefusal {
    /// The lists do not match, a record is damaged, or the records are of two sequences: refusals 14, 13 and 9, in this order.
    Refused(Refusal),
    /// Refusal 11: the lowest packet number of the right record that alone contradicts the left.
    Packet(Packets),
    /// Refusal 11: no packet of the right record contradicts the left alone, and its closing does.
    Closing,
}

impl JoinRefusal {
    /// What the library answered, taken apart: with 11, the number named times 256 is added to it.
    #[inline]
    pub(crate) fn answer(said: u32) -> Result<(), JoinRefusal> {
        const NAMES_CLOSING: u32 = 65_536;
        match (of_number((said & 255) as u8), said >> 8) {
            (Ok(()), _) => Ok(()),
            (Err(Contradiction), NAMES_CLOSING) => Err(JoinRefusal::Closing),
            (Err(Contradiction), packet) => Err(JoinRefusal::Packet(Packets(packet))),
            (Err(refusal), _) => Err(JoinRefusal::Refused(refusal)),
        }
    }

    /// The refusal without what it names.
    pub fn refusal(self) -> Refusal {
        match self {
            JoinRefusal::Refused(refusal) => refusal,
            JoinRefusal::Packet(_) | JoinRefusal::Closing => Contradiction,
        }
    }

    /// The number of the refusal.
    pub fn number(self) -> u8 {
        self.refusal().number()
    }
}

impl fmt::Display for JoinRefusal {
    fn fmt(&self, f: &mut fmt::Formatter<'_>) -> fmt::Result {
        match self {
            JoinRefusal::Refused(refusal) => refusal.fmt(f),
            JoinRefusal::Packet(number) => write!(f, "refusal 11: packet {number} of the right record contradicts the left"),
            JoinRefusal::Closing => write!(f, "refusal 11: the closing of the right record contradicts the left"),
        }
    }
}

impl Error for JoinRefusal {}

impl From<JoinRefusal> for Refusal {
    fn from(join: JoinRefusal) -> Refusal {
        join.refusal()
    }
}

/// The check found in a frame, and the check worked out over the octets that it covers. The two differ, and either may be 0.
///
/// Over several frames they tell a maker's wrong polynomial from a noisy link: a wrong polynomial gives the same difference for the same
/// octets every time, noise does not.
#[derive(Clone, Copy, Debug, PartialEq, Eq, Hash)]
pub struct Checks {
    /// What stands in the frame: six bits of a header check, ten of a payload check.
    pub found: u16,
    /// What the rule gives over the frame's control part, or its payload part.
    pub worked_out: u16,
}

/// Why a frame was not read or heard. A wrong check comes with the check found and the check worked out. Turned into a [`Refusal`], by `?`
/// too, it loses them.
///
/// ```
/// use quimdoral::{Checks, ReadRefusal, Refusal, frames};
/// let frame = [0x30, 0, 0, 0, 1, 0, 0, 0, 1, 0, 0, 1, 0, 0, 0, 0, 1, 0x02, 0x02, 0x00, 0x10];
/// let refusal = frames::read(&frame).unwrap_err();
/// assert_eq!(refusal, ReadRefusal::PayloadCheck(Checks { found: 514, worked_out: 49 }));
/// assert_eq!(refusal.to_string(), "refusal 7: the payload check is wrong: 514 was found, 49 worked out");
/// assert_eq!((refusal.number(), Refusal::from(refusal)), (7, Refusal::PayloadCheckWrong));
/// ```
#[derive(Clone, Copy, Debug, PartialEq, Eq, Hash)]
pub enum ReadRefusal {
    /// Any other refusal than 4 and 7; no checks come with it.
    Refused(Refusal),
    /// Refusal 4: the header check is wrong.
    HeaderCheck(Checks),
    /// Refusal 7: the payload check is wrong.
    PayloadCheck(Checks),
}

impl ReadRefusal {
    /// The refusal of an answer that [`lent::hear_all`](crate::lent::hear_all) wrote: its lowest eight bits are the refusal's number, and
    /// with 4 and 7 the sixteen bits above have the check found and the next sixteen the check worked out. Nothing where the answer is 0,
    /// which accepts the frame, or has a form that the library does not write; whether the two checks differ is not asked.
    ///
    /// ```
    /// use quimdoral::{Checks, ReadRefusal, Refusal};
    /// let answer = 7 + 256 * (514 + 65_536 * 49);
    /// assert_eq!(ReadRefusal::from_answer(answer), Some(ReadRefusal::PayloadCheck(Checks { found: 514, worked_out: 49 })));
    /// assert_eq!(ReadRefusal::from_answer(9), Some(ReadRefusal::Refused(Refusal::OtherSequence)));
    /// assert_eq!([0, 19, 9 + 256].map(ReadRefusal::from_answer), [None; 3]);
    /// ```
    pub fn from_answer(answer: u64) -> Option<ReadRefusal> {
        let checks = Checks { found: (answer >> 8) as u16, worked_out: (answer >> 24) as u16 };
        match (Refusal::from_number(answer as u8)?, answer >> 8) {
            (HeaderCheckWrong, ..=0xFFFF_FFFF) => Some(ReadRefusal::HeaderCheck(checks)),
            (PayloadCheckWrong, ..=0xFFFF_FFFF) => Some(ReadRefusal::PayloadCheck(checks)),
            (refusal, 0) => Some(ReadRefusal::Refused(refusal)),
            _ => None,
        }
    }

    /// An answer of the library to a frame that is 0 or a refusal's.
    #[inline]
    pub(crate) fn of_answer(answer: u64) -> Result<(), ReadRefusal> {
        if answer == 0 { Ok(()) } else { Err(ReadRefusal::answered(answer)) }
    }

    /// An answer of the library to a frame that says how much of a lent slice was written, or is a refusal's.
    #[inline]
    pub(crate) fn of_written(answer: u64) -> Result<usize, ReadRefusal> {
        if answer & 255 == 0 { Ok((answer >> 8) as usize) } else { Err(ReadRefusal::answered(answer)) }
    }

    /// The refusal that the library answered with. Good frames do not come here, so it is kept out of their way.
    #[cold]
    pub(crate) fn answered(answer: u64) -> ReadRefusal {
        ReadRefusal::from_answer(answer).expect("the answer of a refusal")
    }

    /// The refusal without the checks.
    pub fn refusal(self) -> Refusal {
        match self {
            ReadRefusal::Refused(refusal) => refusal,
            ReadRefusal::HeaderCheck(_) => HeaderCheckWrong,
            ReadRefusal::PayloadCheck(_) => PayloadCheckWrong,
        }
    }

    /// The number of the refusal.
    pub fn number(self) -> u8 {
        self.refusal().number()
    }

    /// The check found and the check worked out, with refusals 4 and 7.
    ///
    /// ```
    /// use quimdoral::{Checks, frames};
    /// let mut frame = [0x10, 0, 0, 0, 0, 0, 0, 0, 0, 0x3A, 0x33, 0x01];
    /// frame[9] = 0x3E; // the last bit of the header check is turned
    /// assert_eq!(frames::read(&frame).unwrap_err().checks(), Some(Checks { found: 15, worked_out: 14 }));
    /// assert_eq!(frames::read(&frame[..10]).unwrap_err().checks(), None); // too short, and nothing is said of its check
    /// ```
    pub fn checks(self) -> Option<Checks> {
        match self {
            ReadRefusal::Refused(_) => None,
            ReadRefusal::HeaderCheck(checks) | ReadRefusal::PayloadCheck(checks) => Some(checks),
        }
    }
}

impl fmt::Display for ReadRefusal {
    fn fmt(&self, f: &mut fmt::Formatter<'_>) -> fmt::Result {
        self.refusal().fmt(f)?;
        match self.checks() {
            None => Ok(()),
            Some(Checks { found, worked_out }) => write!(f, ": {found} was found, {worked_out} worked out"),
        }
    }
}

impl Error for ReadRefusal {}

impl From<ReadRefusal> for Refusal {
    fn from(read: ReadRefusal) -> Refusal {
        read.refusal()
    }
}

/// An answer of the library that is 0 or a refusal's number.
#[inline]
pub(crate) fn of_number(number: u8) -> Result<(), Refusal> {
    if number == 0 { Ok(()) } else { Err(refused(number)) }
}

/// An answer of the library that has a value: the lowest eight bits are 0 or a refusal's number, and the value stands above them.
#[inline]
pub(crate) fn of_answer(answer: u64) -> Result<u64, Refusal> {
    of_number((answer & 255) as u8).map(|()| answer >> 8)
}

/// An answer that says how much of a lent slice was written, which a `usize` can say too.
#[inline]
pub(crate) fn of_written(answer: u64) -> Result<usize, Refusal> {
    of_answer(answer).map(|written| written as usize)
}

/// The refusal that the library answered with. It has no other numbers.
#[inline]
fn refused(number: u8) -> Refusal {
    Refusal::from_number(number).expect("the number of a refusal")
}
