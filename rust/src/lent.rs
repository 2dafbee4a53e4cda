//! The same calls on memory of the caller's own, which may lie anywhere and hold anything: a table of many records, say.
//!
//! Each call judges what it is lent, so damage of any kind is refused, and a refusal leaves all memory as it was. What was written
//! stands in front of the lent memory, and nothing behind it differs.

use crate::raw;
use crate::record::Key;
use crate::refusal::{JoinRefusal, ReadRefusal, Refusal, of_number, of_written};

/// A record in borrowed memory.
///
/// The lists behind the head have one place for each packet number; they have to be of one length, which is the record's capacity.
#[derive(Debug)]
pub struct Lists<'a> {
    /// Six numbers: bearer, period, stamp, 1 where closed and 0 where not, the closing's packets, its octets. More are left alone.
    pub head: &'a mut [u64],
    /// 1 for each packet number that was heard, 0 for the others.
    pub marks: &'a mut [u8],
    /// The octets before each heard packet, 0 for the others.
    pub elapsed: &'a mut [u32],
    /// The payload length of each heard packet, 0 for the others.
    pub sizes: &'a mut [u16],
}

/// A record in borrowed memory that is only read: the same four lists.
#[derive(Clone, Copy, Debug)]
pub struct Held<'a> {
    /// Six numbers: bearer, period, stamp, 1 where closed and 0 where not, the closing's packets, its octets.
    pub head: &'a [u64],
    /// 1 for each packet number that was heard, 0 for the others.
    pub marks: &'a [u8],
    /// The octets before each heard packet, 0 for the others.
    pub elapsed: &'a [u32],
    /// The payload length of each heard packet, 0 for the others.
    pub sizes: &'a [u16],
}

/// Lent memory for a report. The gaps come in front of three lists, one number of each gap in each.
#[derive(Debug)]
pub struct Lent<'a> {
    /// The first packet number of each gap.
    pub firsts: &'a mut [u32],
    /// The packets of each gap.
    pub counts: &'a mut [u32],
    /// The octets of each gap.
    pub octets: &'a mut [u64],
    /// Seven figures: packets and octets that were sent, heard and missing, then the number of gaps.
    pub figures: &'a mut [u64],
}

/// Makes the lists an empty record. Refusals, in this order: 14, 5.
///
/// ```
/// use quimdoral::{Key, Refusal, lent::{Lists, fresh}};
/// let (mut head, mut marks, mut elapsed, mut sizes) = ([9; 6], [9; 4], [9; 4], [9; 4]);
/// let lists = Lists { head: &mut head, marks: &mut marks, elapsed: &mut elapsed, sizes: &mut sizes };
/// assert_eq!(fresh(Key { bearer: 7, period: 3, stamp: 60_000 }, lists), Err(Refusal::StampTooHigh));
/// assert_eq!(marks, [9; 4]);
/// let lists = Lists { head: &mut head, marks: &mut marks, elapsed: &mut elapsed, sizes: &mut sizes };
/// assert_eq!(fresh(Key { bearer: 7, period: 3, stamp: 0 }, lists), Ok(()));
/// assert_eq!((head, marks), ([7, 3, 0, 0, 0, 0], [0; 4]));
/// ```
#[inline]
pub fn fresh(key: Key, lists: Lists) -> Result<(), Refusal> {
    of_number(raw::fresh(key.numbers(), lists))
}

/// Takes a frame that came in a bearer and a period. Refusals, in this order: 14, those of reading, 13, 9, 10, 11.
///
/// ```
/// use quimdoral::{Checks, ReadRefusal, Refusal, lent::{Lists, hear}};
/// let first = [0x10, 0, 0, 0, 0, 0, 0, 0, 0, 0x3A, 0x33, 0x01];
/// let (mut head, mut marks, mut elapsed, mut sizes) = ([7, 3, 0, 0, 0, 0], [2, 0], [0; 2], [0; 2]);
/// let lists = Lists { head: &mut head, marks: &mut marks, elapsed: &mut elapsed, sizes: &mut sizes };
/// assert_eq!(hear(lists, 7, 3, &first), Err(ReadRefusal::Refused(Refusal::RecordDamaged))); // 2 is no mark
/// let lists = Lists { head: &mut head, marks: &mut marks, elapsed: &mut elapsed, sizes: &mut sizes };
/// let wrong = Checks { found: 563, worked_out: 0 };
/// assert_eq!(hear(lists, 7, 3, &first[..11]), Err(ReadRefusal::PayloadCheck(wrong))); // a frame that was cut is told first
/// marks[0] = 0;
/// let lists = Lists { head: &mut head, marks: &mut marks, elapsed: &mut elapsed, sizes: &mut sizes };
/// assert_eq!(hear(lists, 7, 3, &first), Ok(()));
/// assert_eq!((marks, sizes), ([1, 0], [1, 0]));
/// ```
#[inline]
pub fn hear(lists: Lists, bearer: u32, period: u32, frame: &[u8]) -> Result<(), ReadRefusal> {
    ReadRefusal::of_answer(raw::hear(lists, bearer, period, frame))
}

/// Makes the lists an empty record and takes many frames into it, which is quicker than a call for each. Refusals of the whole, in this
/// order: 14, 5, 12 (fewer places in `answers` than in `ends`).
///
/// The frames stand in one row of octets. Frame `i` ends before `ends[i]`, and `answers[i]` gets 0, or its refusal in one number, which
/// [`ReadRefusal::from_answer`] takes apart. An end beyond the octets is taken as theirs, and one before the frame's begin gives an empty
/// frame.
///
/// ```
/// use quimdoral::{Checks, Key, ReadRefusal, Refusal, lent::{Lists, hear_all}};
/// let first = [0x10, 0, 0, 0, 0, 0, 0, 0, 0, 0x3A, 0x33, 0x01];
/// let (mut head, mut marks, mut elapsed, mut sizes, mut answers) = ([9; 6], [9; 2], [9; 2], [9; 2], [9; 4]);
/// let lists = Lists { head: &mut head, marks: &mut marks, elapsed: &mut elapsed, sizes: &mut sizes };
/// let key = Key { bearer: 7, period: 3, stamp: 0 };
/// assert_eq!(hear_all(key, lists, &[first, first].concat(), &[12, 23, 24], &mut answers), Ok(()));
/// assert_eq!((marks, answers), ([1, 0], [0, 7 + 256 * 563, 1, 9])); // the second was cut, and an octet was left for the third
/// let wrong = Checks { found: 563, worked_out: 0 };
/// assert_eq!(ReadRefusal::from_answer(answers[1]), Some(ReadRefusal::PayloadCheck(wrong)));
/// assert_eq!(ReadRefusal::from_answer(answers[2]), Some(ReadRefusal::Refused(Refusal::TooShort)));
/// ```
#[inline]
pub fn hear_all(key: Key, lists: Lists, octets: &[u8], ends: &[u32], answers: &mut [u64]) -> Result<(), Refusal> {
    of_number(raw::hear_all(key.numbers(), lists, octets, ends, answers))
}

/// Adds to the left record what the right one heard; the right one is only read. Refusals, in this order: 14, 13, 9, 11.
///
/// ```
/// use quimdoral::{JoinRefusal, Packets, lent::{Held, Lists, join}};
/// let (mut head, mut marks, mut elapsed, mut sizes) = ([7, 3, 0, 0, 0, 0], [1, 0], [0; 2], [5, 0]);
/// let mut right = Held { head: &[7, 3, 0, 1, 2, 9], marks: &[0, 1], elapsed: &[0, 6], sizes: &[0, 3] };
/// let left = Lists { head: &mut head, marks: &mut marks, elapsed: &mut elapsed, sizes: &mut sizes };
/// assert_eq!(join(left, right), Err(JoinRefusal::Packet(Packets(1)))); // the left has five octets before it
/// right.elapsed = &[0, 5];
/// right.head = &[7, 3, 0, 1, 2, 8];
/// let left = Lists { head: &mut head, marks: &mut marks, elapsed: &mut elapsed, sizes: &mut sizes };
/// assert_eq!(join(left, right), Ok(()));
/// assert_eq!((head, marks, elapsed, sizes), ([7, 3, 0, 1, 2, 8], [1, 1], [0, 5], [5, 3]));
/// ```
#[inline]
pub fn join(left: Lists, right: Held) -> Result<(), JoinRefusal> {
    JoinRefusal::answer(raw::join(left, right))
}

/// Reports on a record. Refusals, in this order: 14, 13, 12. Half as many places as the record has, and one, hold its gaps.
///
/// ```
/// use quimdoral::{Refusal, lent::{Held, Lent, report}};
/// let record = Held { head: &[7, 3, 0, 0, 0, 0], marks: &[0, 1], elapsed: &[0, 5], sizes: &[0, 3] };
/// let (mut firsts, mut counts, mut octets, mut figures) = ([9; 2], [9; 2], [9; 2], [9; 8]);
/// let lent = Lent { firsts: &mut firsts, counts: &mut counts, octets: &mut octets[..0], figures: &mut figures };
/// assert_eq!(report(record, lent), Err(Refusal::NoRoom));
/// let lent = Lent { firsts: &mut firsts, counts: &mut counts, octets: &mut octets, figures: &mut figures };
/// assert_eq!(report(record, lent), Ok(()));
/// assert_eq!((firsts, counts, octets), ([0, 9], [1, 9], [5, 9]));
/// assert_eq!(figures, [2, 8, 1, 3, 1, 5, 1, 9]);
/// ```
#[inline]
pub fn report(record: Held, lent: Lent) -> Result<(), Refusal> {
    of_number(raw::report(record, lent))
}

/// Makes a state of six numbers that of a fresh sender, whatever it held. Refusals: 12.
///
/// The numbers are 0 where fresh, 1 where open and 2 where closed; the stamp; the packets and octets of the sequence; the packets and
/// octets of the period. More numbers are left alone. Which numbers are damage, [`State`](crate::sender::State) says; a list that is too
/// short, and numbers that no state has, are damage too.
///
/// ```
/// use quimdoral::{Refusal, lent};
/// let (mut state, mut out) = ([9; 6], [0; 18]);
/// assert_eq!(lent::sender_open(&mut state, 5), Err(Refusal::SenderDamaged));
/// lent::sender_fresh(&mut state)?;
/// lent::sender_open(&mut state, 5)?;
/// assert_eq!(lent::sender_data(&mut state, b"news", &mut out)?, 15);
/// assert_eq!(state, [1, 5, 1, 4, 1, 4]);
/// assert_eq!(lent::sender_close(&mut state, &mut out)?, 18);
/// assert_eq!(state, [2, 5, 0, 0, 1, 4]);
/// lent::sender_new_period(&mut state)?;
/// assert_eq!(state, [0; 6]);
/// # Ok::<(), Refusal>(())
/// ```
#[inline]
pub fn sender_fresh(state: &mut [u64]) -> Result<(), Refusal> {
    of_number(raw::sender_fresh(state))
}

/// Opens a sequence, as [`Sender::open`](crate::Sender::open). Refusals, in this order: 21, 15, 5, 16.
#[inline]
pub fn sender_open(state: &mut [u64], stamp: u32) -> Result<(), Refusal> {
    of_number(raw::sender_open(state, stamp))
}

/// Sends a packet, as [`Sender::data`](crate::Sender::data). Refusals, in this order: 21, 15, 20, 17, 18, 12.
#[inline]
pub fn sender_data(state: &mut [u64], payload: &[u8], out: &mut [u8]) -> Result<usize, Refusal> {
    of_written(raw::sender_data(state, payload, out))
}

/// Closes the sequence, as [`Sender::close`](crate::Sender::close). Refusals, in this order: 21, 15, 12.
#[inline]
pub fn sender_close(state: &mut [u64], out: &mut [u8]) -> Result<usize, Refusal> {
    of_written(raw::sender_close(state, out))
}

/// Closes the sequence with a length for each packet, as [`Sender::close_with_lengths`](crate::Sender::close_with_lengths). Refusals, in
/// this order: 21, 15, 22, 12.
#[inline]
pub fn sender_close_with_lengths(state: &mut [u64], lengths: &[u16], out: &mut [u8]) -> Result<usize, Refusal> {
    of_written(raw::sender_close_with_lengths(state, lengths, out))
}

/// Begins a new period, as [`Sender::new_period`](crate::Sender::new_period). Refusals, in this order: 21, 15.
#[inline]
pub fn sender_new_period(state: &mut [u64]) -> Result<(), Refusal> {
    of_number(raw::sender_new_period(state))
}
