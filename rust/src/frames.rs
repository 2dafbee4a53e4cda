//! Frames of PDU Types 0, 1 and 3: what they say, read and written.

use crate::refusal::of_written;
use crate::{Octets, Packets, ReadRefusal, Refusal, raw};

/// A data PDU (Type 1). Fields are wider than a frame has them, so that what does not fit is refused and not cut.
#[derive(Clone, Copy, Debug, PartialEq, Eq, Hash)]
pub struct Data<'a> {
    /// Time Stamp, 0 to 59,999 units of 10 ms.
    pub stamp: u32,
    /// The packet's number, which is how many of its sequence came before it.
    pub number: Packets,
    /// The octets of the packets before it.
    pub elapsed: Octets,
    /// The payload, 0 to 4,095 octets. Of a frame that was read, up to four octets behind an IP packet are not among them: see
    /// [`payload_kept`].
    pub payload: &'a [u8],
}

/// A closing PDU (Types 0 and 3). Fields are wider than a frame has them, so that what does not fit is refused and not cut.
#[derive(Clone, Copy, Debug, PartialEq, Eq, Hash)]
pub struct Closing {
    /// Time Stamp, 0 to 59,999 units of 10 ms.
    pub stamp: u32,
    /// The packets of the sequence.
    pub number: Packets,
    /// Their octets.
    pub elapsed: Octets,
    /// The packets of the period, this sequence included.
    pub total_packets: Packets,
    /// Their octets.
    pub total_octets: Octets,
}

/// The octets of a Type 0 frame.
const CLOSING_SIZE: usize = 18;
/// The octets of a Type 1 frame without its payload.
const DATA_LEAST: usize = 11;
/// The octets of a Type 3 frame without its lengths.
const LENGTHS_LEAST: usize = 19;

/// The octets that a Type 1 frame has; a payload that is too long is refused, so it needs no room.
pub(crate) fn data_size(payload: &[u8]) -> usize {
    DATA_LEAST + payload.len().min(4_095)
}

/// The octets that a Type 3 frame has; lengths that are too many are refused, so they need no room.
pub(crate) fn lengths_size(lengths: &[u16]) -> usize {
    LENGTHS_LEAST + (3 * lengths.len().min(65_535)).div_ceil(2)
}

/// A list of the octets that `write` puts in front of so much room.
pub(crate) fn in_vec(room: usize, write: impl FnOnce(&mut [u8]) -> Result<usize, Refusal>) -> Result<Vec<u8>, Refusal> {
    let mut out = vec![0; room];
    let written = write(&mut out)?;
    out.truncate(written);
    Ok(out)
}

impl Data<'_> {
    /// Writes the frame in front of `out` and says how many octets it has. Refusals, in this order: 5, 20, 8, 12.
    ///
    /// The payload is written whole, whatever it is. An IP packet with one to four octets behind it is read back without these;
    /// [`payload_kept`] tells before.
    ///
    /// ```
    /// use quimdoral::{Data, Octets, Packets, Refusal};
    /// let data = Data { stamp: 0, number: Packets(0), elapsed: Octets(0), payload: &[1] };
    /// let mut out = [0xEE; 14];
    /// assert_eq!(data.write(&mut out), Ok(12));
    /// assert_eq!(out, [0x10, 0, 0, 0, 0, 0, 0, 0, 0, 0x3A, 0x33, 0x01, 0xEE, 0xEE]);
    /// assert_eq!(data.write(&mut out[..11]), Err(Refusal::NoRoom));
    /// ```
    #[inline]
    pub fn write(&self, out: &mut [u8]) -> Result<usize, Refusal> {
        of_written(raw::write_data(self, out))
    }

    /// The same with the frame in a list of its own. Refusals, in this order: 5, 20, 8.
    ///
    /// ```
    /// use quimdoral::{Data, Octets, Packets, Refusal};
    /// let data = Data { stamp: 0, number: Packets(1), elapsed: Octets(4_096), payload: &[] };
    /// assert_eq!(data.to_vec(), Err(Refusal::CountsImpossible)); // one packet before it has at most 4,095 octets
    /// ```
    pub fn to_vec(&self) -> Result<Vec<u8>, Refusal> {
        in_vec(data_size(self.payload), |out| self.write(out))
    }
}

impl Closing {
    /// Writes a Type 0 frame in front of `out` and says how many octets it has, which is 18. Refusals, in this order: 5, 8, 12.
    ///
    /// ```
    /// use quimdoral::{Closing, Octets, Packets};
    /// let (packets, octets) = (Packets(1), Octets(1));
    /// let closing = Closing { stamp: 0, number: packets, elapsed: octets, total_packets: packets, total_octets: octets };
    /// let mut out = [0; 18];
    /// assert_eq!(closing.write(&mut out), Ok(18));
    /// assert_eq!(out, [0, 0, 0, 0, 1, 0, 0, 0, 1, 0, 0, 1, 0, 0, 0, 0, 1, 0x9C]);
    /// ```
    #[inline]
    pub fn write(&self, out: &mut [u8]) -> Result<usize, Refusal> {
        of_written(raw::write_closing(self, out))
    }

    /// The Type 0 frame in a list of its own. Refusals, in this order: 5, 8.
    pub fn to_vec(&self) -> Result<Vec<u8>, Refusal> {
        in_vec(CLOSING_SIZE, |out| self.write(out))
    }

    /// Writes a Type 3 frame with the payload length of each packet in front of `out`, and says how many octets it has. Refusals, in this
    /// order: 5, 8, 22, 12.
    ///
    /// ```
    /// use quimdoral::{Closing, Octets, Packets, Refusal};
    /// let (packets, octets) = (Packets(2), Octets(5));
    /// let closing = Closing { stamp: 0, number: packets, elapsed: octets, total_packets: packets, total_octets: octets };
    /// let mut out = [0; 22];
    /// assert_eq!(closing.write_with_lengths(&[2, 3], &mut out), Ok(22));
    /// assert_eq!(closing.write_with_lengths(&[2, 4], &mut out), Err(Refusal::LengthsWrong));
    /// ```
    #[inline]
    pub fn write_with_lengths(&self, lengths: &[u16], out: &mut [u8]) -> Result<usize, Refusal> {
        of_written(raw::write_closing_with_lengths(self, lengths, out))
    }

    /// The Type 3 frame in a list of its own. Refusals, in this order: 5, 8, 22.
    pub fn to_vec_with_lengths(&self, lengths: &[u16]) -> Result<Vec<u8>, Refusal> {
        in_vec(lengths_size(lengths), |out| self.write_with_lengths(lengths, out))
    }
}

/// What a frame says.
#[derive(Clone, Copy, Debug, PartialEq, Eq, Hash)]
pub enum Frame<'a> {
    /// Type 1: a packet. Where an extension stood behind it, it was dropped.
    Data(Data<'a>),
    /// Type 0: the end of a sequence.
    Closing(Closing),
    /// Type 3: the end of a sequence, with the length of each of its packets.
    ClosingWithLengths(Closing),
}

impl Frame<'_> {
    /// The stamp, which every type has.
    pub fn stamp(&self) -> u32 {
        match self {
            Frame::Data(data) => data.stamp,
            Frame::Closing(closing) | Frame::ClosingWithLengths(closing) => closing.stamp,
        }
    }
}

/// Reads a frame. Refusals, in this order: 1 for an empty frame, 2, 3, 1, 4, 5, 6, 7, 8; with 4 and 7 the check found and the check worked
/// out are told.
///
/// The payload of a data PDU begins at the twelfth octet, and has as many octets as [`payload_kept`] says of all that stands there: up to
/// four octets behind an IP packet are dropped. Refusal 6 judges what is left, and the payload check covers everything.
///
/// ```
/// use quimdoral::{Checks, Frame, Octets, Packets, ReadRefusal, Refusal, frames};
/// let mut octets = [0x10, 0, 0, 0, 0, 0, 0, 0, 0, 0x3A, 0x33, 0x01];
/// let Frame::Data(data) = frames::read(&octets)? else { panic!("a data PDU") };
/// assert_eq!((data.number, data.elapsed, data.payload), (Packets(0), Octets(0), &[1][..]));
/// assert_eq!(frames::read(&octets[..10]), Err(ReadRefusal::Refused(Refusal::TooShort)));
/// octets[11] = 0x00;
/// assert_eq!(frames::read(&octets), Err(ReadRefusal::PayloadCheck(Checks { found: 563, worked_out: 0 })));
/// # Ok::<(), Refusal>(())
/// ```
#[inline]
pub fn read(frame: &[u8]) -> Result<Frame<'_>, ReadRefusal> {
    // Each number fits: the fields of a frame are no wider.
    let closing = |said: &raw::Said| Closing {
        stamp: said.at(1) as u32,
        number: Packets(said.at(2) as u32),
        elapsed: Octets(said.at(3)),
        total_packets: Packets(said.at(4) as u32),
        total_octets: Octets(said.at(5)),
    };
    let data = |said: &raw::Said| Data {
        stamp: said.at(1) as u32,
        number: Packets(said.at(2) as u32),
        elapsed: Octets(said.at(3)),
        payload: &frame[DATA_LEAST..][..said.at(6) as usize],
    };
    let told = raw::read_frame(frame, |said| match said.at(0) {
        1 => Frame::Closing(closing(said)),
        2 => Frame::Data(data(said)),
        _ => Frame::ClosingWithLengths(closing(said)),
    });
    told.map_err(ReadRefusal::answered)
}

/// How many octets of a payload a reader takes. Where an IPv4 or IPv6 header stands in front, and up to four octets more are there than it
/// says, that is the length that it says: whoever reads or hears the frame drops the octets behind it as an extension (clause 5.5.3.14).
///
/// In every other case all are taken: with fewer octets than the shortest header has (20 in IPv4, 40 in IPv6), with a version that is
/// neither 4 nor 6, in IPv4 with an IHL below 5 or a total length shorter than the header, and with a length that is above the number of
/// octets there, or five or more below it. Nothing else of the header is judged.
///
/// ```
/// use quimdoral::{Data, Frame, Octets, Packets, Refusal, frames};
/// let mut payload = [0; 24];
/// payload[..4].copy_from_slice(&[0x45, 0, 0, 20]); // IPv4, a header of 5 times 4 octets, 20 octets in all
/// assert_eq!([20, 22, 24].map(|length| frames::payload_kept(&payload[..length])), [20; 3]);
/// assert_eq!(frames::payload_kept(&payload[..19]), 19); // not all of a header
/// assert_eq!(frames::payload_kept(b"Flood warning"), 13);
///
/// let data = Data { stamp: 0, number: Packets(0), elapsed: Octets(0), payload: &payload[..22] };
/// let frame = data.to_vec()?;
/// assert_eq!(frame.len(), 11 + 22);
/// assert_eq!(frames::read(&frame)?, Frame::Data(Data { payload: &payload[..20], ..data }));
/// payload[3] = 19; // less than the header has
/// assert_eq!(frames::payload_kept(&payload[..22]), 22);
/// # Ok::<(), Refusal>(())
/// ```
#[inline]
pub fn payload_kept(payload: &[u8]) -> usize {
    // The number fits: it is at most the payload's length.
    raw::payload_kept(payload) as usize
}

/// Reads the payload lengths of a Type 3 frame to the front of `lengths`, and says how many there are; a frame of Type 0 or 1 has none.
/// Refusals, in this order: those of [`read`], 12.
///
/// ```
/// use quimdoral::{Checks, ReadRefusal, Refusal, frames};
/// let mut frame = [0x30, 0, 0, 0, 1, 0, 0, 0, 1, 0, 0, 1, 0, 0, 0, 0, 1, 0x00, 0x31, 0x00, 0x10];
/// let mut lengths = [9; 3];
/// assert_eq!(frames::read_lengths(&frame, &mut lengths), Ok(1));
/// assert_eq!(lengths, [1, 9, 9]);
/// assert_eq!(frames::read_lengths(&frame, &mut []), Err(ReadRefusal::Refused(Refusal::NoRoom)));
/// frame[17] = 0x10;
/// assert_eq!(frames::read_lengths(&frame, &mut []), Err(ReadRefusal::HeaderCheck(Checks { found: 4, worked_out: 0 })));
/// ```
#[inline]
pub fn read_lengths(frame: &[u8], lengths: &mut [u16]) -> Result<usize, ReadRefusal> {
    ReadRefusal::of_written(raw::read_lengths(frame, lengths))
}

/// The payload lengths of a Type 3 frame in a list of their own; a frame of Type 0 or 1 has none. Refusals are those of [`read`].
///
/// ```
/// use quimdoral::{Checks, ReadRefusal, frames};
/// let mut frame = [0x30, 0, 0, 0, 1, 0, 0, 0, 1, 0, 0, 1, 0, 0, 0, 0, 1, 0x00, 0x31, 0x00, 0x10];
/// assert_eq!(frames::lengths(&frame), Ok(vec![1]));
/// frame[20] = 0x11;
/// assert_eq!(frames::lengths(&frame), Err(ReadRefusal::PayloadCheck(Checks { found: 49, worked_out: 514 })));
/// ```
pub fn lengths(frame: &[u8]) -> Result<Vec<u16>, ReadRefusal> {
    // Three octets hold two lengths, and a frame has at most 65,535.
    let room = (frame.len().saturating_sub(LENGTHS_LEAST) * 2 / 3).min(65_535);
    let mut lengths = vec![0; room];
    let count = read_lengths(frame, &mut lengths)?;
    lengths.truncate(count);
    Ok(lengths)
}
