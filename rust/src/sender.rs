//! The sender of one bearer: it counts packets and octets, and writes the counts into each frame.

use crate::frames::{data_size, in_vec, lengths_size};
use crate::{Octets, Packets, Refusal, lent};

/// Where a sender stands.
#[derive(Clone, Copy, Debug, Default, PartialEq, Eq, Hash)]
pub enum Phase {
    /// Before the first sequence of its period.
    #[default]
    Fresh,
    /// Within a sequence.
    Open,
    /// Between two sequences.
    Closed,
}

/// All that a sender knows, for looking at it, storing it and making it again.
///
/// It is damaged, and every call is refused with 21, if the stamp is above 59,999, `number` above 65,535 or `total_packets` above
/// 16,777,215; if the counts are impossible in a closing PDU; if `number` or `elapsed` is not zero when closed; if anything is not zero
/// when fresh.
#[derive(Clone, Copy, Debug, Default, PartialEq, Eq, Hash)]
pub struct State {
    /// Where the sender stands.
    pub phase: Phase,
    /// The stamp of the sequence that is open, or else was the last of its period.
    pub stamp: u32,
    /// The packets of the sequence so far.
    pub number: Packets,
    /// Their octets.
    pub elapsed: Octets,
    /// The packets of the period so far.
    pub total_packets: Packets,
    /// Their octets.
    pub total_octets: Octets,
}

/// A sender. Each call advances it where it stands, or refuses and leaves it as it was.
///
/// ```
/// use quimdoral::{Octets, Packets, Refusal, Sender, sender::Phase};
/// let mut sender = Sender::new();
/// let mut out = [0; 64];
/// assert_eq!(sender.data(b"news", &mut out), Err(Refusal::OutOfTurn));
/// sender.open(100)?;
/// let length = sender.data(b"news", &mut out)?;
/// assert_eq!(&out[..length], [0x10, 0, 100, 0, 0, 0, 0, 0, 0, 0xB7, 0x17, b'n', b'e', b'w', b's']);
/// let state = sender.state();
/// assert_eq!((state.phase, state.number, state.elapsed), (Phase::Open, Packets(1), Octets(4)));
/// assert_eq!(sender.close(&mut out)?, 18);
/// assert_eq!(sender.open(100), Err(Refusal::StampNotLater));
/// sender.new_period()?;
/// sender.open(0)?;
/// # Ok::<(), Refusal>(())
/// ```
#[derive(Clone, Debug, PartialEq, Eq, Hash)]
pub struct Sender {
    numbers: [u64; 6],
}

impl Default for Sender {
    fn default() -> Sender {
        Sender::new()
    }
}

impl Sender {
    /// A fresh sender.
    pub fn new() -> Sender {
        let mut numbers = [0; 6];
        lent::sender_fresh(&mut numbers).expect("six numbers have room for a state");
        Sender { numbers }
    }

    /// A sender in this state, whatever it is: each call judges it.
    ///
    /// ```
    /// use quimdoral::{Packets, Refusal, Sender, sender::{Phase, State}};
    /// let mut state = State { phase: Phase::Closed, stamp: 7, total_packets: Packets(2), ..State::default() };
    /// assert_eq!(Sender::from_state(state).open(8), Ok(()));
    /// state.number = Packets(1); // though no sequence is open
    /// assert_eq!(Sender::from_state(state).open(8), Err(Refusal::SenderDamaged));
    /// ```
    pub fn from_state(state: State) -> Sender {
        let State { phase, stamp, number, elapsed, total_packets, total_octets } = state;
        let phase = match phase {
            Phase::Fresh => 0,
            Phase::Open => 1,
            Phase::Closed => 2,
        };
        Sender { numbers: [phase, stamp.into(), number.0.into(), elapsed.0, total_packets.0.into(), total_octets.0] }
    }

    /// All that the sender knows.
    pub fn state(&self) -> State {
        let [phase, stamp, number, elapsed, packets, octets] = self.numbers;
        let phase = match phase {
            0 => Phase::Fresh,
            1 => Phase::Open,
            _ => Phase::Closed,
        };
        // Each number fits: only numbers of these widths are ever put there.
        State {
            phase,
            stamp: stamp as u32,
            number: Packets(number as u32),
            elapsed: Octets(elapsed),
            total_packets: Packets(packets as u32),
            total_octets: Octets(octets),
        }
    }

    /// Opens a sequence, where none is open. Refusals, in this order: 21, 15, 5, 16.
    #[inline]
    pub fn open(&mut self, stamp: u32) -> Result<(), Refusal> {
        lent::sender_open(&mut self.numbers, stamp)
    }

    /// Sends a packet of the sequence that is open: writes a Type 1 frame in front of `out`, and says how many octets it has. Refusals, in
    /// this order: 21, 15, 20, 17, 18, 12.
    ///
    /// All octets of the payload are sent and counted. Receivers drop up to four octets behind an IP packet, and count them nowhere: a
    /// payload that ends in such octets is heard shorter than it was sent, so that the next frame of its sequence contradicts it; where
    /// that one is lost, these octets count as missing with it. Give packets without them;
    /// [`frames::payload_kept`](crate::frames::payload_kept) tells.
    ///
    /// ```
    /// use quimdoral::{Key, ReadRefusal, Record, Refusal, Sender, frames};
    /// let mut payload = [0; 22];
    /// payload[..4].copy_from_slice(&[0x45, 0, 0, 20]); // an IPv4 packet of 20 octets, and two that are no part of it
    /// let packet = &payload[..frames::payload_kept(&payload)];
    /// for (payload, answer) in [(packet, Ok(())), (&payload, Err(ReadRefusal::Refused(Refusal::Contradiction)))] {
    ///     let mut sender = Sender::new();
    ///     sender.open(100)?;
    ///     let (data, closing) = (sender.data_to_vec(payload)?, sender.close_to_vec()?);
    ///     let mut record = Record::fresh(Key { bearer: 7, period: 3, stamp: 100 }, 4)?;
    ///     record.hear(7, 3, &data)?;
    ///     assert_eq!(record.hear(7, 3, &closing), answer);
    /// }
    /// # Ok::<(), Refusal>(())
    /// ```
    #[inline]
    pub fn data(&mut self, payload: &[u8], out: &mut [u8]) -> Result<usize, Refusal> {
        lent::sender_data(&mut self.numbers, payload, out)
    }

    /// The same with the frame in a list of its own. Refusals, in this order: 21, 15, 20, 17, 18.
    pub fn data_to_vec(&mut self, payload: &[u8]) -> Result<Vec<u8>, Refusal> {
        in_vec(data_size(payload), |out| self.data(payload, out))
    }

    /// Closes the sequence, also one without data: writes a Type 0 frame in front of `out`, and says how many octets it has. Refusals, in
    /// this order: 21, 15, 12.
    #[inline]
    pub fn close(&mut self, out: &mut [u8]) -> Result<usize, Refusal> {
        lent::sender_close(&mut self.numbers, out)
    }

    /// The same with the frame in a list of its own. Refusals, in this order: 21, 15.
    pub fn close_to_vec(&mut self) -> Result<Vec<u8>, Refusal> {
        in_vec(18, |out| self.close(out))
    }

    /// Closes the sequence with a Type 3 frame, which has the payload length of each packet; the sender keeps no lengths, so they are
    /// given. Refusals, in this order: 21, 15, 22, 12.
    ///
    /// ```
    /// use quimdoral::{Refusal, Sender, frames};
    /// let mut sender = Sender::new();
    /// sender.open(100)?;
    /// sender.data_to_vec(b"news")?;
    /// assert_eq!(sender.close_with_lengths_to_vec(&[5]), Err(Refusal::LengthsWrong));
    /// let closing = sender.close_with_lengths_to_vec(&[4])?;
    /// assert_eq!(frames::lengths(&closing)?, [4]);
    /// # Ok::<(), Refusal>(())
    /// ```
    #[inline]
    pub fn close_with_lengths(&mut self, lengths: &[u16], out: &mut [u8]) -> Result<usize, Refusal> {
        lent::sender_close_with_lengths(&mut self.numbers, lengths, out)
    }

    /// The same with the frame in a list of its own. Refusals, in this order: 21, 15, 22.
    pub fn close_with_lengths_to_vec(&mut self, lengths: &[u16]) -> Result<Vec<u8>, Refusal> {
        in_vec(lengths_size(lengths), |out| self.close_with_lengths(lengths, out))
    }

    /// Begins a new period, where no sequence is open: the sender is fresh again. Refusals, in this order: 21, 15.
    #[inline]
    pub fn new_period(&mut self) -> Result<(), Refusal> {
        lent::sender_new_period(&mut self.numbers)
    }
}
