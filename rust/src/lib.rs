//! SYNC frames of 3GPP TS 25.446 on the M1 interface, and the account of what was received of them: which packets did a transmitter
//! lack, and how many octets were in them?
//!
//! These are safe calls of a library that is written in Rattle and proved. Every call takes every input: what it cannot use, it refuses,
//! and then all memory is as it was before the call. Packets and octets are counted apart, in types of their own.
//!
//! | module | what it has |
//! |---|---|
//! | [`sender`] | the sender of one bearer, which counts and writes frames |
//! | [`record`] | the reception record of one sequence: it hears frames, and is joined with other receivers' records |
//! | [`report`] | what was sent, heard and missing, and the gaps |
//! | [`frames`] | frames read, and written from given fields; how much of a payload a reader keeps |
//! | [`clock`] | the stamp of a moment, due times, lateness |
//! | [`refusal`] | why a call was refused |
//! | [`lent`] | the same calls on memory of the caller's own |
//! | [`checks`] | the two checks of a frame |
//!
//! A sender sends three packets and closes their sequence. Two receivers each lose some of the frames; their records are joined, and
//! what is still missing, neither of them heard:
//!
//! ```
//! use quimdoral::{Amount, Checks, Gap, Key, Octets, Packets, ReadRefusal, Record, Refusal, Sender};
//!
//! # fn main() -> Result<(), Refusal> {
//! let mut sender = Sender::new();
//! sender.open(4_200)?; // 42 s after the period's start
//! let mut frames = Vec::new();
//! for payload in ["Flood warning", "River Dove", "Avoid Mill Lane"] {
//!     frames.push(sender.data_to_vec(payload.as_bytes())?);
//! }
//! frames.push(sender.close_with_lengths_to_vec(&[13, 10, 15])?);
//!
//! let (bearer, period) = (7, 3); // as the caller numbers them
//! let mut north = Record::fresh(Key { bearer, period, stamp: 4_200 }, 512)?;
//! let mut south = north.clone();
//! north.hear(bearer, period, &frames[0])?; // of the rest it heard nothing
//! south.hear(bearer, period, &frames[3])?; // the closing alone, and then a frame that was cut on its way
//! let wrong = Checks { found: 12, worked_out: 479 };
//! assert_eq!(south.hear(bearer, period, &frames[1][..15]), Err(ReadRefusal::PayloadCheck(wrong)));
//!
//! north.join(&south)?;
//! let report = north.report()?;
//! assert_eq!(report.sent, Amount { packets: Packets(3), octets: Octets(38) });
//! assert_eq!(report.missing, Amount { packets: Packets(2), octets: Octets(25) });
//! assert_eq!(report.gaps, [Gap { first: Packets(1), count: Packets(2), octets: Octets(25) }]);
//! # Ok(())
//! # }
//! ```
#![deny(missing_docs)]
#![deny(unsafe_code)]

pub mod checks;
pub mod clock;
pub mod frames;
pub mod lent;
#[allow(unsafe_code)]
mod raw;
pub mod record;
pub mod refusal;
pub mod report;
pub mod sender;
mod units;

pub use frames::{Closing, Data, Frame};
pub use record::{Key, Record};
pub use refusal::{Checks, JoinRefusal, ReadRefusal, Refusal};
pub use report::{Amount, Gap, Report};
pub use sender::Sender;
pub use units::{Octets, Packets};
