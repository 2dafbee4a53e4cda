//! How many inputs are generated for each kind of call. The tests count them, and assert that there were as many.

/// Frames, good and damaged, read.
pub const READ: usize = 1_000_000;
/// The fewest of them that have to begin as IP packets behind the checks.
pub const READ_AS_PACKETS: usize = 200_000;
/// Payloads of which it is asked how much is kept.
pub const KEPT: usize = 300_000;
/// Frames read for their lengths.
pub const LISTED: usize = 100_000;
/// Fields from which frames are to be written: data, closings, closings with lengths.
pub const WRITTEN: [usize; 3] = [120_000, 120_000, 80_000];
/// Calls of senders: in turn and out of it, then in states near every limit, then in damaged ones.
pub const SENT: [usize; 3] = [200_000, 200_000, 140_000];
/// Ticks, starts and stamps.
pub const TICKS: usize = 300_000;
/// Frames heard: into short records, long ones, damaged ones, and many in a call.
pub const HEARD: [usize; 4] = [400_000, 40_000, 120_000, 20_000];
/// Records made fresh.
pub const FRESH: usize = 20_000;
/// Joins of short records, of longer ones, of damaged ones.
pub const JOINED: [usize; 3] = [250_000, 5_000, 108_000];
/// Reports on short records, on longer ones, on damaged ones.
pub const REPORTED: [usize; 3] = [200_000, 4_000, 90_000];
/// Records made from parts, then heard into, joined from either side and reported on.
pub const MADE: usize = 40_000;
/// Periods of up to seven sequences, sent by our sender and heard by two receivers.
pub const PERIODS: usize = 1_000;

const fn sum(counts: &[usize]) -> usize {
    let (mut sum, mut place) = (0, 0);
    while place < counts.len() {
        sum += counts[place];
        place += 1;
    }
    sum
}

const ALL: usize =
    READ + KEPT + LISTED + sum(&WRITTEN) + sum(&SENT) + TICKS + sum(&HEARD) + FRESH + sum(&JOINED) + sum(&REPORTED) + MADE + PERIODS;

const _: () = assert!(ALL > 3_000_000, "more than three million inputs in all");
