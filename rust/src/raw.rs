//! The library's functions as they are linked, and all the unsafe code of this crate.
//!
//! The functions take every input, and read and write only within the lengths that they are given: that is proved. What a caller has to
//! see to is that each pointer is aligned, not null and valid for its length, and that memory which is written to overlaps no other.
//! A slice says the first, and `&mut` says the second, so the functions below are safe for whoever calls them.

use crate::lent::{Held, Lent, Lists};
use crate::{Closing, Data, Octets, Packets};
use std::mem::MaybeUninit;

#[rustfmt::skip]
unsafe extern "C" {
    fn quimdoral_header_check(octets: *const u8, octets_length: usize) -> u8;
    fn quimdoral_payload_check(octets: *const u8, octets_length: usize) -> u16;
    fn quimdoral_read_frame(frame: *const u8, frame_length: usize, said: *mut u64, said_length: usize) -> u64;
    fn quimdoral_read_lengths(frame: *const u8, frame_length: usize, lengths: *mut u16, lengths_length: usize) -> u64;
    fn quimdoral_payload_kept(payload: *const u8, payload_length: usize) -> u64;
    fn quimdoral_write_data(
        stamp: u32, number: u32, elapsed: u64,
        payload: *const u8, payload_length: usize,
        out: *mut u8, out_length: usize,
    ) -> u64;
    fn quimdoral_write_closing(
        stamp: u32, number: u32, elapsed: u64, packets: u32, octets: u64,
        out: *mut u8, out_length: usize,
    ) -> u64;
    fn quimdoral_write_closing_with_lengths(
        stamp: u32, number: u32, elapsed: u64, packets: u32, octets: u64,
        lengths: *const u16, lengths_length: usize,
        out: *mut u8, out_length: usize,
    ) -> u64;
    fn quimdoral_sender_fresh(state: *mut u64, state_length: usize) -> u8;
    fn quimdoral_sender_open(state: *mut u64, state_length: usize, stamp: u32) -> u8;
    fn quimdoral_sender_data(
        state: *mut u64, state_length: usize,
        payload: *const u8, payload_length: usize,
        out: *mut u8, out_length: usize,
    ) -> u64;
    fn quimdoral_sender_close(state: *mut u64, state_length: usize, out: *mut u8, out_length: usize) -> u64;
    fn quimdoral_sender_close_with_lengths(
        state: *mut u64, state_length: usize,
        lengths: *const u16, lengths_length: usize,
        out: *mut u8, out_length: usize,
    ) -> u64;
    fn quimdoral_sender_new_period(state: *mut u64, state_length: usize) -> u8;
    // SAFETY: numbers alone, and every number is taken.
    pub safe fn quimdoral_stamp_of(start: u32, tick: u32) -> u64;
    pub safe fn quimdoral_due(start: u32, stamp: u32) -> u64;
    pub safe fn quimdoral_lateness(arrival: u32, due_at: u32) -> i32;
    fn quimdoral_fresh(
        bearer: u32, period: u32, stamp: u32,
        head: *mut u64, head_length: usize,
        marks: *mut u8, marks_length: usize,
        elapsed: *mut u32, elapsed_length: usize,
        sizes: *mut u16, sizes_length: usize,
    ) -> u8;
    fn quimdoral_hear(
        head: *mut u64, head_length: usize,
        marks: *mut u8, marks_length: usize,
        elapsed: *mut u32, elapsed_length: usize,
        sizes: *mut u16, sizes_length: usize,
        bearer: u32, period: u32,
        frame: *const u8, frame_length: usize,
    ) -> u64;
    fn quimdoral_hear_all(
        bearer: u32, period: u32, stamp: u32,
        head: *mut u64, head_length: usize,
        marks: *mut u8, marks_length: usize,
        elapsed: *mut u32, elapsed_length: usize,
        sizes: *mut u16, sizes_length: usize,
        octets: *const u8, octets_length: usize,
        ends: *const u32, ends_length: usize,
        answers: *mut u64, answers_length: usize,
    ) -> u8;
    fn quimdoral_join(
        head: *mut u64, head_length: usize,
        marks: *mut u8, marks_length: usize,
        elapsed: *mut u32, elapsed_length: usize,
        sizes: *mut u16, sizes_length: usize,
        r_head: *const u64, r_head_length: usize,
        r_marks: *const u8, r_marks_length: usize,
        r_elapsed: *const u32, r_elapsed_length: usize,
        r_sizes: *const u16, r_sizes_length: usize,
    ) -> u32;
    fn quimdoral_report(
        head: *const u64, head_length: usize,
        marks: *const u8, marks_length: usize,
        elapsed: *const u32, elapsed_length: usize,
        sizes: *const u16, sizes_length: usize,
        firsts: *mut u32, firsts_length: usize,
        counts: *mut u32, counts_length: usize,
        octets: *mut u64, octets_length: usize,
        figures: *mut u64, figures_length: usize,
    ) -> u8;
}

#[inline]
pub fn header_check(octets: &[u8]) -> u8 {
    // SAFETY: a slice, which is only read.
    unsafe { quimdoral_header_check(octets.as_ptr(), octets.len()) }
}

#[inline]
pub fn payload_check(octets: &[u8]) -> u16 {
    // SAFETY: a slice, which is only read.
    unsafe { quimdoral_payload_check(octets.as_ptr(), octets.len()) }
}

const SAID: usize = 7;

/// The numbers that an accepted frame says: one more than the PDU type, stamp, packet number, elapsed octets, total packets, total
/// octets, payload length.
pub struct Said(MaybeUninit<[u64; SAID]>);

impl Said {
    /// One number at a time: a wide load of numbers that were just stored one by one would have to wait for the stores.
    #[inline]
    pub fn at(&self, place: usize) -> u64 {
        assert!(place < SAID);
        // SAFETY: the place is within the array, and there is a `Said` only where the library wrote all its numbers.
        unsafe { self.0.as_ptr().cast::<u64>().add(place).read_volatile() }
    }
}

/// Hands what an accepted frame says to `tell`, or gives the answer of a refusal.
#[inline]
pub fn read_frame<T>(frame: &[u8], tell: impl FnOnce(&Said) -> T) -> Result<T, u64> {
    let mut said = MaybeUninit::<[u64; SAID]>::uninit();
    // SAFETY: a slice, which is only read, and room for all numbers, which the library writes and does not read.
    let answer = unsafe { quimdoral_read_frame(frame.as_ptr(), frame.len(), said.as_mut_ptr().cast(), SAID) };
    // Where the answer is 0, all numbers were written.
    if answer == 0 { Ok(tell(&Said(said))) } else { Err(answer) }
}

#[inline]
pub fn read_lengths(frame: &[u8], lengths: &mut [u16]) -> u64 {
    // SAFETY: slices, the one that is written to borrowed exclusively.
    unsafe { quimdoral_read_lengths(frame.as_ptr(), frame.len(), lengths.as_mut_ptr(), lengths.len()) }
}

#[inline]
pub fn payload_kept(payload: &[u8]) -> u64 {
    // SAFETY: a slice, which is only read.
    unsafe { quimdoral_payload_kept(payload.as_ptr(), payload.len()) }
}

#[inline]
pub fn write_data(data: &Data, out: &mut [u8]) -> u64 {
    let Data { stamp, number: Packets(number), elapsed: Octets(elapsed), payload } = *data;
    // SAFETY: slices, the one that is written to borrowed exclusively.
    unsafe { quimdoral_write_data(stamp, number, elapsed, payload.as_ptr(), payload.len(), out.as_mut_ptr(), out.len()) }
}

#[inline]
pub fn write_closing(closing: &Closing, out: &mut [u8]) -> u64 {
    let Closing { stamp, number, elapsed, total_packets, total_octets } = *closing;
    // SAFETY: a slice, borrowed exclusively.
    unsafe { quimdoral_write_closing(stamp, number.0, elapsed.0, total_packets.0, total_octets.0, out.as_mut_ptr(), out.len()) }
}

#[inline]
#[rustfmt::skip]
pub fn write_closing_with_lengths(closing: &Closing, lengths: &[u16], out: &mut [u8]) -> u64 {
    let Closing { stamp, number, elapsed, total_packets, total_octets } = *closing;
    // SAFETY: slices, the one that is written to borrowed exclusively.
    unsafe {
        quimdoral_write_closing_with_lengths(
            stamp, number.0, elapsed.0, total_packets.0, total_octets.0,
            lengths.as_ptr(), lengths.len(),
            out.as_mut_ptr(), out.len(),
        )
    }
}

#[inline]
pub fn sender_fresh(state: &mut [u64]) -> u8 {
    // SAFETY: a slice, borrowed exclusively.
    unsafe { quimdoral_sender_fresh(state.as_mut_ptr(), state.len()) }
}

#[inline]
pub fn sender_open(state: &mut [u64], stamp: u32) -> u8 {
    // SAFETY: a slice, borrowed exclusively.
    unsafe { quimdoral_sender_open(state.as_mut_ptr(), state.len(), stamp) }
}

#[inline]
#[rustfmt::skip]
pub fn sender_data(state: &mut [u64], payload: &[u8], out: &mut [u8]) -> u64 {
    // SAFETY: slices, those that are written to borrowed exclusively.
    unsafe {
        quimdoral_sender_data(
            state.as_mut_ptr(), state.len(),
            payload.as_ptr(), payload.len(),
            out.as_mut_ptr(), out.len(),
        )
    }
}

#[inline]
pub fn sender_close(state: &mut [u64], out: &mut [u8]) -> u64 {
    // SAFETY: slices, both borrowed exclusively.
    unsafe { quimdoral_sender_close(state.as_mut_ptr(), state.len(), out.as_mut_ptr(), out.len()) }
}

#[inline]
#[rustfmt::skip]
pub fn sender_close_with_lengths(state: &mut [u64], lengths: &[u16], out: &mut [u8]) -> u64 {
    // SAFETY: slices, those that are written to borrowed exclusively.
    unsafe {
        quimdoral_sender_close_with_lengths(
            state.as_mut_ptr(), state.len(),
            lengths.as_ptr(), lengths.len(),
            out.as_mut_ptr(), out.len(),
        )
    }
}

#[inline]
pub fn sender_new_period(state: &mut [u64]) -> u8 {
    // SAFETY: a slice, borrowed exclusively.
    unsafe { quimdoral_sender_new_period(state.as_mut_ptr(), state.len()) }
}

#[inline]
#[rustfmt::skip]
pub fn fresh([bearer, period, stamp]: [u32; 3], lists: Lists) -> u8 {
    let Lists { head, marks, elapsed, sizes } = lists;
    // SAFETY: slices, all of them borrowed exclusively.
    unsafe {
        quimdoral_fresh(
            bearer, period, stamp,
            head.as_mut_ptr(), head.len(),
            marks.as_mut_ptr(), marks.len(),
            elapsed.as_mut_ptr(), elapsed.len(),
            sizes.as_mut_ptr(), sizes.len(),
        )
    }
}

#[inline]
#[rustfmt::skip]
pub fn hear(lists: Lists, bearer: u32, period: u32, frame: &[u8]) -> u64 {
    let Lists { head, marks, elapsed, sizes } = lists;
    // SAFETY: slices, those that are written to borrowed exclusively.
    unsafe {
        quimdoral_hear(
            head.as_mut_ptr(), head.len(),
            marks.as_mut_ptr(), marks.len(),
            elapsed.as_mut_ptr(), elapsed.len(),
            sizes.as_mut_ptr(), sizes.len(),
            bearer, period,
            frame.as_ptr(), frame.len(),
        )
    }
}

#[inline]
#[rustfmt::skip]
pub fn hear_all([bearer, period, stamp]: [u32; 3], lists: Lists, octets: &[u8], ends: &[u32], answers: &mut [u64]) -> u8 {
    let Lists { head, marks, elapsed, sizes } = lists;
    // SAFETY: slices, those that are written to borrowed exclusively.
    unsafe {
        quimdoral_hear_all(
            bearer, period, stamp,
            head.as_mut_ptr(), head.len(),
            marks.as_mut_ptr(), marks.len(),
            elapsed.as_mut_ptr(), elapsed.len(),
            sizes.as_mut_ptr(), sizes.len(),
            octets.as_ptr(), octets.len(),
            ends.as_ptr(), ends.len(),
            answers.as_mut_ptr(), answers.len(),
        )
    }
}

#[inline]
#[rustfmt::skip]
pub fn join(left: Lists, right: Held) -> u32 {
    let Lists { head, marks, elapsed, sizes } = left;
    // SAFETY: slices, those of the left borrowed exclusively; the right is only read.
    unsafe {
        quimdoral_join(
            head.as_mut_ptr(), head.len(),
            marks.as_mut_ptr(), marks.len(),
            elapsed.as_mut_ptr(), elapsed.len(),
            sizes.as_mut_ptr(), sizes.len(),
            right.head.as_ptr(), right.head.len(),
            right.marks.as_ptr(), right.marks.len(),
            right.elapsed.as_ptr(), right.elapsed.len(),
            right.sizes.as_ptr(), right.sizes.len(),
        )
    }
}

#[inline]
#[rustfmt::skip]
pub fn report(record: Held, lent: Lent) -> u8 {
    let Lent { firsts, counts, octets, figures } = lent;
    // SAFETY: slices, the lent ones borrowed exclusively; the record is only read.
    unsafe {
        quimdoral_report(
            record.head.as_ptr(), record.head.len(),
            record.marks.as_ptr(), record.marks.len(),
            record.elapsed.as_ptr(), record.elapsed.len(),
            record.sizes.as_ptr(), record.sizes.len(),
            firsts.as_mut_ptr(), firsts.len(),
            counts.as_mut_ptr(), counts.len(),
            octets.as_mut_ptr(), octets.len(),
            figures.as_mut_ptr(), figures.len(),
        )
    }
}
