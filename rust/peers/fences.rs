//! Memory with a fence on either side, so that a write outside the lengths given shows.
#![allow(dead_code)]

use crate::records::Written;
use crate::reports::Room;
use quimdoral::lent::{Held, Lent, Lists};

const FENCE: u8 = 0xA5;

fn fenced<T: Copy + From<u8>>(list: &[T]) -> Vec<T> {
    let fence = [T::from(FENCE); 4];
    [&fence, list, &fence].concat()
}

fn within<T>(list: &mut [T]) -> &mut [T] {
    let end = list.len() - 4;
    &mut list[4..end]
}

/// A copy of any list between fences.
#[derive(Debug, PartialEq, Eq)]
pub struct Fenced<T>(Vec<T>);

impl<T: Copy + From<u8>> Fenced<T> {
    pub fn around(list: &[T]) -> Fenced<T> {
        Fenced(fenced(list))
    }

    pub fn lent(&mut self) -> &mut [T] {
        within(&mut self.0)
    }
}

/// A copy of a record between fences.
#[derive(Debug, PartialEq, Eq)]
pub struct FencedRecord(Written);

impl FencedRecord {
    pub fn around(record: &Written) -> FencedRecord {
        let Written { head, marks, elapsed, sizes } = record;
        FencedRecord(Written { head: fenced(head), marks: fenced(marks), elapsed: fenced(elapsed), sizes: fenced(sizes) })
    }

    pub fn lists(&mut self) -> Lists<'_> {
        let Written { head, marks, elapsed, sizes } = &mut self.0;
        Lists { head: within(head), marks: within(marks), elapsed: within(elapsed), sizes: within(sizes) }
    }

    pub fn held(&mut self) -> Held<'_> {
        let Lists { head, marks, elapsed, sizes } = self.lists();
        Held { head, marks, elapsed, sizes }
    }
}

/// A copy of a report's memory between fences.
#[derive(Debug, PartialEq, Eq)]
pub struct FencedRoom(Room);

impl FencedRoom {
    pub fn around(room: &Room) -> FencedRoom {
        let Room { firsts, counts, octets, figures } = room;
        FencedRoom(Room { firsts: fenced(firsts), counts: fenced(counts), octets: fenced(octets), figures: fenced(figures) })
    }

    pub fn lent(&mut self) -> Lent<'_> {
        let Room { firsts, counts, octets, figures } = &mut self.0;
        Lent { firsts: within(firsts), counts: within(counts), octets: within(octets), figures: within(figures) }
    }
}
