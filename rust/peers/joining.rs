//! The join of document 01, written on its own and twice: word for word, and as a plain Rust program would do it.
#![allow(dead_code)]

use crate::frames::{Closing, Data, Frame};
use crate::records::{LONGEST, Written, carry};

/// Why a join was refused, in numbers.
#[derive(Clone, Copy, Debug, PartialEq, Eq)]
pub enum JoinRefusal {
    Refused(u8),
    Packet(u32),
    Closing,
}

impl JoinRefusal {
    pub fn number(self) -> u8 {
        if let JoinRefusal::Refused(number) = self { number } else { 11 }
    }
}

impl From<quimdoral::JoinRefusal> for JoinRefusal {
    fn from(said: quimdoral::JoinRefusal) -> JoinRefusal {
        match said {
            quimdoral::JoinRefusal::Refused(refusal) => JoinRefusal::Refused(refusal.number()),
            quimdoral::JoinRefusal::Packet(packet) => JoinRefusal::Packet(packet.0),
            quimdoral::JoinRefusal::Closing => JoinRefusal::Closing,
        }
    }
}

impl Written {
    /// Tries each packet of the right alone, from the lowest, then its closing; then hears them all.
    pub fn join(&mut self, right: &Written) -> Result<(), JoinRefusal> {
        self.may_join(right).map_err(JoinRefusal::Refused)?;
        if let Some(packet) = right.packets().find(|&data| self.contradicts(Frame::Data(data))) {
            return Err(JoinRefusal::Packet(packet.number));
        }
        let closing = right.closing().map(Frame::Closing);
        if closing.is_some_and(|closing| self.contradicts(closing)) {
            return Err(JoinRefusal::Closing);
        }
        for said in right.packets().map(Frame::Data).chain(closing) {
            assert_eq!(self.write_down(said), Ok(()));
        }
        assert!(self.explained(), "nothing contradicts alone, yet all together do: {right:?} gave {self:?}");
        Ok(())
    }

    fn may_join(&self, right: &Written) -> Result<(), u8> {
        self.lists_fit()?;
        right.lists_fit()?;
        if self.marks.len() != right.marks.len() {
            return Err(14);
        }
        if self.damaged() || right.damaged() {
            return Err(13);
        }
        if self.head[..3] == right.head[..3] { Ok(()) } else { Err(9) }
    }

    /// "Hearing contradicts exactly if no sending explains the record with the frame added."
    fn contradicts(&self, said: Frame) -> bool {
        let mut with_it = self.clone();
        with_it.write_down(said).is_err() || !with_it.explained()
    }

    /// What was heard, as the frames that said it, in rising order.
    fn packets(&self) -> impl Iterator<Item = Data> + '_ {
        let heard = (0..self.marks.len()).filter(|&place| self.marks[place] == 1);
        heard.map(|place| Data {
            stamp: self.head[2] as u32,
            number: place as u32,
            elapsed: self.elapsed[place].into(),
            length: self.sizes[place].into(),
        })
    }

    fn closing(&self) -> Option<Closing> {
        let (packets, octets) = plain_closing(self)?;
        let (number, stamp) = (packets as u32, self.head[2] as u32);
        Some(Closing { stamp, number, elapsed: octets, total_packets: number, total_octets: octets })
    }
}

/// Packets and octets of the closing.
fn plain_closing(record: &Written) -> Option<(usize, u64)> {
    record.closed().then(|| (record.head[4] as usize, record.head[5]))
}

/// Octets up to the end of a heard packet.
fn end(record: &Written, place: usize) -> u64 {
    u64::from(record.elapsed[place]) + u64::from(record.sizes[place])
}

/// Judges a record in one pass and sets no memory aside: each heard packet is compared with the one heard before it.
pub fn plain_damaged(record: &Written) -> bool {
    let widest = u64::from(u32::MAX);
    let [bearer, period, stamp, closed, packets, octets] = record.head[..6] else { return true };
    if bearer > widest || period > widest || stamp > 59_999 || closed > 1 || packets > record.marks.len() as u64 {
        return true;
    }
    let (mut after, mut from) = (0, 0);
    for (place, ((&mark, &elapsed), &size)) in record.marks.iter().zip(&record.elapsed).zip(&record.sizes).enumerate() {
        let (start, size) = (u64::from(elapsed), u64::from(size));
        match mark {
            0 if start == 0 && size == 0 => {}
            1 if size <= LONGEST && carry(place - after, from, start) => (after, from) = (place + 1, start + size),
            _ => return true,
        }
    }
    match plain_closing(record) {
        None => (packets, octets) != (0, 0),
        Some((packets, octets)) => after > packets || !carry(packets - after, from, octets),
    }
}

/// One pass over each record for damage, one along both for contradictions, one over each list that writes.
pub fn plain_join(left: &mut Written, right: &Written) -> Result<(), JoinRefusal> {
    let refused = |number| Err(JoinRefusal::Refused(number));
    if left.lists_fit().is_err() || right.lists_fit().is_err() || left.marks.len() != right.marks.len() {
        return refused(14);
    }
    if plain_damaged(left) || plain_damaged(right) {
        return refused(13);
    }
    if left.head[..3] != right.head[..3] {
        return refused(9);
    }
    if let Some(packet) = lowest_contradicting(left, right) {
        return Err(JoinRefusal::Packet(packet as u32));
    }
    if plain_closing(right).is_some_and(|closing| closing_contradicts(left, closing)) {
        return Err(JoinRefusal::Closing);
    }
    write_union(left, right);
    Ok(())
}

/// Goes along both: each packet of the right is compared with the left's nearest on either side.
fn lowest_contradicting(left: &Written, right: &Written) -> Option<usize> {
    let heard_from = |from: usize| left.marks[from..].iter().position(|&mark| mark == 1).map(|more| from + more);
    let (mut after, mut from, mut above) = (0, 0, heard_from(0));
    for (place, &heard) in right.marks.iter().enumerate() {
        let held = above == Some(place);
        if heard == 1 {
            let (start, stop) = (right.elapsed[place].into(), end(right, place));
            let fits = if held {
                (u64::from(left.elapsed[place]), end(left, place)) == (start, stop)
            } else {
                carry(place - after, from, start) && follows(left, above, place, stop)
            };
            if !fits {
                return Some(place);
            }
        }
        if held {
            (after, from, above) = (place + 1, end(left, place), heard_from(place + 1));
        }
    }
    None
}

/// Whether the left's next packet, or else its closing, can come after a packet that ends so.
fn follows(left: &Written, above: Option<usize>, place: usize, stop: u64) -> bool {
    if let Some(above) = above {
        return carry(above - place - 1, stop, left.elapsed[above].into());
    }
    plain_closing(left).is_none_or(|(packets, octets)| place < packets && carry(packets - place - 1, stop, octets))
}

fn closing_contradicts(left: &Written, (packets, octets): (usize, u64)) -> bool {
    if let Some(held) = plain_closing(left) {
        return held != (packets, octets);
    }
    let last = left.marks.iter().rposition(|&mark| mark == 1);
    let (after, from) = last.map_or((0, 0), |last| (last + 1, end(left, last)));
    after > packets || !carry(packets - after, from, octets)
}

/// Unheard numbers hold zeros, and what both heard is equal: the bits of either are what one of the two heard.
fn write_union(left: &mut Written, right: &Written) {
    left.marks.iter_mut().zip(&right.marks).for_each(|(mark, other)| *mark |= other);
    left.elapsed.iter_mut().zip(&right.elapsed).for_each(|(elapsed, other)| *elapsed |= other);
    left.sizes.iter_mut().zip(&right.sizes).for_each(|(size, other)| *size |= other);
    if right.closed() {
        left.head[3..6].copy_from_slice(&right.head[3..6]);
    }
}
