//! The compiled clock beside whole numbers and division, around every point where ticks start over or a period ends.
use crate::counted::TICKS;
use crate::peers::Noise;
use crate::sequences::{below, numbered};
use crate::ticks;
use quimdoral::clock::{Tick, due, lateness, stamp_of};

/// How often stamps were given and refused, due times given and refused, and frames early and not.
#[derive(Default, Debug)]
struct Answers {
    stamps: [usize; 2],
    dues: [usize; 2],
    early: [usize; 2],
}

impl Answers {
    fn compare(&mut self, start: u32, tick: u32, stamp: u32) {
        let ours = numbered(stamp_of(Tick(start), Tick(tick)));
        assert_eq!(ours, ticks::stamp_of(start, tick), "the stamp of {tick} in the period from {start}");
        let at = numbered(due(Tick(start), stamp)).map(|due| due.0);
        assert_eq!(at, ticks::due(start, stamp), "when {stamp} is due in the period from {start}");
        let late = lateness(Tick(tick), Tick(start));
        assert_eq!(i64::from(late), ticks::lateness(tick, start), "how late {tick} is for {start}");
        if let Ok(stamp) = ours {
            assert_eq!(due(Tick(start), stamp), Ok(Tick(tick)), "a moment's stamp is due at the moment");
        }
        self.stamps[usize::from(ours.is_err())] += 1;
        self.dues[usize::from(at.is_err())] += 1;
        self.early[usize::from(late < 0)] += 1;
    }
}

const LIMITS: [u32; 12] = [0, 1, 59_998, 59_999, 60_000, 60_001, 65_535, 65_536, i32::MAX as u32, 1 << 31, (1 << 31) + 1, u32::MAX];

#[test]
fn ticks_at_every_limit() {
    let mut answers = Answers::default();
    for start in LIMITS {
        for past in LIMITS {
            for stamp in LIMITS {
                answers.compare(start, start.wrapping_add(past), stamp);
                answers.compare(start, past, stamp);
            }
        }
    }
}

#[test]
fn any_ticks() {
    let (mut noise, mut answers) = (Noise(71), Answers::default());
    for _ in 0..TICKS {
        let start = noise.next() as u32;
        let tick = match below(&mut noise, 3) {
            0 => noise.next() as u32,
            1 => start.wrapping_add(below(&mut noise, 61_000) as u32),
            _ => start.wrapping_add(LIMITS[below(&mut noise, 12) as usize]).wrapping_sub(below(&mut noise, 3) as u32),
        };
        let stamp =
            [below(&mut noise, 60_000) as u32, below(&mut noise, 70_000) as u32, noise.next() as u32][below(&mut noise, 3) as usize];
        answers.compare(start, tick, stamp);
    }
    let Answers { stamps, dues, early } = &answers;
    assert!([stamps, dues, early].iter().all(|two| two.iter().all(|&times| times > TICKS / 10)), "{answers:?}");
}
