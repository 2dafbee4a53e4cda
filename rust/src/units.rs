//! Counts of packets and counts of octets, each of its own type, so that the two are never added.

use std::fmt;
use std::iter::Sum;
use std::ops::{Add, Sub};

/// A count of packets. A packet's number is the count of packets before it, so numbers are of this type too.
///
/// ```
/// use quimdoral::Packets;
/// assert_eq!(Packets(3) + Packets(4), Packets(7));
/// assert_eq!([Packets(3), Packets(4)].into_iter().sum::<Packets>().to_string(), "7");
/// ```
///
/// Packets and octets cannot be added:
///
/// ```compile_fail
/// use quimdoral::{Octets, Packets};
/// let neither = Packets(3) + Octets(4);
/// ```
#[derive(Clone, Copy, Debug, Default, PartialEq, Eq, PartialOrd, Ord, Hash)]
pub struct Packets(pub u32);

/// A count of payload octets. Headers and closing PDUs are never counted.
///
/// ```
/// use quimdoral::Octets;
/// assert_eq!(Octets(9) - Octets(4), Octets(5));
/// ```
#[derive(Clone, Copy, Debug, Default, PartialEq, Eq, PartialOrd, Ord, Hash)]
pub struct Octets(pub u64);

macro_rules! count {
    ($count:ident) => {
        /// Panics where the sum is too wide: a count never starts over.
        impl Add for $count {
            type Output = $count;

            fn add(self, other: $count) -> $count {
                $count(self.0.checked_add(other.0).expect("the sum of two counts is too wide"))
            }
        }

        /// Panics where more is taken away than there is.
        impl Sub for $count {
            type Output = $count;

            fn sub(self, other: $count) -> $count {
                $count(self.0.checked_sub(other.0).expect("more is taken from a count than it has"))
            }
        }

        impl Sum for $count {
            fn sum<I: Iterator<Item = $count>>(counts: I) -> $count {
                counts.fold($count::default(), Add::add)
            }
        }

        impl fmt::Display for $count {
            fn fmt(&self, f: &mut fmt::Formatter<'_>) -> fmt::Result {
                self.0.fmt(f)
            }
        }
    };
}

count!(Packets);
count!(Octets);
