//! Days or degrees in three places, each carried into the one before it, over the
//! divisors of the calendar at hand.

use crate::spans::{borrowed, carried};

/// The places stand in the order in which counts are compared.
#[derive(Clone, Copy, Debug, PartialEq, Eq, PartialOrd, Ord)]
pub struct Count {
    /// Whole days or degrees.
    pub whole: u64,
    /// Parts of one.
    pub remainder: u64,
    /// And a rest of a part, where parts are divided again.
    pub rest: u64,
}

impl Count {
    pub const ZERO: Self = Self::new(0, 0, 0);

    pub const fn new(whole: u64, remainder: u64, rest: u64) -> Self {
        Self {
            whole,
            remainder,
            rest,
        }
    }
}

/// The divisors of a count: the parts of a day or degree, the rests of a part.
#[derive(Clone, Copy, Debug, PartialEq, Eq)]
pub struct Board {
    pub parts: u64,
    pub rests: u64,
}

impl Board {
    /// Parts are not divided again.
    pub const fn of_parts(parts: u64) -> Self {
        Self { parts, rests: 1 }
    }

    /// Halves of a part are kept.
    pub const fn of_halves(parts: u64) -> Self {
        Self { parts, rests: 2 }
    }

    pub fn plus(self, one: Count, other: Count) -> Count {
        let (part, rest) = carried(one.rest + other.rest, self.rests);
        let (whole, remainder) = carried(one.remainder + other.remainder + part, self.parts);
        Count::new(one.whole + other.whole + whole, remainder, rest)
    }

    /// Less another that is no longer.
    pub fn minus(self, one: Count, other: Count) -> Count {
        let (part, rest) = borrowed(one.rest, other.rest, self.rests);
        let (whole, remainder) = borrowed(one.remainder, other.remainder + part, self.parts);
        Count::new(one.whole - (other.whole + whole), remainder, rest)
    }

    /// The count, checked while compiling: its places come to so many rests.
    pub const fn checked(self, count: Count, rests: u64) -> Count {
        assert!(count.remainder < self.parts && count.rest < self.rests);
        let parts = count.whole * self.parts + count.remainder;
        assert!(parts * self.rests + count.rest == rests);
        count
    }
}
