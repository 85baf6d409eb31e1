//! Days or degrees with a remainder over N, added and taken off place by place
//! as on the counting board.

use crate::numbers::{M, N, P, T};

/// A span of days or degrees. The places stand in the order in which spans are
/// compared.
#[derive(Clone, Copy, Debug, PartialEq, Eq, PartialOrd, Ord)]
pub struct Span {
    /// Whole days or degrees.
    pub whole: u64,
    /// Parts over N.
    pub remainder: u64,
    /// Half a part more: 0 or 1.
    pub half: u64,
}

impl Span {
    pub const ZERO: Self = Self::new(0, 0, 0);
    pub const MONTH: Self = Self::new(29, 110_647, 0);
    pub const HALF_MONTH: Self = Self::new(14, 159_588, 1);
    /// From node to node.
    pub const NODE_HALF_ROUND: Self = Self::new(173, 67_117, 0);
    pub const ANOMALY_ROUND: Self = Self::new(27, 115_631, 0);

    pub const fn new(whole: u64, remainder: u64, half: u64) -> Self {
        Self {
            whole,
            remainder,
            half,
        }
    }

    pub fn plus(self, other: Self) -> Self {
        let (part, half) = carried(self.half + other.half, 2);
        let (whole, remainder) = carried(self.remainder + other.remainder + part, N);
        Self::new(self.whole + other.whole + whole, remainder, half)
    }

    /// Less another that is no longer.
    pub fn minus(self, other: Self) -> Self {
        let (part, half) = borrowed(self.half, other.half, 2);
        let (whole, remainder) = borrowed(self.remainder, other.remainder + part, N);
        Self::new(self.whole - (other.whole + whole), remainder, half)
    }

    const fn is_half_parts(self, count: u64) -> bool {
        2 * (self.whole * N + self.remainder) + self.half == count
    }
}

// Checked while compiling: the spans above are the paper's numbers.
const _: () = assert!(Span::MONTH.is_half_parts(2 * P));
const _: () = assert!(Span::HALF_MONTH.is_half_parts(P));
const _: () = assert!(Span::NODE_HALF_ROUND.is_half_parts(2 * M));
const _: () = assert!(Span::ANOMALY_ROUND.is_half_parts(2 * T));

/// One full count carried out of a sum, where the sum holds one.
pub const fn carried(sum: u64, full: u64) -> (u64, u64) {
    assert!(sum < 2 * full);
    if sum >= full {
        (1, sum - full)
    } else {
        (0, sum)
    }
}

/// What is left of a place, with one full count borrowed where it is too short.
pub fn borrowed(place: u64, taken: u64, full: u64) -> (u64, u64) {
    assert!(place < full && taken <= full);
    if place < taken {
        (1, place + full - taken)
    } else {
        (0, place - taken)
    }
}
