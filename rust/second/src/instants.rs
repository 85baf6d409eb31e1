//! Instants that move by one fixed addition: new moons, phases, points of the cuts.

use crate::counts::Count;
use crate::cuts::{Cut, SunYear};
use crate::numbers::{D, N, P};
use crate::spans::carried;

/// A new moon: day from the origin and remainder over N.
#[derive(Clone, Copy, Debug, PartialEq, Eq)]
pub struct NewMoon {
    pub day: u64,
    pub remainder: u64,
}

impl NewMoon {
    const DAYS: u64 = 29;
    const REMAINDER: u64 = 110_647;

    pub const ORIGIN: Self = Self {
        day: 0,
        remainder: 0,
    };

    /// The treatise's monthly addition.
    pub fn next(self) -> Self {
        let (carry, remainder) = carried(self.remainder + Self::REMAINDER, N);
        Self {
            day: self.day + Self::DAYS + carry,
            remainder,
        }
    }
}

/// A phase: day, remainder over N, and quarters of a part of that remainder.
#[derive(Clone, Copy, Debug, PartialEq, Eq)]
pub struct Phase {
    pub day: u64,
    pub remainder: u64,
    pub quarters: u64,
}

impl Phase {
    const DAYS: u64 = 7;
    const REMAINDER: u64 = 79_794;
    const QUARTERS: u64 = 1;

    pub const ORIGIN: Self = Self {
        day: 0,
        remainder: 0,
        quarters: 0,
    };

    /// From one phase to the next: a quarter of a month.
    pub fn next(self) -> Self {
        let (part, quarters) = carried(self.quarters + Self::QUARTERS, 4);
        let (day, remainder) = carried(self.remainder + Self::REMAINDER + part, N);
        Self {
            day: self.day + Self::DAYS + day,
            remainder,
            quarters,
        }
    }

    /// Whether this phase is the given new moon.
    pub fn is_new_moon(self, moon: NewMoon) -> bool {
        (self.day, self.remainder, self.quarters) == (moon.day, moon.remainder, 0)
    }
}

const YEAR: SunYear = SunYear {
    degree_divisor: D,
    parts: P,
};

pub const MIDDLE_TERMS: Cut = Cut::new(YEAR, 12, Count::new(30, 7_368, 1));
pub const TERMS: Cut = Cut::new(YEAR, 24, Count::new(15, 3_684, 1));
pub const HEXAGRAM_DAYS: Cut = Cut::new(YEAR, 60, Count::new(6, 1_473, 37));
pub const PENTADS: Cut = Cut::new(YEAR, 72, Count::new(5, 1_228, 1));
/// The cuts that may be asked for.
pub const ASKED_CUTS: [Cut; 3] = [TERMS, HEXAGRAM_DAYS, PENTADS];

// Checked while compiling, as the cuts are.
const _: () = assert!(NewMoon::DAYS * N + NewMoon::REMAINDER == P);
const _: () = assert!(4 * (Phase::DAYS * N + Phase::REMAINDER) + Phase::QUARTERS == P);
