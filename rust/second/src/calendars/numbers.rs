//! The numbers of each calendar, and the additions that they give.

use super::nodes::Nodes;
use crate::counts::{Board, Count};
use crate::cuts::{Cut, SunYear};

/// A calendar, as far as it differs from the other.
#[derive(Debug)]
pub struct Calendar {
    /// What its lines begin with.
    pub word: &'static str,
    /// Its years as they are written; the first begins at the origin.
    pub first_year: u64,
    pub last_year: u64,
    /// New moons have remainders over the day divisor.
    pub moon: Board,
    /// From new moon to new moon.
    pub month: Count,
    /// The cut by whose points the leap month is found.
    pub middle_terms: Cut,
    /// The cuts that may be asked for.
    pub cuts: [Cut; 3],
    pub chapter: Option<Chapter>,
    pub nodes: Option<Nodes>,
}

/// So many leap months in so many years.
#[derive(Clone, Copy, Debug)]
pub struct Chapter {
    pub years: u64,
    pub leaps: u64,
}

impl Chapter {
    /// Checked while compiling: it has so many months in all.
    const fn new(years: u64, leaps: u64, months: u64) -> Self {
        assert!(12 * years + leaps == months);
        Self { years, leaps }
    }
}

pub static ZHENGGUANG: Calendar = {
    /// Day divisor; full moons stand between the nodes at halves of a part.
    const N: Board = Board::of_halves(74_952);
    /// Degree divisor.
    const D: u64 = 6_060;
    /// Parts of a month over N, and of a year over D.
    const P: u64 = 2_213_377;
    /// Node half-round.
    const M: u64 = 12_989_904;
    const MONTH: Count = N.checked(Count::new(29, 39_769, 0), 2 * P);
    const YEAR: SunYear = SunYear {
        degree_divisor: D,
        parts: P,
    };
    Calendar {
        word: "zhengguang",
        first_year: 1,
        last_year: 363_600,
        moon: N,
        month: MONTH,
        middle_terms: Cut::new(YEAR, 12, Count::new(30, 2_648, 1)),
        cuts: [
            Cut::new(YEAR, 24, Count::new(15, 1_324, 1)),
            Cut::new(YEAR, 60, Count::new(6, 529, 37)),
            Cut::new(YEAR, 72, Count::new(5, 441, 25)),
        ],
        chapter: Some(Chapter::new(505, 186, 6_246)),
        nodes: Some(Nodes {
            board: N,
            half_round: N.checked(Count::new(173, 23_208, 0), 2 * M),
            month: MONTH,
            half_month: N.checked(Count::new(14, 57_360, 1), P),
        }),
    }
};

pub static LINDE: Calendar = {
    /// The one divisor of days and degrees.
    const DIVISOR: u64 = 1_340;
    const N: Board = Board::of_parts(DIVISOR);
    const MONTH_PARTS: u64 = 39_571;
    const YEAR: SunYear = SunYear {
        degree_divisor: DIVISOR,
        parts: 489_428,
    };
    Calendar {
        word: "linde",
        first_year: 0,
        last_year: 300_000,
        moon: N,
        month: N.checked(Count::new(29, 711, 0), MONTH_PARTS),
        middle_terms: Cut::new(YEAR, 12, Count::new(30, 585, 8)),
        cuts: [
            Cut::new(YEAR, 24, Count::new(15, 292, 20)),
            Cut::new(YEAR, 60, Count::new(6, 117, 8)),
            Cut::new(YEAR, 72, Count::new(5, 97, 44)),
        ],
        chapter: None,
        nodes: None,
    }
};
