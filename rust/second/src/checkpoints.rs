//! Single years, months and days, found by walking on from a kept state.

use std::sync::OnceLock;

use crate::numbers::{LAST_DAY, ROUND_MONTHS, ROUND_YEARS};
use crate::walker::{Month, Walker, Year};

/// Years between two kept states.
const SPACING: u64 = 100;

/// The walker's state at the start of every hundredth year.
pub struct Checkpoints {
    states: Vec<Walker>,
}

impl Checkpoints {
    /// The checkpoints of the round, walked on first use.
    pub fn shared() -> &'static Self {
        static SHARED: OnceLock<Checkpoints> = OnceLock::new();
        SHARED.get_or_init(Self::walk_round)
    }

    fn walk_round() -> Self {
        let mut states = Vec::new();
        let mut walker = Walker::from_origin();
        loop {
            let state = walker.clone();
            if walker.next().is_none() {
                return Self { states };
            }
            if (state.year() - 1).is_multiple_of(SPACING) {
                states.push(state);
            }
        }
    }

    /// The last kept state that is not past what is looked for.
    fn nearest(&self, not_past: impl Fn(&Walker) -> bool) -> Walker {
        let count = self.states.partition_point(not_past);
        self.states[count - 1].clone()
    }

    /// The walk standing at the start of a year, where it is one of the round.
    pub fn walker(&self, number: u64) -> Option<Walker> {
        if !(1..=ROUND_YEARS).contains(&number) {
            return None;
        }
        let mut walker = self.nearest(|state| state.year() <= number);
        while walker.year() < number {
            walker.next();
        }
        Some(walker)
    }

    /// The year, where it is one of the round.
    pub fn year(&self, number: u64) -> Option<Year> {
        self.walker(number)?.next()
    }

    /// The month of the round with the given number from 0.
    pub fn month(&self, lunation: u64) -> Option<Month> {
        if lunation >= ROUND_MONTHS {
            return None;
        }
        self.nearest(|state| state.lunation() <= lunation)
            .flat_map(|year| year.months)
            .find(|month| month.row.lunation == lunation)
    }

    /// The month in which the day lies.
    pub fn month_of_day(&self, day: u64) -> Option<Month> {
        if day > LAST_DAY {
            return None;
        }
        self.nearest(|state| state.day() <= day)
            .flat_map(|year| year.months)
            .find(|month| day < month.row.day + month.row.length)
    }
}
