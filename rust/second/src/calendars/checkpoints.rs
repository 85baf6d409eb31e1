//! Single years, months and days of a calendar, found by walking on from a kept state.

use std::sync::LazyLock;

use super::numbers::{self, Calendar};
use super::walker::{Month, Walker, Year};

/// Years between two kept states.
const SPACING: usize = 20;

/// The two calendars, each walked on first use.
pub static ZHENGGUANG: LazyLock<Checkpoints> =
    LazyLock::new(|| Checkpoints::walk(&numbers::ZHENGGUANG));
pub static LINDE: LazyLock<Checkpoints> = LazyLock::new(|| Checkpoints::walk(&numbers::LINDE));

/// The walker's state at the start of every twentieth year, and after the last.
pub struct Checkpoints {
    pub calendar: &'static Calendar,
    states: Vec<Walker>,
    end: Walker,
}

impl Checkpoints {
    fn walk(calendar: &'static Calendar) -> Self {
        let mut states = Vec::new();
        let mut walker = Walker::from_origin(calendar);
        for past in 0.. {
            let state = walker.clone();
            if walker.next().is_none() {
                break;
            }
            if past % SPACING == 0 {
                states.push(state);
            }
        }
        Self {
            calendar,
            states,
            end: walker,
        }
    }

    /// How many months the calendar has: those before the month that holds the
    /// solstice of the year after the last.
    pub fn months(&self) -> u64 {
        self.end.lunation()
    }

    /// And how many days.
    pub fn days(&self) -> u64 {
        self.end.day()
    }

    /// The last kept state that is not past what is looked for.
    fn nearest(&self, not_past: impl Fn(&Walker) -> bool) -> Walker {
        let count = self.states.partition_point(not_past);
        self.states[count - 1].clone()
    }

    /// The year, where it is one of the calendar.
    pub fn year(&self, number: u64) -> Option<Year> {
        let Calendar {
            first_year,
            last_year,
            ..
        } = *self.calendar;
        if !(first_year..=last_year).contains(&number) {
            return None;
        }
        self.nearest(|state| state.year() <= number)
            .find(|year| year.number == number)
    }

    /// The month of the calendar with the given number from 0.
    pub fn month(&self, lunation: u64) -> Option<Month> {
        if lunation >= self.months() {
            return None;
        }
        self.nearest(|state| state.lunation() <= lunation)
            .flat_map(|year| year.months)
            .find(|month| month.row.lunation == lunation)
    }

    /// The month in which the day lies.
    pub fn month_of_day(&self, day: u64) -> Option<Month> {
        if day >= self.days() {
            return None;
        }
        self.nearest(|state| state.day() <= day)
            .flat_map(|year| year.months)
            .find(|month| day < month.row.day + month.row.length)
    }
}
