//! What the survey counts in every calendar.

use crate::cases::joined;

#[derive(Default)]
pub struct MonthCounts {
    months: u64,
    long: u64,
    /// Years by leap place; those without a leap month stand at 0.
    leaps: [u64; 13],
}

impl MonthCounts {
    /// Counts on by a year's leap place and the lengths of its months.
    pub fn count_year(&mut self, leap_place: u64, lengths: impl Iterator<Item = u64>) {
        self.leaps[leap_place as usize] += 1;
        for length in lengths {
            self.months += 1;
            self.long += u64::from(length == 30);
        }
    }

    pub fn add(&mut self, other: &Self) {
        self.months += other.months;
        self.long += other.long;
        for (sum, leaps) in self.leaps.iter_mut().zip(other.leaps) {
            *sum += leaps;
        }
    }

    pub fn text(&self) -> String {
        let leaps = joined(&self.leaps[1..]);
        format!("months {} long {} leaps {leaps}", self.months, self.long)
    }
}
