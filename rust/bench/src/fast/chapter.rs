//! The months before a year, by divisions or by the printed chapter.

use super::rows::{begins_by, month_of, solstice};

pub const YEARS: u64 = 562;
pub const LEAPS: u64 = 207;
pub const MONTHS: u64 = 12 * YEARS + LEAPS;

/// A way to the months before a year, which is counted from 0.
pub trait MonthsBefore {
    fn months_before(past: u64) -> u64;
}

/// The month in which the solstice's day lies.
pub struct Division;

/// Whole chapters and an entry of a table that lies in the program's data; one
/// month more if the next one begins by the solstice's day.
pub struct Table;

static BEFORE: [u16; YEARS as usize] = {
    let mut table = [0; YEARS as usize];
    let mut year = 0;
    while year < YEARS {
        table[year as usize] = (year * MONTHS / YEARS) as u16;
        year += 1;
    }
    table
};

impl MonthsBefore for Division {
    #[inline]
    fn months_before(past: u64) -> u64 {
        month_of(solstice(past))
    }
}

impl MonthsBefore for Table {
    #[inline]
    fn months_before(past: u64) -> u64 {
        let months = past / YEARS * MONTHS + u64::from(BEFORE[(past % YEARS) as usize]);
        months + u64::from(begins_by(months + 1, solstice(past)))
    }
}
