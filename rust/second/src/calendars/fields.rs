//! A year's and a month's answers as plain numbers, in the order in which they are
//! written. How many they are depends on what the calendar has.

use super::walker::{Month, Row, Year};
use crate::fields::first_eight;
pub use crate::fields::point;

/// As they are written out and handed in.
pub type Numbers = Vec<u64>;

/// The rows of a list, those past the year's months included.
pub const LIST_ROWS: usize = 13;

/// Months before, leap remainder where there is a chapter, months, leap place, day and
/// remainder of the solstice.
pub fn head(year: &Year) -> Numbers {
    let mut head = vec![year.months_before];
    head.extend(year.leap_remainder);
    head.extend([
        year.months.len() as u64,
        year.leap_place,
        year.solstice.whole,
        year.solstice.remainder,
    ]);
    head
}

/// The eight numbers of every row, and the distance since the last node where there
/// are nodes.
pub fn row(row: &Row) -> Numbers {
    let mut numbers = first_eight(row).to_vec();
    if let Some(since_node) = row.moon {
        numbers.extend([since_node.whole, since_node.remainder]);
    }
    numbers
}

/// Degrees, remainder and half of the new moon, then of the full moon.
pub fn nodes(month: &Month) -> Option<[u64; 6]> {
    let (new, full) = (month.row.moon?, month.full_moon?);
    Some([
        new.whole,
        new.remainder,
        new.rest,
        full.whole,
        full.remainder,
        full.rest,
    ])
}

/// The rows of a year one after the other, with zeros past its months.
pub fn list(year: &Year) -> Vec<Numbers> {
    let mut rows: Vec<Numbers> = year.months.iter().map(|month| row(&month.row)).collect();
    let none = vec![0; rows[0].len()];
    rows.resize(LIST_ROWS, none);
    rows
}
