//! The Linde calendar, whose years are written from 0 to 300,000. It has no chapter and
//! no nodes.
//!
//! Refusals have the numbers of the crate's own page; of them 1 to 5, 7 and 8 are given
//! here, each by this calendar's years, months and days. All remainders are over 1,340.
//!
//! ```
//! use xinghe::linde;
//! let first = linde::month_row(0, 0).unwrap();
//! let last = linde::date_of_day(109_573_781).unwrap();
//! assert_eq!(last[0], 300_000);
//! assert_eq!(linde::carry(&first, 12), linde::month_row(1, 0));
//! assert_eq!(linde::carry(&first, -1), Err(5));
//! assert_eq!(linde::year(0).unwrap().rows[0], first);
//! ```

use crate::answers::{self, answer, Answer};
use crate::raw;

/// How many numbers a year's head and a month's row have.
pub const HEAD: usize = raw::LINDE_HEAD;
pub const ROW: usize = raw::LINDE_ROW;

/// Months before the year, month count, leap place, day of the winter solstice, its
/// remainder.
pub type Head = [u64; HEAD];

/// Month of the calendar, year, place, month number, leap mark, first day, small
/// remainder, length.
pub type Row = [u64; ROW];

pub type Walk = answers::Walk<ROW>;
pub type YearList = answers::YearList<HEAD, ROW>;

pub fn year_head(year: u64) -> Answer<Head> {
    answer(|out| raw::linde_year_head(year, out))
}

/// The row of the month at a place of a year; places are counted from 0.
pub fn month_row(year: u64, place: u64) -> Answer<Row> {
    answer(|out| raw::linde_month_row(year, place, out))
}

/// Day number and day of the sixty, which is 1 to 60; days of a month are counted
/// from 1.
pub fn day_of_date(year: u64, place: u64, day: u64) -> Answer<[u64; 2]> {
    answer(|out| raw::linde_day_of_date(year, place, day, out))
}

/// Year, place and day of the month of a day counted from the origin.
pub fn date_of_day(number: u64) -> Answer<[u64; 3]> {
    answer(|out| raw::linde_date_of_day(number, out))
}

/// The row so many months on, or back where the count is negative.
pub fn carry(row: &Row, count: i64) -> Answer<Row> {
    answer(|out| raw::linde_carry(row, count, out))
}

/// Carries a row by each of the counts in turn; those that would lead outside the
/// calendar are passed over.
pub fn walk(row: &Row, counts: &[i64]) -> Answer<Walk> {
    answers::walk(|out, totals| {
        // SAFETY: a slice's pointer is not null and is aligned, also where the slice
        // is empty, and points to as many numbers as the slice has.
        unsafe { raw::linde_walk(row, counts.as_ptr(), counts.len(), out, totals) }
    })
}

/// A year's head and all its rows.
pub fn year(year: u64) -> Answer<YearList> {
    answers::year(|head, rows| raw::linde_year(year, head, rows))
}

/// Day, remainder and rest of a point of the cut of a year in 24, 60 or 72.
pub fn cut_point(year: u64, cut: u64, index: u64) -> Answer<[u64; 3]> {
    answer(|out| raw::linde_cut_point(year, cut, index, out))
}
