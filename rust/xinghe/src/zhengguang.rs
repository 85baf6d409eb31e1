//! The Zhengguang calendar, whose years are written from 1 to 363,600.
//!
//! Refusals have the numbers of the crate's own page; of them 1 to 5, 7 and 8 are given
//! here, each by this calendar's years, months and days. Remainders of new moons and of
//! distances since a node are over 74,952, those of solstices and cuts over 6,060.
//!
//! ```
//! use xinghe::zhengguang;
//! let first = zhengguang::month_row(1, 0).unwrap();
//! let last = zhengguang::date_of_day(132_802_619).unwrap();
//! assert_eq!(last[0], 363_600);
//! assert_eq!(zhengguang::carry(&first, 12), zhengguang::month_row(2, 0));
//! assert_eq!(zhengguang::carry(&first, -1), Err(5));
//! assert_eq!(zhengguang::year(1).unwrap().rows[0], first);
//! ```

use crate::answers::{self, answer, Answer};
use crate::raw;

/// How many numbers a year's head and a month's row have.
pub const HEAD: usize = raw::ZHENGGUANG_HEAD;
pub const ROW: usize = raw::ZHENGGUANG_ROW;

/// Months before the year, leap remainder of the chapter, month count, leap place, day
/// of the winter solstice, its remainder.
pub type Head = [u64; HEAD];

/// Month of the calendar, year, place, month number, leap mark, first day, small
/// remainder, length; and of its new moon the degrees since the last node and their
/// remainder.
pub type Row = [u64; ROW];

pub type Walk = answers::Walk<ROW>;
pub type YearList = answers::YearList<HEAD, ROW>;

pub fn year_head(year: u64) -> Answer<Head> {
    answer(|out| raw::zhengguang_year_head(year, out))
}

/// The row of the month at a place of a year; places are counted from 0.
pub fn month_row(year: u64, place: u64) -> Answer<Row> {
    answer(|out| raw::zhengguang_month_row(year, place, out))
}

/// Day number and day of the sixty, which is 1 to 60; days of a month are counted
/// from 1.
pub fn day_of_date(year: u64, place: u64, day: u64) -> Answer<[u64; 2]> {
    answer(|out| raw::zhengguang_day_of_date(year, place, day, out))
}

/// Year, place and day of the month of a day counted from the origin.
pub fn date_of_day(number: u64) -> Answer<[u64; 3]> {
    answer(|out| raw::zhengguang_date_of_day(number, out))
}

/// The row so many months on, or back where the count is negative.
pub fn carry(row: &Row, count: i64) -> Answer<Row> {
    answer(|out| raw::zhengguang_carry(row, count, out))
}

/// Carries a row by each of the counts in turn; those that would lead outside the
/// calendar are passed over.
pub fn walk(row: &Row, counts: &[i64]) -> Answer<Walk> {
    answers::walk(|out, totals| {
        // SAFETY: a slice's pointer is not null and is aligned, also where the slice
        // is empty, and points to as many numbers as the slice has.
        unsafe { raw::zhengguang_walk(row, counts.as_ptr(), counts.len(), out, totals) }
    })
}

/// A year's head and all its rows.
pub fn year(year: u64) -> Answer<YearList> {
    answers::year(|head, rows| raw::zhengguang_year(year, head, rows))
}

/// Day, remainder and rest of a point of the cut of a year in 24, 60 or 72.
pub fn cut_point(year: u64, cut: u64, index: u64) -> Answer<[u64; 3]> {
    answer(|out| raw::zhengguang_cut_point(year, cut, index, out))
}

/// Degrees since the last node, their remainder and half a part of the new moon, then
/// of the full moon.
pub fn nodes(year: u64, place: u64) -> Answer<[u64; 6]> {
    answer(|out| raw::zhengguang_nodes(year, place, out))
}
