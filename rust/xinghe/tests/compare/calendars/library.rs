//! The library's calendars by one trait, with numbers in lists, as how many there are
//! differs.

use second::ask::Refusal;
use second::calendars::ask::Walk;
use second::calendars::fields::Numbers;
use second::calendars::{Checkpoints, LINDE, ZHENGGUANG};
use xinghe::{linde, zhengguang, Answer};

use super::boundary::{of_row, same, same_walk, same_year, YearNumbers};
use crate::raw;

/// Each function asks the safe function and the boundary itself; the two must agree,
/// and the boundary must write zeros where it refuses.
pub trait Library {
    fn walked() -> &'static Checkpoints;
    fn head(year: u64) -> Answer<Numbers>;
    fn row(year: u64, place: u64) -> Answer<Numbers>;
    fn day(year: u64, place: u64, day: u64) -> Answer<[u64; 2]>;
    fn date(number: u64) -> Answer<[u64; 3]>;
    fn carry(row: &[u64], count: i64) -> Answer<Numbers>;
    fn walk(row: &[u64], counts: &[i64]) -> Answer<Walk>;
    fn year(year: u64) -> Answer<YearNumbers>;
    fn cut(year: u64, cut: u64, index: u64) -> Answer<[u64; 3]>;
    /// Where the calendar has nodes.
    fn nodes(year: u64, place: u64) -> Option<Answer<[u64; 6]>>;
}

/// As the library would return the second program's answer.
pub fn number<T>(answer: Result<T, Refusal>) -> Answer<T> {
    answer.map_err(|refusal| refusal as u64)
}

pub struct Zhengguang;

impl Library for Zhengguang {
    fn walked() -> &'static Checkpoints {
        &ZHENGGUANG
    }

    fn head(year: u64) -> Answer<Numbers> {
        let safe = zhengguang::year_head(year);
        same(safe, |out| raw::zhengguang_year_head(year, out)).map(Vec::from)
    }

    fn row(year: u64, place: u64) -> Answer<Numbers> {
        let safe = zhengguang::month_row(year, place);
        same(safe, |out| raw::zhengguang_month_row(year, place, out)).map(Vec::from)
    }

    fn day(year: u64, place: u64, day: u64) -> Answer<[u64; 2]> {
        let safe = zhengguang::day_of_date(year, place, day);
        same(safe, |out| {
            raw::zhengguang_day_of_date(year, place, day, out)
        })
    }

    fn date(number: u64) -> Answer<[u64; 3]> {
        let safe = zhengguang::date_of_day(number);
        same(safe, |out| raw::zhengguang_date_of_day(number, out))
    }

    fn carry(row: &[u64], count: i64) -> Answer<Numbers> {
        let row = of_row(row);
        let safe = zhengguang::carry(&row, count);
        same(safe, |out| raw::zhengguang_carry(&row, count, out)).map(Vec::from)
    }

    fn walk(row: &[u64], counts: &[i64]) -> Answer<Walk> {
        let row = of_row(row);
        let safe = zhengguang::walk(&row, counts);
        same_walk(safe, |out, totals| {
            // SAFETY: pointer and length are those of a slice.
            unsafe { raw::zhengguang_walk(&row, counts.as_ptr(), counts.len(), out, totals) }
        })
    }

    fn year(year: u64) -> Answer<YearNumbers> {
        same_year(zhengguang::year(year), |head, rows| {
            raw::zhengguang_year(year, head, rows)
        })
    }

    fn cut(year: u64, cut: u64, index: u64) -> Answer<[u64; 3]> {
        let safe = zhengguang::cut_point(year, cut, index);
        same(safe, |out| raw::zhengguang_cut_point(year, cut, index, out))
    }

    fn nodes(year: u64, place: u64) -> Option<Answer<[u64; 6]>> {
        let safe = zhengguang::nodes(year, place);
        Some(same(safe, |out| raw::zhengguang_nodes(year, place, out)))
    }
}

pub struct Linde;

impl Library for Linde {
    fn walked() -> &'static Checkpoints {
        &LINDE
    }

    fn head(year: u64) -> Answer<Numbers> {
        let safe = linde::year_head(year);
        same(safe, |out| raw::linde_year_head(year, out)).map(Vec::from)
    }

    fn row(year: u64, place: u64) -> Answer<Numbers> {
        let safe = linde::month_row(year, place);
        same(safe, |out| raw::linde_month_row(year, place, out)).map(Vec::from)
    }

    fn day(year: u64, place: u64, day: u64) -> Answer<[u64; 2]> {
        let safe = linde::day_of_date(year, place, day);
        same(safe, |out| raw::linde_day_of_date(year, place, day, out))
    }

    fn date(number: u64) -> Answer<[u64; 3]> {
        let safe = linde::date_of_day(number);
        same(safe, |out| raw::linde_date_of_day(number, out))
    }

    fn carry(row: &[u64], count: i64) -> Answer<Numbers> {
        let row = of_row(row);
        let safe = linde::carry(&row, count);
        same(safe, |out| raw::linde_carry(&row, count, out)).map(Vec::from)
    }

    fn walk(row: &[u64], counts: &[i64]) -> Answer<Walk> {
        let row = of_row(row);
        let safe = linde::walk(&row, counts);
        same_walk(safe, |out, totals| {
            // SAFETY: pointer and length are those of a slice.
            unsafe { raw::linde_walk(&row, counts.as_ptr(), counts.len(), out, totals) }
        })
    }

    fn year(year: u64) -> Answer<YearNumbers> {
        same_year(linde::year(year), |head, rows| {
            raw::linde_year(year, head, rows)
        })
    }

    fn cut(year: u64, cut: u64, index: u64) -> Answer<[u64; 3]> {
        let safe = linde::cut_point(year, cut, index);
        same(safe, |out| raw::linde_cut_point(year, cut, index, out))
    }

    fn nodes(_: u64, _: u64) -> Option<Answer<[u64; 6]>> {
        None
    }
}
