//! The other calendars' functions of include/xinghe.h, written once for them all.

use super::calendar::{Calendar, Head};
use super::{walks, written, written_walk};

/// A calendar whose heads and rows have so many numbers.
pub trait Boundary<const HEAD: usize, const ROW: usize> {
    const CALENDAR: Calendar;

    /// In the order in which they are written.
    fn numbers(head: Head) -> [u64; HEAD];

    #[inline(never)]
    extern "C" fn year_head(year: u64, out: &mut [u64; HEAD]) -> u64 {
        written(Self::CALENDAR.head(year).map(Self::numbers), out)
    }

    #[inline(never)]
    extern "C" fn month_row(year: u64, place: u64, out: &mut [u64; ROW]) -> u64 {
        written(Self::CALENDAR.row(year, place), out)
    }

    #[inline(never)]
    extern "C" fn day_of_date(year: u64, place: u64, day: u64, out: &mut [u64; 2]) -> u64 {
        written(Self::CALENDAR.day(year, place, day), out)
    }

    #[inline(never)]
    extern "C" fn date_of_day(number: u64, out: &mut [u64; 3]) -> u64 {
        written(Self::CALENDAR.date(number), out)
    }

    #[inline(never)]
    extern "C" fn carry(row: &[u64; ROW], count: i64, out: &mut [u64; ROW]) -> u64 {
        let row_of = |lunation| Self::CALENDAR.row_of(lunation);
        written(
            walks::carried(row, count, Self::CALENDAR.months, row_of),
            out,
        )
    }

    #[inline(never)]
    fn walk(row: &[u64; ROW], counts: &[i64], out: &mut [u64; ROW], totals: &mut [u64; 3]) -> u64 {
        let row_of = |lunation| Self::CALENDAR.row_of(lunation);
        let end = walks::walked(row, counts, Self::CALENDAR.months, row_of);
        written_walk(end, out, totals)
    }

    #[inline(never)]
    extern "C" fn year(year: u64, out: &mut [u64; HEAD], rows: &mut [[u64; ROW]; 13]) -> u64 {
        let head = Self::CALENDAR.head(year);
        match head {
            Ok(head) => Self::CALENDAR.fill(head, rows),
            Err(_) => *rows = [[0; ROW]; 13],
        }
        written(head.map(Self::numbers), out)
    }

    #[inline(never)]
    extern "C" fn cut_point(year: u64, cut: u64, index: u64, out: &mut [u64; 3]) -> u64 {
        written(Self::CALENDAR.cut_point(year, cut, index), out)
    }
}
