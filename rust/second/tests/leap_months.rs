//! Years and leap months over the whole round.

use second::numbers::{CHAPTER_YEARS, D, P};
use second::{Row, Walker, Year};

const CHAPTER_MONTHS: u64 = 6_951;

/// How many months more than the chapter's division the year has before it.
fn past_chapter(year: &Year) -> u64 {
    let chapter = CHAPTER_MONTHS * (year.number - 1) / CHAPTER_YEARS;
    year.months_before - chapter
}

#[test]
fn counts_of_the_round() {
    let mut leap_years = 0;
    let mut one_more = Vec::new();
    let mut xinghe_two = None;
    for year in Walker::from_origin() {
        leap_years += u64::from(year.leap_place != 0);
        match past_chapter(&year) {
            0 => {}
            1 => one_more.push(year.number),
            more => panic!("year {} has {more} more", year.number),
        }
        if year.number == 293_997 {
            xinghe_two = Some(year.leap_place);
        }
    }
    assert_eq!(leap_years, 372_600);
    assert_eq!(xinghe_two, Some(7));
    assert_eq!(one_more.len(), 16_260);
    assert_eq!(one_more[0], 20);
    assert_eq!(one_more.last(), Some(&1_011_286));
}

/// Year, number and leap mark by division: those of the middle term that falls
/// on one of the month's days, or else of the one before, repeated.
fn divided(row: &Row) -> (u64, u64, bool) {
    let twelfths = 12 * D;
    let first = (row.day * twelfths).div_ceil(P);
    let leap = first * P / twelfths >= row.day + row.length;
    let term = first - u64::from(leap);
    (term / 12 + 1, (term + 10) % 12 + 1, leap)
}

#[test]
fn walked_and_divided() {
    let months = Walker::from_origin().flat_map(|year| year.months);
    for row in months.map(|month| month.row) {
        assert_eq!((row.year, row.number, row.leap), divided(&row), "{row:?}");
    }
}
