//! Both calendars from end to end, every month as the walk yields it.

use second::calendars::fields::{self, Numbers};
use second::calendars::{Month, Walker, Year};
use second::sixty;

use super::library::{Library, Linde, Zhengguang};
use crate::tally::Tally;

/// Cuts, days and steps are compared in one of so many years, to keep the test quick.
/// It is prime to the 6,060 and the 1,340 years after which solstices fall as before, so
/// that years of every kind come up.
const SPARSE: u64 = 7;

#[test]
fn every_month_of_the_zhengguang() {
    compare_all::<Zhengguang>(Tally::new("the Zhengguang"), 20_000_000);
}

#[test]
fn every_month_of_the_linde() {
    compare_all::<Linde>(Tally::new("the Linde"), 14_000_000);
}

fn compare_all<L: Library>(mut tally: Tally, least: u64) {
    let mut before = None;
    for year in Walker::from_origin(L::walked().calendar) {
        let chosen = year.number % SPARSE == 1;
        compare_year::<L>(&mut tally, &year);
        if chosen {
            compare_cuts::<L>(&mut tally, &year);
        }
        for month in &year.months {
            let row = compare_month::<L>(&mut tally, month);
            if chosen || before.is_none() {
                compare_days::<L>(&mut tally, month);
                compare_steps::<L>(&mut tally, before.as_ref(), &row);
            }
            before = Some(row);
        }
    }
    let last = before.expect("a calendar with months");
    tally.same(L::carry(&last, 1), Err(5));
    tally.end(least);
}

fn compare_year<L: Library>(tally: &mut Tally, year: &Year) {
    let (number, head) = (year.number, fields::head(year));
    tally.same(L::head(number), Ok(head.clone()));
    tally.same(L::year(number), Ok((head, fields::list(year))));
    let past = year.months.len() as u64;
    tally.same(L::row(number, past), Err(2));
}

fn compare_cuts<L: Library>(tally: &mut Tally, year: &Year) {
    for cut in L::walked().calendar.cuts {
        for (index, point) in (0..).zip(cut.walk(year.solstice)) {
            let answered = L::cut(year.number, cut.points(), index);
            tally.same(answered, Ok(fields::point(point)));
        }
    }
}

/// Gives the month's row; where there are nodes, its last numbers are the new moon's.
fn compare_month<L: Library>(tally: &mut Tally, month: &Month) -> Numbers {
    let (year, place) = (month.row.year, month.row.place);
    let row = fields::row(&month.row);
    tally.same(L::row(year, place), Ok(row.clone()));
    if let Some(nodes) = L::nodes(year, place) {
        let walked = fields::nodes(month).expect("a calendar with nodes");
        tally.same(nodes, Ok(walked));
        assert_eq!(row[8..], walked[..2]);
    }
    row
}

/// The first and the last day of a month, and the day past it.
fn compare_days<L: Library>(tally: &mut Tally, month: &Month) {
    let row = &month.row;
    let (year, place, length) = (row.year, row.place, row.length);
    let first = [row.day, month.sixty];
    tally.same(L::day(year, place, 1), Ok(first));
    let later = length - 1;
    let last = [row.day + later, sixty::days_on(month.sixty, later)];
    tally.same(L::day(year, place, length), Ok(last));
    tally.same(L::day(year, place, length + 1), Err(3));
    tally.same(L::date(first[0]), Ok([year, place, 1]));
    tally.same(L::date(last[0]), Ok([year, place, length]));
}

/// From the month before to this one, and back.
fn compare_steps<L: Library>(tally: &mut Tally, before: Option<&Numbers>, row: &Numbers) {
    match before {
        Some(before) => {
            tally.same(L::carry(before, 1), Ok(row.clone()));
            tally.same(L::carry(row, -1), Ok(before.clone()));
        }
        None => tally.same(L::carry(row, -1), Err(5)),
    }
}
