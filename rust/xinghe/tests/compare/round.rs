//! The whole round, every month of it as the walk yields it.

use second::instants::ASKED_CUTS;
use second::numbers::ERA_YEARS;
use second::{sixty, Month, Walker, Year};
use xinghe::{Row, ROW};

use crate::expected::{self, MONTHS};
use crate::tally::Tally;

/// Cuts, days and steps are compared in one of so many years, to keep the test
/// quick. It is prime to the 16,860 years after which new moons and solstices
/// fall as before, so that years of every kind come up.
const SPARSE: u64 = 7;

/// The first years of the eras are chosen, too: the side starts anew in them.
fn is_chosen(year: &Year) -> bool {
    year.number % SPARSE == 1 || year.number % ERA_YEARS == 1
}

#[test]
fn every_month_of_the_round() {
    let mut tally = Tally::new("round");
    let mut before = None;
    for year in Walker::from_origin() {
        let chosen = is_chosen(&year);
        compare_year(&mut tally, &year);
        if chosen {
            compare_cuts(&mut tally, &year);
        }
        for month in &year.months {
            let row = compare_month(&mut tally, month);
            if chosen {
                compare_days(&mut tally, month);
                compare_steps(&mut tally, before, row);
            }
            before = Some(row);
        }
    }
    let last = before.expect("a round with months");
    tally.same(xinghe::carry(&last, 1), Err(5));
    tally.end(90_000_000);
}

fn compare_year(tally: &mut Tally, year: &Year) {
    let number = year.number;
    tally.same(xinghe::year_head(number), Ok(second::fields::head(year)));
    let mut list = [0; MONTHS * ROW];
    tally.same(xinghe::fill_year(number, &mut list), Ok(()));
    for (month, row) in year.months.iter().zip(list.chunks(ROW)) {
        assert_eq!(row, expected::row(month));
    }
    let past = year.months.len() as u64;
    tally.same(xinghe::month_row(number, past), Err(2));
    for (planet, walked) in (1..).zip(&year.conjunctions) {
        let answered = xinghe::conjunctions(number, planet);
        tally.same(answered, Ok(expected::conjunctions(walked)));
    }
}

fn compare_cuts(tally: &mut Tally, year: &Year) {
    for cut in ASKED_CUTS {
        for (index, point) in (0..).zip(cut.walk(year.solstice)) {
            let answered = xinghe::cut_point(year.number, cut.points(), index);
            tally.same(answered, Ok(second::fields::point(point)));
        }
    }
}

/// Gives the month's row, whose last numbers are the first ones of two pages.
fn compare_month(tally: &mut Tally, month: &Month) -> Row {
    let (year, place) = (month.row.year, month.row.place);
    let row = expected::row(month);
    tally.same(xinghe::month_row(year, place), Ok(row));
    let phases = expected::phases(month);
    tally.same(xinghe::phases(year, place), Ok(phases));
    let nodes = expected::nodes(month);
    tally.same(xinghe::nodes(year, place), Ok(nodes));
    let corrections = expected::corrections(month);
    tally.same(xinghe::corrections(year, place), Ok(corrections));
    assert_eq!(row[8..=10], nodes[..3]);
    assert_eq!(row[11..], corrections[..2]);
    row
}

/// The first and the last day of a month, and the day past it.
fn compare_days(tally: &mut Tally, month: &Month) {
    let row = &month.row;
    let (year, place, length) = (row.year, row.place, row.length);
    let first = [row.day, month.sixty];
    tally.same(xinghe::day_of_date(year, place, 1), Ok(first));
    let later = length - 1;
    let last = [row.day + later, sixty::days_on(month.sixty, later)];
    tally.same(xinghe::day_of_date(year, place, length), Ok(last));
    tally.same(xinghe::day_of_date(year, place, length + 1), Err(3));
    tally.same(xinghe::date_of_day(first[0]), Ok([year, place, 1]));
    tally.same(xinghe::date_of_day(last[0]), Ok([year, place, length]));
}

/// From the month before to this one, and back.
fn compare_steps(tally: &mut Tally, before: Option<Row>, row: Row) {
    match before {
        Some(before) => {
            tally.same(xinghe::carry(&before, 1), Ok(row));
            tally.same(xinghe::carry(&row, -1), Ok(before));
        }
        None => tally.same(xinghe::carry(&row, -1), Err(5)),
    }
}
