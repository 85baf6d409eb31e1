//! Single questions, at random and at the edges of what may be asked.

use second::ask;
use second::instants::ASKED_CUTS;
use second::{sixty, Month, Year};

use crate::expected::{self, LAST_DAY, LAST_YEAR};
use crate::random::Random;
use crate::tally::Tally;

pub const EDGES: [u64; 6] = [1 << 32, 1 << 63, i64::MAX as u64, u64::MAX - 1, u64::MAX, 0];
pub const CUTS: [u64; 12] = [0, 1, 12, 23, 24, 25, 60, 61, 72, 73, 24 << 32, u64::MAX];
/// Year 20 is the first with a month more before it than the chapter gives, the
/// thirteenth of year 19.
pub const EDGE_YEARS: [u64; 7] = [1, 2, 3, 19, 20, LAST_YEAR - 1, LAST_YEAR];

/// Years of the round and, one time in eight, others.
pub fn some_year(random: &mut Random) -> u64 {
    match random.below(8) {
        0 => random.pick(&[0, LAST_YEAR + 1, LAST_YEAR + 2, 1 << 32, u64::MAX]),
        1 => random.pick(&EDGE_YEARS),
        _ => 1 + random.below(LAST_YEAR),
    }
}

/// Every kind of question as the second program itself answers it.
#[test]
fn questions_and_refusals() {
    let mut random = Random::new(1);
    let mut tally = Tally::new("questions and refusals");
    for _ in 0..3_000 {
        let year = some_year(&mut random);
        let place = random.below(15);
        compare_place(&mut tally, year, place);
        let day = random.below(33);
        let number = expected::number(ask::day_number(year, place, day));
        let answered = xinghe::day_of_date(year, place, day);
        tally.same(answered, number.map(|(number, sixty)| [number, sixty]));
        let (cut, index) = (random.pick(&CUTS), random.below(74));
        let point = expected::number(ask::cut_point(year, cut, index));
        let point = point.map(second::fields::point);
        tally.same(xinghe::cut_point(year, cut, index), point);
    }
    tally.end(21_000);
}

fn compare_place(tally: &mut Tally, year: u64, place: u64) {
    let head = expected::number(ask::year(year));
    let head = head.map(|year| second::fields::head(&year));
    tally.same(xinghe::year_head(year), head);
    let month = expected::number(ask::month(year, place));
    compare_month(tally, year, place, month.as_ref().map_err(|number| *number));
}

fn compare_month(tally: &mut Tally, year: u64, place: u64, month: Result<&Month, u64>) {
    let row = month.map(expected::row);
    tally.same(xinghe::month_row(year, place), row);
    tally.same(xinghe::phases(year, place), month.map(expected::phases));
    tally.same(xinghe::nodes(year, place), month.map(expected::nodes));
    let corrections = month.map(expected::corrections);
    tally.same(xinghe::corrections(year, place), corrections);
}

/// A year found once and asked for all its places, days and points.
#[test]
fn whole_years() {
    let mut random = Random::new(2);
    let mut tally = Tally::new("whole years");
    let drawn = (0..2_000).map(|_| 1 + random.below(LAST_YEAR));
    for number in EDGE_YEARS.into_iter().chain(drawn) {
        let year = ask::year(number).expect("a year of the round");
        for place in (0..15).chain(EDGES) {
            let month = year.months.iter().find(|month| month.row.place == place);
            compare_month(&mut tally, number, place, month.ok_or(2));
            compare_days(&mut tally, number, place, month);
        }
        compare_points(&mut tally, &year);
    }
    tally.end(2_000_000);
}

fn compare_days(tally: &mut Tally, year: u64, place: u64, month: Option<&Month>) {
    for day in (0..32).chain(EDGES) {
        let expected = match month {
            None => Err(2),
            Some(month) if day == 0 || day > month.row.length => Err(3),
            Some(month) => Ok([
                month.row.day + day - 1,
                sixty::days_on(month.sixty, day - 1),
            ]),
        };
        tally.same(xinghe::day_of_date(year, place, day), expected);
        if let Ok([number, _]) = expected {
            tally.same(xinghe::date_of_day(number), Ok([year, place, day]));
        }
    }
}

fn compare_points(tally: &mut Tally, year: &Year) {
    for cut in CUTS {
        let asked = ASKED_CUTS.into_iter().filter(|asked| asked.points() == cut);
        let points = asked.flat_map(|cut| cut.walk(year.solstice));
        let points: Vec<_> = points.map(second::fields::point).collect();
        for index in (0..75).chain(EDGES) {
            let point = points.get(index as usize).copied();
            let answered = xinghe::cut_point(year.number, cut, index);
            tally.same(answered, point.ok_or(8));
        }
    }
}

/// Years outside the round are refused under 1 whatever else is asked.
#[test]
fn years_outside() {
    let mut random = Random::new(3);
    let mut tally = Tally::new("years outside");
    let edges = [0, LAST_YEAR + 1].into_iter().chain(EDGES);
    let drawn = (0..50_000).map(|_| random.number() | 1 << 20);
    for year in edges.chain(drawn) {
        tally.same(xinghe::year_head(year), Err(1));
        for other in [0, 12, 13, u64::MAX] {
            compare_month(&mut tally, year, other, Err(1));
            tally.same(xinghe::day_of_date(year, other, other), Err(1));
            tally.same(xinghe::cut_point(year, other, other), Err(1));
            tally.same(xinghe::cut_point(year, 24, other), Err(1));
        }
    }
    tally.end(1_000_000);
}

#[test]
fn dates_of_days() {
    let mut random = Random::new(4);
    let mut tally = Tally::new("dates of days");
    let edges = [1, LAST_DAY - 1, LAST_DAY, LAST_DAY + 1, LAST_DAY + 2];
    let drawn: Vec<_> = (0..5_000).map(|_| random.below(LAST_DAY + 100)).collect();
    for day in edges.into_iter().chain(EDGES).chain(drawn) {
        let date = expected::number(ask::date(day));
        let date = date.map(|(row, day)| [row.year, row.place, day]);
        tally.same(xinghe::date_of_day(day), date);
    }
    for _ in 0..500_000 {
        let number = random.below(LAST_DAY + 1);
        let [year, place, day] = xinghe::date_of_day(number).expect("a day of the round");
        let back = xinghe::day_of_date(year, place, day);
        tally.same(back, Ok([number, 1 + number % 60]));
    }
    tally.end(500_000);
}
