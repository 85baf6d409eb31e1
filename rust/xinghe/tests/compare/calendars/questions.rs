//! Single questions, at random and at the edges of what may be asked.

use second::calendars::{ask, fields, Month, Year};
use second::sixty;

use super::library::{number, Library, Linde, Zhengguang};
use super::some::{drawn_year, edge_years, some_year, years_outside};
use crate::random::Random;
use crate::single::{CUTS, EDGES};
use crate::tally::Tally;

/// Every kind of question as the second program itself answers it.
#[test]
fn questions_and_refusals() {
    let mut tally = Tally::new("questions to the calendars");
    compare_questions::<Zhengguang>(&mut tally);
    compare_questions::<Linde>(&mut tally);
    tally.end(80_000);
}

fn compare_questions<L: Library>(tally: &mut Tally) {
    let mut random = Random::new(21);
    for _ in 0..8_000 {
        let year = some_year::<L>(&mut random);
        let (place, day) = (random.below(15), random.below(33));
        let (cut, index) = (random.pick(&CUTS), random.below(74));
        let walked = number(ask::year(L::walked(), year));
        tally.same(
            L::head(year),
            walked.as_ref().map(fields::head).map_err(|n| *n),
        );
        compare_list::<L>(tally, year, walked);
        let month = number(ask::month(L::walked(), year, place));
        compare_month::<L>(tally, year, place, month.as_ref().map_err(|n| *n));
        let numbered = number(ask::day_number(L::walked(), year, place, day));
        tally.same(L::day(year, place, day), numbered);
        let point = number(ask::cut_point(L::walked(), year, cut, index));
        tally.same(L::cut(year, cut, index), point.map(fields::point));
    }
}

/// A year by value: its head, and its rows with zeros past them.
fn compare_list<L: Library>(tally: &mut Tally, year: u64, walked: Result<Year, u64>) {
    let list = walked.map(|walked| (fields::head(&walked), fields::list(&walked)));
    tally.same(L::year(year), list);
}

fn compare_month<L: Library>(tally: &mut Tally, year: u64, place: u64, month: Result<&Month, u64>) {
    let row = month.map(|month| fields::row(&month.row));
    tally.same(L::row(year, place), row);
    if let Some(nodes) = L::nodes(year, place) {
        let walked = month.map(|month| fields::nodes(month).expect("a calendar with nodes"));
        tally.same(nodes, walked);
    }
}

/// A year found once and asked for all its places, days and points.
#[test]
fn whole_years() {
    let mut tally = Tally::new("whole years of the calendars");
    compare_whole_years::<Zhengguang>(&mut tally);
    compare_whole_years::<Linde>(&mut tally);
    tally.end(4_000_000);
}

fn compare_whole_years<L: Library>(tally: &mut Tally) {
    let mut random = Random::new(22);
    let drawn: Vec<_> = (0..950).map(|_| drawn_year::<L>(&mut random)).collect();
    for number in edge_years::<L>().chain(drawn) {
        let year = ask::year(L::walked(), number).expect("a year of the calendar");
        for place in (0..15).chain(EDGES) {
            let month = year.months.iter().find(|month| month.row.place == place);
            compare_month::<L>(tally, number, place, month.ok_or(2));
            compare_days::<L>(tally, number, place, month);
        }
        compare_points::<L>(tally, &year);
        compare_list::<L>(tally, number, Ok(year));
    }
}

fn compare_days<L: Library>(tally: &mut Tally, year: u64, place: u64, month: Option<&Month>) {
    for day in (0..32).chain(EDGES) {
        let expected = match month {
            None => Err(2),
            Some(month) if day == 0 || day > month.row.length => Err(3),
            Some(month) => {
                let later = day - 1;
                let sixty = sixty::days_on(month.sixty, later);
                Ok([month.row.day + later, sixty])
            }
        };
        tally.same(L::day(year, place, day), expected);
        if let Ok([number, _]) = expected {
            tally.same(L::date(number), Ok([year, place, day]));
        }
    }
}

fn compare_points<L: Library>(tally: &mut Tally, year: &Year) {
    for points in CUTS {
        let cuts = L::walked().calendar.cuts.into_iter();
        let asked = cuts.filter(|cut| cut.points() == points);
        let walked: Vec<_> = asked.flat_map(|cut| cut.walk(year.solstice)).collect();
        for index in (0..75).chain(EDGES) {
            let point = walked
                .get(index as usize)
                .map(|point| fields::point(*point));
            let answered = L::cut(year.number, points, index);
            tally.same(answered, point.ok_or(8));
        }
    }
}

/// Years outside the calendar are refused under 1 whatever else is asked.
#[test]
fn refused_years() {
    let mut tally = Tally::new("years outside the calendars");
    compare_refused_years::<Zhengguang>(&mut tally);
    compare_refused_years::<Linde>(&mut tally);
    tally.end(1_000_000);
}

fn compare_refused_years<L: Library>(tally: &mut Tally) {
    let mut random = Random::new(23);
    let drawn = (0..30_000).map(|_| random.number() | 1 << 20);
    for year in years_outside::<L>().into_iter().chain(drawn) {
        tally.same(L::head(year), Err(1));
        tally.same(L::year(year), Err(1));
        for other in [0, 12, 13, u64::MAX] {
            compare_month::<L>(tally, year, other, Err(1));
            tally.same(L::day(year, other, other), Err(1));
            tally.same(L::cut(year, other, other), Err(1));
            tally.same(L::cut(year, 24, other), Err(1));
        }
    }
}

#[test]
fn dates_of_days() {
    let mut tally = Tally::new("dates of the calendars' days");
    compare_dates::<Zhengguang>(&mut tally);
    compare_dates::<Linde>(&mut tally);
    tally.end(400_000);
}

/// As the second program finds them; then many more, there and back.
fn compare_dates<L: Library>(tally: &mut Tally) {
    let mut random = Random::new(24);
    let days = L::walked().days();
    let edges = [1, days - 2, days - 1, days, days + 1];
    let drawn: Vec<_> = (0..5_000).map(|_| random.below(days + 100)).collect();
    for day in edges.into_iter().chain(EDGES).chain(drawn) {
        tally.same(L::date(day), number(ask::date(L::walked(), day)));
    }
    for _ in 0..200_000 {
        let number = random.below(days);
        let [year, place, day] = L::date(number).expect("a day of the calendar");
        let back = L::day(year, place, day).map(|[number, _]| number);
        tally.same(back, Ok(number));
    }
}
