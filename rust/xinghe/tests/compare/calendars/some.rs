//! Years and rows to ask for, at random and at the edges of a calendar.

use second::calendars::ask;
use second::calendars::fields::Numbers;

use super::library::Library;
use crate::random::Random;

/// How many years at each end are edges.
const AT_AN_END: u64 = 25;

pub fn first_year<L: Library>() -> u64 {
    L::walked().calendar.first_year
}

pub fn last_year<L: Library>() -> u64 {
    L::walked().calendar.last_year
}

pub fn edge_years<L: Library>() -> impl Iterator<Item = u64> {
    let (first, last) = (first_year::<L>(), last_year::<L>());
    (first..first + AT_AN_END).chain(last - AT_AN_END..=last)
}

/// The year before the first, if there is a number for it, those after the last, and
/// others far away.
pub fn years_outside<L: Library>() -> Vec<u64> {
    let last = last_year::<L>();
    let mut years = vec![last + 1, last + 2, 1 << 32, 1 << 63, u64::MAX];
    years.extend(first_year::<L>().checked_sub(1));
    years
}

/// A year of the calendar.
pub fn drawn_year<L: Library>(random: &mut Random) -> u64 {
    let (first, last) = (first_year::<L>(), last_year::<L>());
    first + random.below(last - first + 1)
}

/// Years of the calendar and, one time in eight, others.
pub fn some_year<L: Library>(random: &mut Random) -> u64 {
    match random.below(8) {
        0 => random.pick(&years_outside::<L>()),
        _ => drawn_year::<L>(random),
    }
}

/// Rows at the ends of the calendar, and others at random.
pub fn some_rows<L: Library>(random: &mut Random, drawn: usize) -> Vec<Numbers> {
    let months = L::walked().months();
    let ends = [0, 1, months - 2, months - 1];
    let drawn = (0..drawn).map(|_| random.below(months));
    let rows = ends.into_iter().chain(drawn);
    rows.map(genuine::<L>).collect()
}

pub fn genuine<L: Library>(lunation: u64) -> Numbers {
    ask::genuine(L::walked(), lunation).expect("a month of the calendar")
}
