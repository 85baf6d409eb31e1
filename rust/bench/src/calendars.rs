//! The other calendars' rows of the table, with inputs of their own.

use bench::fast::{Boundary, Linde, Zhengguang};

use crate::calendar_inputs::{CalendarInputs, Draw};
use crate::inputs::Random;
use crate::measure::{measure, Line};

/// The library's functions of each calendar, by the names that both have.
mod zhengguang {
    pub use crate::raw::{
        zhengguang_carry as carry, zhengguang_cut_point as cut_point,
        zhengguang_date_of_day as date_of_day, zhengguang_day_of_date as day_of_date,
        zhengguang_month_row as month_row, zhengguang_nodes as nodes, zhengguang_walk as walk,
        zhengguang_year as year, zhengguang_year_head as year_head,
    };
}

mod linde {
    pub use crate::raw::{
        linde_carry as carry, linde_cut_point as cut_point, linde_date_of_day as date_of_day,
        linde_day_of_date as day_of_date, linde_month_row as month_row, linde_walk as walk,
        linde_year as year, linde_year_head as year_head,
    };
}

fn drawn<C: Boundary<HEAD, ROW>, const HEAD: usize, const ROW: usize>(
    seed: u64,
) -> CalendarInputs<ROW> {
    let calendar = C::CALENDAR;
    let mut draw = Draw {
        random: Random::new(seed),
        years: calendar.first_year..=calendar.last_year,
        months: calendar.months,
        days: calendar.days,
        month_row: C::month_row,
    };
    draw.inputs()
}

/// The lines of a calendar, by its struct in Rust and its module of the library's
/// functions, which are so called directly.
macro_rules! lines_of {
    ($calendar:ident, $library:ident, $inputs:expr) => {
        [
            measure(
                concat!("head of a year, ", stringify!($calendar)),
                &$inputs.years,
                [0; _],
                |&year, out| $library::year_head(year, out),
                |&year, out| $calendar::year_head(year, out),
            ),
            measure(
                concat!("row of a month, ", stringify!($calendar)),
                &$inputs.months,
                [0; _],
                |&(year, place), out| $library::month_row(year, place, out),
                |&(year, place), out| $calendar::month_row(year, place, out),
            ),
            measure(
                concat!("date to day, ", stringify!($calendar)),
                &$inputs.dates,
                [0; 2],
                |&(year, place, day), out| $library::day_of_date(year, place, day, out),
                |&(year, place, day), out| $calendar::day_of_date(year, place, day, out),
            ),
            measure(
                concat!("day to date, ", stringify!($calendar)),
                &$inputs.days,
                [0; 3],
                |&number, out| $library::date_of_day(number, out),
                |&number, out| $calendar::date_of_day(number, out),
            ),
            measure(
                concat!("carry, ", stringify!($calendar)),
                &$inputs.carries,
                [0; _],
                |(row, count), out| $library::carry(row, *count, out),
                |(row, count), out| $calendar::carry(row, *count, out),
            ),
            measure(
                concat!("walk of 1,000 counts, ", stringify!($calendar)),
                &$inputs.walks,
                ([0; _], [0; 3]),
                |(row, counts), (out, totals)| {
                    // SAFETY: pointer and length are those of a slice.
                    unsafe { $library::walk(row, counts.as_ptr(), counts.len(), out, totals) }
                },
                |(row, counts), (out, totals)| $calendar::walk(row, counts, out, totals),
            ),
            measure(
                concat!("a year by value, ", stringify!($calendar)),
                &$inputs.years,
                ([0; _], [[0; _]; 13]),
                |&year, (head, rows)| $library::year(year, head, rows),
                |&year, (head, rows)| $calendar::year(year, head, rows),
            ),
            measure(
                concat!("point of a cut, ", stringify!($calendar)),
                &$inputs.points,
                [0; 3],
                |&(year, cut, index), out| $library::cut_point(year, cut, index, out),
                |&(year, cut, index), out| $calendar::cut_point(year, cut, index, out),
            ),
        ]
    };
}

pub fn lines() -> impl Iterator<Item = Line> {
    let inputs = drawn::<Zhengguang, _, _>(4);
    let zhengguang = lines_of!(Zhengguang, zhengguang, inputs);
    let nodes = measure(
        "node distances, Zhengguang",
        &inputs.months,
        [0; 6],
        |&(year, place), out| zhengguang::nodes(year, place, out),
        |&(year, place), out| Zhengguang::nodes(year, place, out),
    );
    let inputs = drawn::<Linde, _, _>(5);
    let linde = lines_of!(Linde, linde, inputs);
    zhengguang.into_iter().chain([nodes]).chain(linde)
}
