//! The jobs by closed formulas, written for speed and proved by nothing: the
//! benchmark first checks that they answer what the library answers.
//!
//! The functions here are those of include/xinghe.h: same arguments, same
//! number returned, same values written, zeros where they refuse. They are
//! never inlined, since the library's cannot be; what they are made of is.
//! Those of heads, rows and dates are made for each way to the months before a
//! year. Those of the other calendars are the functions of a trait, [`Boundary`], but for
//! the Zhengguang's nodes.

mod anomaly;
mod boundary;
mod calendar;
mod chapter;
mod cuts;
mod linde;
mod mending;
mod moon;
mod names;
mod node;
mod planets;
mod reigns;
mod rows;
mod stages;
mod volumes;
mod walks;
mod zhengguang;

pub use boundary::Boundary;
pub use calendar::Calendar;
pub use chapter::{Division, MonthsBefore, Table};
pub use linde::Linde;
pub use mending::MOST_BLOCKS;
pub use names::LIST;
pub use rows::{Row, ROUND_DAYS, ROUND_MONTHS, ROUND_YEARS, ROW, SIXTY};
pub use volumes::BLOCK;
pub use zhengguang::Zhengguang;

/// Writes the answer, or zeros, and returns the number.
#[inline]
fn written<const LENGTH: usize>(
    answer: Result<[u64; LENGTH], u64>,
    out: &mut [u64; LENGTH],
) -> u64 {
    match answer {
        Ok(values) => {
            *out = values;
            0
        }
        Err(number) => {
            *out = [0; LENGTH];
            number
        }
    }
}

/// The same of a walk's last row and its totals.
#[inline]
fn written_walk<const ROW: usize>(
    end: Result<([u64; ROW], [u64; 3]), u64>,
    out: &mut [u64; ROW],
    totals: &mut [u64; 3],
) -> u64 {
    written(end.map(|(_, totals)| totals), totals);
    written(end.map(|(row, _)| row), out)
}

#[inline(never)]
pub extern "C" fn year_head<B: MonthsBefore>(year: u64, out: &mut [u64; 6]) -> u64 {
    written(rows::head::<B>(year), out)
}

#[inline(never)]
pub extern "C" fn month_row<B: MonthsBefore>(year: u64, place: u64, out: &mut Row) -> u64 {
    let lunation = rows::lunation::<B>(year, place);
    let row = lunation.map(|lunation| rows::row_at(year - 1, place, lunation));
    written(row, out)
}

#[inline(never)]
pub extern "C" fn day_of_date<B: MonthsBefore>(
    year: u64,
    place: u64,
    day: u64,
    out: &mut [u64; 2],
) -> u64 {
    written(rows::day::<B>(year, place, day), out)
}

#[inline(never)]
pub extern "C" fn date_of_day<B: MonthsBefore>(number: u64, out: &mut [u64; 3]) -> u64 {
    written(rows::date::<B>(number), out)
}

#[inline(never)]
pub extern "C" fn carry<B: MonthsBefore>(row: &Row, count: i64, out: &mut Row) -> u64 {
    let carried = walks::carried(row, count, ROUND_MONTHS, rows::row_of::<B>);
    written(carried, out)
}

#[inline(never)]
pub extern "C" fn phases(year: u64, place: u64, out: &mut [u64; 12]) -> u64 {
    written(
        rows::lunation::<Division>(year, place).map(rows::phases),
        out,
    )
}

#[inline(never)]
pub extern "C" fn nodes(year: u64, place: u64, out: &mut [u64; 15]) -> u64 {
    written(
        rows::lunation::<Division>(year, place).map(node::nodes),
        out,
    )
}

#[inline(never)]
pub extern "C" fn corrections(year: u64, place: u64, out: &mut [u64; 14]) -> u64 {
    let lunation = rows::lunation::<Division>(year, place);
    written(lunation.map(anomaly::corrections), out)
}

#[inline(never)]
pub extern "C" fn corrections_from_rates(year: u64, place: u64, out: &mut [u64; 14]) -> u64 {
    let lunation = rows::lunation::<Division>(year, place);
    written(lunation.map(anomaly::corrections_from_rates), out)
}

#[inline(never)]
pub extern "C" fn cut_point(year: u64, cut: u64, index: u64, out: &mut [u64; 3]) -> u64 {
    let past = rows::past(year);
    let point = past.and_then(|past| cuts::point(past, cut, index, rows::SUN_YEAR));
    written(point, out)
}

#[inline(never)]
pub extern "C" fn cut_point_by_division(
    year: u64,
    cut: u64,
    index: u64,
    out: &mut [u64; 3],
) -> u64 {
    let past = rows::past(year);
    let point = past.and_then(|past| cuts::point_by_division(past, cut, index, rows::SUN_YEAR));
    written(point, out)
}

#[inline(never)]
pub extern "C" fn conjunctions(year: u64, planet: u64, out: &mut [u64; 10]) -> u64 {
    written(planets::conjunctions(year, planet), out)
}

#[inline(never)]
pub extern "C" fn stages(planet: u64, count: &mut [u64; 1], out: &mut [[u64; 10]; 14]) -> u64 {
    match stages::of_planet(planet) {
        Some(list) => {
            (*count, *out) = ([list.count], list.stages);
            0
        }
        None => {
            (*count, *out) = ([0], [[0; 10]; 14]);
            9
        }
    }
}

#[inline(never)]
pub fn label(day: u64, theirs: &[u8], house: &[u8], out: &mut [u64; 2]) -> u64 {
    written(names::location(day, theirs.len(), house.len()), out)
}

#[inline(never)]
pub extern "C" fn ganzhi_names(out: &mut [u8; LIST]) -> u64 {
    *out = names::GANZHI;
    0
}

#[inline(never)]
pub fn walk<B: MonthsBefore>(
    row: &Row,
    counts: &[i64],
    out: &mut Row,
    totals: &mut [u64; 3],
) -> u64 {
    let end = walks::walked(row, counts, ROUND_MONTHS, rows::row_of::<B>);
    written_walk(end, out, totals)
}

#[inline(never)]
pub fn fill_year<B: MonthsBefore>(year: u64, out: &mut [u64]) -> u64 {
    rows::fill::<B>(year, out)
}

#[inline(never)]
pub fn write_volume(first: u64, last: u64, out: &mut [u8], count: &mut [u64; 1]) -> u64 {
    written(volumes::write(first, last, out), count)
}

#[inline(never)]
pub fn read_volume(volume: &[u8], years: &mut [u64; 2]) -> u64 {
    written(volumes::read(volume), years)
}

#[inline(never)]
pub fn marked(volume: &[u8], from: u64, to: u64, moons: &mut [u64; 2]) -> u64 {
    written(reigns::marked(volume, from, to, reigns::weighted), moons)
}

/// The check of a block by its halves, with products of 16 bits.
#[inline(never)]
pub fn marked_by_halves(volume: &[u8], from: u64, to: u64, moons: &mut [u64; 2]) -> u64 {
    let marked = reigns::marked(volume, from, to, reigns::weighted_by_halves);
    written(marked, moons)
}

#[inline(never)]
pub fn mend(volume: &mut [u8], damaged: &mut [u64; MOST_BLOCKS], count: &mut [u64; 1]) -> u64 {
    let mended = mending::mend(volume, damaged, mending::first_by_checks);
    written(mended, count)
}

#[inline(never)]
pub fn mend_by_names(
    volume: &mut [u8],
    damaged: &mut [u64; MOST_BLOCKS],
    count: &mut [u64; 1],
) -> u64 {
    let mended = mending::mend(volume, damaged, mending::first_by_names);
    written(mended, count)
}
