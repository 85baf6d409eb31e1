//! The survey: every job for every month of the round.

use std::hint::black_box;
use std::time::Instant;

use bench::fast;

use crate::measure::Line;
use crate::raw;

pub const REPETITIONS: usize = 5;

/// What is summed, so that no answer goes unread.
#[derive(Clone, Copy, Default, PartialEq, Eq, Debug)]
struct Sums {
    months: u64,
    days: u64,
    phases: u64,
    eclipses: u64,
    corrections: u64,
}

/// The same loop is compiled once for each program's functions.
#[inline(always)]
fn survey(
    head: impl Fn(u64, &mut [u64; 6]) -> u64,
    row: impl Fn(u64, u64, &mut fast::Row) -> u64,
    phases: impl Fn(u64, u64, &mut [u64; 12]) -> u64,
    nodes: impl Fn(u64, u64, &mut [u64; 15]) -> u64,
    corrections: impl Fn(u64, u64, &mut [u64; 14]) -> u64,
) -> Sums {
    let mut sums = Sums::default();
    let (mut a, mut b, mut c, mut d, mut e) = ([0; 6], [0; fast::ROW], [0; 12], [0; 15], [0; 14]);
    for year in 1..=fast::ROUND_YEARS {
        head(black_box(year), &mut a);
        for place in 0..a[2] {
            row(year, place, &mut b);
            phases(year, place, &mut c);
            nodes(year, place, &mut d);
            corrections(year, place, &mut e);
            sums.months += 1;
            sums.days += b[7];
            sums.phases += c[7];
            sums.eclipses += d[3] + d[10];
            sums.corrections += e[3] + e[10];
        }
    }
    sums
}

fn by_library() -> Sums {
    survey(
        |year, out| raw::xinghe_year_head(year, out),
        |year, place, out| raw::xinghe_month_row(year, place, out),
        |year, place, out| raw::xinghe_phases(year, place, out),
        |year, place, out| raw::xinghe_nodes(year, place, out),
        |year, place, out| raw::xinghe_corrections(year, place, out),
    )
}

fn by_rust() -> Sums {
    survey(
        |year, out| fast::year_head::<fast::Division>(year, out),
        |year, place, out| fast::month_row::<fast::Division>(year, place, out),
        |year, place, out| fast::phases(year, place, out),
        |year, place, out| fast::nodes(year, place, out),
        |year, place, out| fast::corrections(year, place, out),
    )
}

/// Nanoseconds per month of the round.
fn timed(run: fn() -> Sums) -> (f64, Sums) {
    let start = Instant::now();
    let sums = black_box(run());
    let taken = start.elapsed().as_nanos() as f64;
    (taken / fast::ROUND_MONTHS as f64, sums)
}

pub fn measure() -> Line {
    let mut line = Line {
        name: "survey of the round, per month",
        library: f64::INFINITY,
        rust: f64::INFINITY,
    };
    for _ in 0..REPETITIONS {
        let (library, sums) = timed(by_library);
        let (rust, same) = timed(by_rust);
        assert_eq!(sums, same);
        line.library = line.library.min(library);
        line.rust = line.rust.min(rust);
    }
    line
}
