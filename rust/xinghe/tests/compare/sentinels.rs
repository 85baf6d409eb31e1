//! What is written to arrays that hold other numbers before: the values where
//! a call is answered, zeros where it is refused, and nothing beside them.

use std::hint::black_box;

use second::sixty;
use xinghe::{Answer, Row, ROW};

use crate::expected::{LAST_DAY, LAST_YEAR, MONTHS};
use crate::random::Random;
use crate::raw;
use crate::tally::Tally;

pub const SENTINEL: u64 = 0x1234_5678_9abc_def1;

/// An array that is lent, between numbers that are not.
#[repr(C)]
pub struct Lent<T> {
    before: [u64; 8],
    pub out: T,
    behind: [u64; 8],
}

impl<T> Lent<T> {
    pub fn new(out: T) -> Self {
        Self {
            before: [SENTINEL; 8],
            out,
            behind: [SENTINEL; 8],
        }
    }

    /// What the array holds now; the numbers about it must be as they were.
    #[track_caller]
    pub fn given_back(self) -> T {
        // Read anew: the compiler may take them for numbers nobody could reach.
        let lent = black_box(self);
        assert_eq!((lent.before, lent.behind), ([SENTINEL; 8], [SENTINEL; 8]));
        lent.out
    }
}

/// The number that a call returns, and what it writes over other numbers.
#[track_caller]
pub fn called<const LENGTH: usize>(
    call: impl FnOnce(&mut [u64; LENGTH]) -> u64,
) -> (u64, [u64; LENGTH]) {
    let mut lent = Lent::new([SENTINEL; LENGTH]);
    let number = call(&mut lent.out);
    (number, lent.given_back())
}

/// What the call of an answer returns and writes: zeros where it is a refusal.
pub fn written<const LENGTH: usize>(answer: Answer<[u64; LENGTH]>) -> (u64, [u64; LENGTH]) {
    match answer {
        Ok(values) => (0, values),
        Err(number) => (number, [0; LENGTH]),
    }
}

/// The safe function starts from zeros, this call from other numbers; both
/// must come to the same, and to zeros where the answer is a refusal.
#[track_caller]
fn compare<const LENGTH: usize>(
    tally: &mut Tally,
    safe: Answer<[u64; LENGTH]>,
    call: impl FnOnce(&mut [u64; LENGTH]) -> u64,
) {
    tally.same(called(call), written(safe));
}

fn months(tally: &mut Tally, year: u64, place: u64) {
    compare(tally, xinghe::month_row(year, place), |out| {
        raw::xinghe_month_row(year, place, out)
    });
    compare(tally, xinghe::phases(year, place), |out| {
        raw::xinghe_phases(year, place, out)
    });
    compare(tally, xinghe::nodes(year, place), |out| {
        raw::xinghe_nodes(year, place, out)
    });
    compare(tally, xinghe::corrections(year, place), |out| {
        raw::xinghe_corrections(year, place, out)
    });
}

fn days_and_cuts(tally: &mut Tally, year: u64, place: u64, other: u64) {
    compare(tally, xinghe::year_head(year), |out| {
        raw::xinghe_year_head(year, out)
    });
    compare(tally, xinghe::day_of_date(year, place, other), |out| {
        raw::xinghe_day_of_date(year, place, other, out)
    });
    for cut in [12, 24, 60, 72] {
        compare(tally, xinghe::cut_point(year, cut, other), |out| {
            raw::xinghe_cut_point(year, cut, other, out)
        });
    }
}

#[test]
fn answers_and_refusals() {
    let mut random = Random::new(12);
    let mut tally = Tally::new("sentinels");
    let others = [0, 1, 29, 30, 31, 59, 60, 72, u64::MAX];
    for _ in 0..50_000 {
        let year = match random.below(4) {
            0 => random.pick(&[0, LAST_YEAR + 1, u64::MAX]),
            _ => 1 + random.below(LAST_YEAR),
        };
        let place = random.below(15);
        months(&mut tally, year, place);
        days_and_cuts(&mut tally, year, place, random.pick(&others));
        let number = random.below(LAST_DAY + LAST_DAY / 4);
        compare(&mut tally, xinghe::date_of_day(number), |out| {
            raw::xinghe_date_of_day(number, out)
        });
    }
    tally.end(500_000);
}

/// Rows at random, one in four of them forged.
#[test]
fn carries_and_walks() {
    let mut random = Random::new(13);
    let mut tally = Tally::new("sentinels of carries and walks");
    for _ in 0..50_000 {
        let year = 1 + random.below(LAST_YEAR);
        let mut row = xinghe::month_row(year, random.below(12)).expect("a month");
        if random.below(4) == 0 {
            row[random.below(ROW as u64) as usize] ^= 1 << random.below(64);
        }
        let count = random.count();
        compare(&mut tally, xinghe::carry(&row, count), |out| {
            raw::xinghe_carry(&row, count, out)
        });
        compare_walk(&mut tally, &row, &[count, random.count()]);
    }
    tally.end(100_000);
}

fn compare_walk(tally: &mut Tally, row: &Row, counts: &[i64]) {
    let (mut out, mut totals) = ([SENTINEL; ROW], [SENTINEL; 3]);
    // SAFETY: pointer and length are those of a slice.
    let number =
        unsafe { raw::xinghe_walk(row, counts.as_ptr(), counts.len(), &mut out, &mut totals) };
    let expected = match xinghe::walk(row, counts) {
        Ok(end) => {
            let below = u64::from(end.sum < 0);
            let totals = [below, end.sum.unsigned_abs(), end.answered];
            (0, end.row, totals)
        }
        Err(number) => (number, [0; ROW], [0; 3]),
    };
    tally.same((number, out, totals), expected);
}

/// A list that is too short, or the list of a year that is none, stays.
#[test]
fn refused_lists() {
    const LONG: usize = MONTHS * ROW;
    const COMMON: usize = LONG - ROW;
    let mut list = [SENTINEL; LONG];
    let last = (LAST_YEAR, LONG - 1, 6);
    for (year, length, number) in [(0, LONG, 1), last, (1, COMMON - 1, 6), (1, 0, 6)] {
        // SAFETY: the list is as long as the length, or longer.
        let answered = unsafe { raw::xinghe_fill_year(year, list.as_mut_ptr(), length) };
        assert_eq!(answered, number);
        assert_eq!(list, [SENTINEL; LONG]);
    }
}

/// Planets about the five, and years one in four of which are none.
#[test]
fn conjunctions() {
    let mut random = Random::new(14);
    let mut tally = Tally::new("sentinels of conjunctions");
    for _ in 0..50_000 {
        let year = random.below(LAST_YEAR + LAST_YEAR / 3);
        for planet in [0, 1, 2, 3, 4, 5, 6, u64::MAX] {
            compare(&mut tally, xinghe::conjunctions(year, planet), |out| {
                raw::xinghe_conjunctions(year, planet, out)
            });
        }
    }
    tally.end(400_000);
}

/// Days about the sixty, and lists of which one, both or neither is right. The
/// list's number is held to where the second program's part lies.
#[test]
fn labels() {
    let mut tally = Tally::new("sentinels of labels");
    let lists = [[0; 361], [1; 361]];
    for day in (0..=61).chain([1 << 32, u64::MAX]) {
        for (theirs, house) in [(360, 360), (360, 0), (0, 360), (359, 360), (361, 359)] {
            let (theirs, house) = (&lists[0][..theirs], &lists[1][..house]);
            let expected = match sixty::label(day, theirs, house) {
                Ok(name) => {
                    let list = &lists[usize::from(name[0])];
                    let from = name.as_ptr() as u64 - list.as_ptr() as u64;
                    (0, [u64::from(name[0]) + 1, from])
                }
                Err(refusal) => (refusal as u64, [0, 0]),
            };
            let mut lent = Lent::new([SENTINEL; 2]);
            // SAFETY: pointers and lengths are those of slices.
            let number = unsafe {
                let (theirs, length) = (theirs.as_ptr(), theirs.len());
                let out = &mut lent.out;
                raw::xinghe_label(day, theirs, length, house.as_ptr(), house.len(), out)
            };
            tally.same((number, lent.given_back()), expected);
        }
    }
    tally.end(320);
}

#[test]
fn ganzhi_names() {
    let mut lent = Lent::new([SENTINEL as u8; 360]);
    assert_eq!(raw::xinghe_ganzhi_names(&mut lent.out), 0);
    assert_eq!(lent.given_back(), sixty::GANZHI[..]);
}

#[test]
fn stages() {
    let mut tally = Tally::new("sentinels of stages");
    for planet in (0..10).chain([1 << 32, u64::MAX]) {
        let mut count = Lent::new([SENTINEL]);
        let mut out = Lent::new([[SENTINEL; 10]; 14]);
        let number = raw::xinghe_stages(planet, &mut count.out, &mut out.out);
        let expected = match xinghe::stages(planet) {
            Ok(stages) => (0, [stages.count], stages.stages),
            Err(number) => (number, [0], [[0; 10]; 14]),
        };
        let written = (number, count.given_back(), out.given_back());
        tally.same(written, expected);
    }
    tally.end(12);
}
