//! The benchmark's inputs are all answered; here the plain Rust refuses what
//! the library refuses, so that neither is spared a test in the other's favour.

use bench::fast::{self, Division, MonthsBefore, Table};
use xinghe::{Row, ROW};

const OTHER: u64 = 7;

const YEARS: [u64; 6] = [0, 1, 3, 1_011_600, 1_011_601, u64::MAX];
const PLACES: [u64; 5] = [0, 11, 12, 13, u64::MAX];

/// The number and the values, zeros where it is refused.
fn numbered<const LENGTH: usize>(answer: xinghe::Answer<[u64; LENGTH]>) -> (u64, [u64; LENGTH]) {
    match answer {
        Ok(values) => (0, values),
        Err(number) => (number, [0; LENGTH]),
    }
}

fn some_row() -> Row {
    xinghe::month_row(293_997, 7).expect("a leap month")
}

/// The row itself, with each field changed, and of no month.
fn genuine_and_forged() -> Vec<Row> {
    let mut past_the_round = [0; ROW];
    past_the_round[0] = fast::ROUND_MONTHS;
    let mut rows = vec![some_row(), [u64::MAX; ROW], past_the_round];
    for field in 0..ROW {
        for change in [1, 2, 1 << 32, u64::MAX] {
            let mut forged = some_row();
            forged[field] = forged[field].wrapping_add(change);
            rows.push(forged);
        }
    }
    rows
}

#[test]
fn carries() {
    carries_by::<Division>();
    carries_by::<Table>();
}

fn carries_by<B: MonthsBefore>() {
    for row in genuine_and_forged() {
        for count in [0, 1, -1, i64::MIN, i64::MAX, 12_511_799, -12_511_799] {
            let mut out = [OTHER; ROW];
            let number = fast::carry::<B>(&row, count, &mut out);
            assert_eq!((number, out), numbered(xinghe::carry(&row, count)));
        }
    }
}

#[test]
fn walks() {
    walks_by::<Division>();
    walks_by::<Table>();
}

fn walks_by<B: MonthsBefore>() {
    let counts = [i64::MIN, 5, -3_636_247, -1, i64::MAX, 12_511_799, 1, -2];
    for row in genuine_and_forged() {
        for counts in [&counts[..], &[]] {
            let (mut out, mut totals) = ([OTHER; ROW], [OTHER; 3]);
            let number = fast::walk::<B>(&row, counts, &mut out, &mut totals);
            let expected = match xinghe::walk(&row, counts) {
                Ok(end) => {
                    let below = u64::from(end.sum < 0);
                    let totals = [below, end.sum.unsigned_abs(), end.answered];
                    (0, end.row, totals)
                }
                Err(number) => (number, [0; ROW], [0; 3]),
            };
            assert_eq!((number, out, totals), expected);
        }
    }
}

#[test]
fn lists() {
    lists_by::<Division>();
    lists_by::<Table>();
}

fn lists_by<B: MonthsBefore>() {
    for year in [0, 1, 2, 3, 1_011_600, 1_011_601, u64::MAX] {
        for length in 0..=13 * ROW + 20 {
            let mut list = vec![OTHER; length];
            let mut expected = list.clone();
            let number = fast::fill_year::<B>(year, &mut list);
            let answer = xinghe::fill_year(year, &mut expected);
            assert_eq!(number, answer.err().unwrap_or(0));
            assert_eq!(list, expected);
        }
    }
}

#[test]
fn years_places_and_days() {
    years_places_and_days_by::<Division>();
    years_places_and_days_by::<Table>();
}

fn years_places_and_days_by<B: MonthsBefore>() {
    for year in YEARS {
        let mut head = [OTHER; 6];
        let number = fast::year_head::<B>(year, &mut head);
        assert_eq!((number, head), numbered(xinghe::year_head(year)));
        for place in PLACES {
            let mut row = [OTHER; ROW];
            let number = fast::month_row::<B>(year, place, &mut row);
            assert_eq!((number, row), numbered(xinghe::month_row(year, place)));
            let mut day = [OTHER; 2];
            let number = fast::day_of_date::<B>(year, place, 30, &mut day);
            let expected = xinghe::day_of_date(year, place, 30);
            assert_eq!((number, day), numbered(expected));
        }
    }
    for day in [0, 29, 369_481_019, 369_481_020, u64::MAX] {
        let mut date = [OTHER; 3];
        let number = fast::date_of_day::<B>(day, &mut date);
        assert_eq!((number, date), numbered(xinghe::date_of_day(day)));
    }
}

#[test]
fn cuts() {
    for year in YEARS {
        for index in PLACES {
            for cut in [0, 24, 25, 60, 72] {
                let expected = numbered(xinghe::cut_point(year, cut, index));
                for job in [fast::cut_point, fast::cut_point_by_division] {
                    let mut point = [OTHER; 3];
                    let number = job(year, cut, index, &mut point);
                    assert_eq!((number, point), expected);
                }
            }
        }
    }
}

#[test]
fn planets() {
    for planet in [0, 1, 2, 3, 4, 5, 6, u64::MAX] {
        for year in [0, 1, 2, 976_859, 1_011_600, 1_011_601, u64::MAX] {
            let mut out = [OTHER; 10];
            let number = fast::conjunctions(year, planet, &mut out);
            let expected = xinghe::conjunctions(year, planet);
            assert_eq!((number, out), numbered(expected));
        }
        let (mut count, mut out) = ([OTHER], [[OTHER; 10]; 14]);
        let number = fast::stages(planet, &mut count, &mut out);
        let expected = match xinghe::stages(planet) {
            Ok(stages) => (0, [stages.count], stages.stages),
            Err(number) => (number, [0], [[0; 10]; 14]),
        };
        assert_eq!((number, count, out), expected);
    }
}

#[test]
fn labels() {
    let names = [[0; 361], [1; 361]];
    for day in [0, 1, 2, 60, 61, u64::MAX] {
        for (theirs, house) in [(360, 360), (360, 0), (359, 360), (361, 360), (359, 361)] {
            let (theirs, house) = (&names[0][..theirs], &names[1][..house]);
            let mut out = [OTHER; 2];
            let number = fast::label(day, theirs, house, &mut out);
            let expected = xinghe::label(day, theirs, house).map(|name| {
                let list = &names[usize::from(name[0])];
                let from = name.as_ptr() as u64 - list.as_ptr() as u64;
                [u64::from(name[0]) + 1, from]
            });
            assert_eq!((number, out), numbered(expected));
        }
    }
    let mut list = [OTHER as u8; fast::LIST];
    assert_eq!(fast::ganzhi_names(&mut list), 0);
    assert_eq!(list, xinghe::ganzhi_names());
}
