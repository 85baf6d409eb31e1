//! The plain Rust's other calendars against the second program's, refusals included.

use bench::fast::{Boundary, Calendar, Linde, Zhengguang};
use second::ask::Refusal;
use second::calendars::fields::{self, Numbers};
use second::calendars::{ask, Checkpoints, LINDE, ZHENGGUANG};

const OTHER: u64 = 7;

/// A number returned, and what was written.
type Called = (u64, Numbers);

/// The functions of a calendar; what they write comes in one list.
struct Fast {
    walked: &'static Checkpoints,
    calendar: Calendar,
    head: fn(u64) -> Called,
    row: fn(u64, u64) -> Called,
    day: fn(u64, u64, u64) -> Called,
    date: fn(u64) -> Called,
    carry: fn(&[u64], i64) -> Called,
    walk: fn(&[u64], &[i64]) -> Called,
    year: fn(u64) -> Called,
    cut: fn(u64, u64, u64) -> Called,
}

fn called<const LENGTH: usize>(call: impl FnOnce(&mut [u64; LENGTH]) -> u64) -> Called {
    let mut out = [OTHER; LENGTH];
    let number = call(&mut out);
    (number, out.to_vec())
}

fn called_walk<const ROW: usize>(
    call: impl FnOnce(&mut [u64; ROW], &mut [u64; 3]) -> u64,
) -> Called {
    let mut totals = [OTHER; 3];
    let (number, row) = called(|out| call(out, &mut totals));
    (number, [&row[..], &totals].concat())
}

fn called_year<const HEAD: usize, const ROW: usize>(
    call: impl FnOnce(&mut [u64; HEAD], &mut [[u64; ROW]; 13]) -> u64,
) -> Called {
    let mut rows = [[OTHER; ROW]; 13];
    let (number, head) = called(|out| call(out, &mut rows));
    (number, [&head[..], rows.as_flattened()].concat())
}

fn row<const ROW: usize>(numbers: &[u64]) -> [u64; ROW] {
    numbers.try_into().expect("a row of the calendar")
}

fn fast<C: Boundary<HEAD, ROW>, const HEAD: usize, const ROW: usize>(
    walked: &'static Checkpoints,
) -> Fast {
    Fast {
        walked,
        calendar: C::CALENDAR,
        head: |year| called(|out| C::year_head(year, out)),
        row: |year, place| called(|out| C::month_row(year, place, out)),
        day: |year, place, day| called(|out| C::day_of_date(year, place, day, out)),
        date: |day| called(|out| C::date_of_day(day, out)),
        carry: |from, count| called(|out| C::carry(&row(from), count, out)),
        walk: |from, counts| called_walk(|out, totals| C::walk(&row(from), counts, out, totals)),
        year: |year| called_year(|head, rows| C::year(year, head, rows)),
        cut: |year, cut, index| called(|out| C::cut_point(year, cut, index, out)),
    }
}

fn both() -> [Fast; 2] {
    [
        fast::<Zhengguang, _, _>(&ZHENGGUANG),
        fast::<Linde, _, _>(&LINDE),
    ]
}

/// What is returned and written for a walked answer, zeros where it is refused.
fn expected(answer: Result<Numbers, Refusal>, length: usize) -> Called {
    match answer {
        Ok(numbers) => (0, numbers),
        Err(refusal) => (refusal as u64, vec![0; length]),
    }
}

/// Years throughout the calendar, at its ends and outside.
fn years(calendar: Calendar) -> impl Iterator<Item = u64> {
    let Calendar {
        first_year,
        last_year,
        ..
    } = calendar;
    let throughout = (first_year..=last_year).step_by(97);
    let ends = (first_year..first_year + 60).chain(last_year - 60..last_year + 3);
    throughout.chain(ends).chain([0, 1 << 32, u64::MAX])
}

#[test]
fn ends() {
    for fast in both() {
        let Calendar { months, days, .. } = fast.calendar;
        assert_eq!((months, days), (fast.walked.months(), fast.walked.days()));
    }
}

#[test]
fn years_and_months() {
    for fast in both() {
        for number in years(fast.calendar) {
            let year = ask::year(fast.walked, number);
            let head = year.as_ref().map(fields::head).map_err(|refusal| *refusal);
            let called = (fast.head)(number);
            assert_eq!(called, expected(head.clone(), called.1.len()));
            let list = year.map(|year| [fields::head(&year), fields::list(&year).concat()]);
            let called = (fast.year)(number);
            assert_eq!(
                called,
                expected(list.map(|list| list.concat()), called.1.len())
            );
            for place in (0..14).chain([u64::MAX]) {
                let month = ask::month(fast.walked, number, place);
                let called = (fast.row)(number, place);
                let row = month.map(|month| fields::row(&month.row));
                assert_eq!(called, expected(row, called.1.len()));
            }
        }
    }
}

#[test]
fn dates() {
    for fast in both() {
        let days = fast.calendar.days;
        let ends = (0..800).chain(days - 800..days + 2);
        let throughout = (0..days).step_by(14_983);
        for day in ends.chain(throughout).chain([1 << 32, u64::MAX]) {
            let date = ask::date(fast.walked, day).map(Vec::from);
            assert_eq!((fast.date)(day), expected(date, 3));
        }
    }
}

#[test]
fn days_of_months() {
    for fast in both() {
        for year in years(fast.calendar).step_by(7) {
            for place in 0..14 {
                for day in [0, 1, 29, 30, 31, u64::MAX] {
                    let number = ask::day_number(fast.walked, year, place, day);
                    let called = (fast.day)(year, place, day);
                    assert_eq!(called, expected(number.map(Vec::from), 2));
                }
            }
        }
    }
}

#[test]
fn cuts() {
    for fast in both() {
        for year in years(fast.calendar).step_by(7) {
            for cut in [0, 24, 25, 60, 72, 24 << 32, u64::MAX] {
                for index in [0, 1, 23, 24, 59, 60, 71, 72, u64::MAX] {
                    let point = ask::cut_point(fast.walked, year, cut, index);
                    let point = point.map(|point| fields::point(point).to_vec());
                    assert_eq!((fast.cut)(year, cut, index), expected(point, 3));
                }
            }
        }
    }
}

#[test]
fn nodes() {
    for year in years(Zhengguang::CALENDAR).step_by(7) {
        for place in (0..14).chain([u64::MAX]) {
            let month = ask::month(&ZHENGGUANG, year, place);
            let nodes = month.map(|month| fields::nodes(&month).expect("nodes").to_vec());
            let called = called(|out| Zhengguang::nodes(year, place, out));
            assert_eq!(called, expected(nodes, 6));
        }
    }
}

/// From rows throughout the calendar to its ends, past them and elsewhere.
#[test]
fn carries() {
    for fast in both() {
        let last = fast.calendar.months - 1;
        for lunation in (0..=last).step_by(9_973).chain([last]) {
            let row = ask::genuine(fast.walked, lunation).expect("a month");
            let (to_first, to_last) = (-(lunation as i64), (last - lunation) as i64);
            let ends = [to_first, to_first - 1, to_last, to_last + 1];
            for count in ends.into_iter().chain([0, 1, -13, i64::MIN, i64::MAX]) {
                let carried = ask::carry(fast.walked, &row, count);
                assert_eq!((fast.carry)(&row, count), expected(carried, row.len()));
            }
        }
    }
}

/// To the ends, past them and back, and by no count at all.
#[test]
fn walks() {
    for fast in both() {
        let last = fast.calendar.months - 1;
        let end = last as i64;
        let counts = [-1, end, 1, i64::MIN, -end, 7, -8, i64::MAX, end + 1, -2, 0];
        for lunation in (0..=last).step_by(99_991).chain([last]) {
            let row = ask::genuine(fast.walked, lunation).expect("a month");
            for length in 0..=counts.len() {
                let counts = &counts[..length];
                let end = ask::walk(fast.walked, &row, counts).expect("a genuine row");
                let totals = [u64::from(end.sum < 0), end.sum.unsigned_abs(), end.answered];
                let written = [&end.row[..], &totals].concat();
                assert_eq!((fast.walk)(&row, counts), (0, written));
            }
        }
    }
}

/// Each number changed in turn, and rows of no month.
#[test]
fn forged_rows() {
    for fast in both() {
        let months = fast.calendar.months;
        for lunation in [0, 32, months / 2, months - 1] {
            let genuine = ask::genuine(fast.walked, lunation).expect("a month");
            for index in 0..genuine.len() {
                for change in [1, 2, 1 << 32, u64::MAX] {
                    let mut forged = genuine.clone();
                    forged[index] = forged[index].wrapping_add(change);
                    assert_refused(&fast, &forged);
                }
            }
            let mut past = vec![0; genuine.len()];
            past[0] = months;
            assert_refused(&fast, &past);
            assert_refused(&fast, &vec![u64::MAX; genuine.len()]);
        }
    }
}

fn assert_refused(fast: &Fast, forged: &[u64]) {
    let zeros = vec![0; forged.len() + 3];
    assert_eq!((fast.walk)(forged, &[1, -1]), (4, zeros.clone()));
    assert_eq!((fast.carry)(forged, 0), (4, zeros[3..].to_vec()));
}
