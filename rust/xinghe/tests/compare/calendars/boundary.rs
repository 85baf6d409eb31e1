//! The safe functions held to the boundary itself, which is lent arrays that hold other
//! numbers before.

use second::calendars::ask;
use second::calendars::fields::Numbers;
use xinghe::{Answer, Walk, YearList};

use crate::expected::MONTHS;
use crate::sentinels::{called, written, Lent, SENTINEL};

/// A year's head and the rows of its list.
pub type YearNumbers = (Numbers, Vec<Numbers>);

/// A row of the second program, which has as many numbers as the library's.
pub fn of_row<const ROW: usize>(row: &[u64]) -> [u64; ROW] {
    row.try_into().expect("a row of the calendar")
}

#[track_caller]
pub fn same<const LENGTH: usize>(
    safe: Answer<[u64; LENGTH]>,
    call: impl FnOnce(&mut [u64; LENGTH]) -> u64,
) -> Answer<[u64; LENGTH]> {
    assert_eq!(called(call), written(safe));
    safe
}

/// Both arrays of a walk, of which a refusal leaves zeros alone.
#[track_caller]
pub fn same_walk<const ROW: usize>(
    safe: Answer<Walk<ROW>>,
    call: impl FnOnce(&mut [u64; ROW], &mut [u64; 3]) -> u64,
) -> Answer<ask::Walk> {
    let mut totals = Lent::new([SENTINEL; 3]);
    let (number, row) = called(|out| call(out, &mut totals.out));
    let expected = match &safe {
        Ok(end) => {
            let below = u64::from(end.sum < 0);
            let totals = [below, end.sum.unsigned_abs(), end.answered];
            (0, end.row, totals)
        }
        Err(number) => (*number, [0; ROW], [0; 3]),
    };
    assert_eq!((number, row, totals.given_back()), expected);
    safe.map(|end| ask::Walk {
        row: end.row.to_vec(),
        sum: end.sum,
        answered: end.answered,
    })
}

/// Head and rows of a year by value.
#[track_caller]
pub fn same_year<const HEAD: usize, const ROW: usize>(
    safe: Answer<YearList<HEAD, ROW>>,
    call: impl FnOnce(&mut [u64; HEAD], &mut [[u64; ROW]; MONTHS]) -> u64,
) -> Answer<YearNumbers> {
    let mut rows = Lent::new([[SENTINEL; ROW]; MONTHS]);
    let (number, head) = called(|head| call(head, &mut rows.out));
    let expected = match &safe {
        Ok(list) => (0, list.head, list.rows),
        Err(number) => (*number, [0; HEAD], [[0; ROW]; MONTHS]),
    };
    assert_eq!((number, head, rows.given_back()), expected);
    safe.map(|list| (list.head.to_vec(), list.rows.map(Vec::from).to_vec()))
}
