//! What every calendar's functions answer with.

use crate::raw;

/// What is answered, or the number of the refusal.
pub type Answer<T> = Result<T, u64>;

/// Where a walk ends, in a calendar whose rows have so many numbers.
#[derive(Clone, Copy, Debug, PartialEq, Eq)]
pub struct Walk<const NUMBERS: usize = { raw::ROW }> {
    pub row: [u64; NUMBERS],
    /// The sum of the answered counts.
    pub sum: i64,
    /// How many counts were answered.
    pub answered: u64,
}

/// A year by value, in a calendar whose heads and rows have so many numbers.
#[derive(Clone, Copy, Debug, PartialEq, Eq)]
pub struct YearList<const HEAD: usize, const NUMBERS: usize> {
    pub head: [u64; HEAD],
    /// By place; zeros past the year's months.
    pub rows: [[u64; NUMBERS]; raw::YEAR_ROWS],
}

pub(crate) fn answer<const LENGTH: usize>(
    call: impl FnOnce(&mut [u64; LENGTH]) -> u64,
) -> Answer<[u64; LENGTH]> {
    let mut values = [0; LENGTH];
    match call(&mut values) {
        0 => Ok(values),
        number => Err(number),
    }
}

/// By a call that writes the last row and the totals.
pub(crate) fn walk<const NUMBERS: usize>(
    call: impl FnOnce(&mut [u64; NUMBERS], &mut [u64; 3]) -> u64,
) -> Answer<Walk<NUMBERS>> {
    let mut totals = [0; 3];
    let row = answer(|out| call(out, &mut totals))?;
    let [below, size, answered] = totals;
    Ok(Walk {
        row,
        sum: signed(below == 1, size),
        answered,
    })
}

/// No sum reaches past the calendar, so that its size is far within an `i64`.
fn signed(below: bool, size: u64) -> i64 {
    let size = i64::try_from(size).expect("a sum within the calendar");
    if below {
        -size
    } else {
        size
    }
}

/// By a call that writes the head and the rows.
pub(crate) fn year<const HEAD: usize, const NUMBERS: usize>(
    call: impl FnOnce(&mut [u64; HEAD], &mut [[u64; NUMBERS]; raw::YEAR_ROWS]) -> u64,
) -> Answer<YearList<HEAD, NUMBERS>> {
    let mut rows = [[0; NUMBERS]; raw::YEAR_ROWS];
    let head = answer(|head| call(head, &mut rows))?;
    Ok(YearList { head, rows })
}
