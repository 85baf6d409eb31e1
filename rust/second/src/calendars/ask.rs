//! The questions about a calendar with their refusals, answered by the walk.

use super::checkpoints::Checkpoints;
use super::fields::{self, Numbers};
use super::walker::{Month, Year};
use crate::ask::Refusal;
use crate::counts::Count;
use crate::cuts;
use crate::sixty;

pub fn year(walked: &Checkpoints, number: u64) -> Result<Year, Refusal> {
    walked.year(number).ok_or(Refusal::Year)
}

pub fn month(walked: &Checkpoints, number: u64, place: u64) -> Result<Month, Refusal> {
    let year = year(walked, number)?;
    let found = year.months.iter().find(|month| month.row.place == place);
    found.copied().ok_or(Refusal::Place)
}

/// The number from the origin of a day of a month, and its day of the sixty; the
/// first day of a month is 1.
pub fn day_number(
    walked: &Checkpoints,
    year: u64,
    place: u64,
    day_of_month: u64,
) -> Result<[u64; 2], Refusal> {
    let month = month(walked, year, place)?;
    if !(1..=month.row.length).contains(&day_of_month) {
        return Err(Refusal::NoSuchDay);
    }
    let later = day_of_month - 1;
    Ok([month.row.day + later, sixty::days_on(month.sixty, later)])
}

/// Year, place and day of the month of a day.
pub fn date(walked: &Checkpoints, day: u64) -> Result<[u64; 3], Refusal> {
    let month = walked.month_of_day(day).ok_or(Refusal::DayNumber)?;
    let row = month.row;
    Ok([row.year, row.place, day - row.day + 1])
}

/// Point `index` of the cut of a year in `points`.
pub fn cut_point(
    walked: &Checkpoints,
    number: u64,
    points: u64,
    index: u64,
) -> Result<Count, Refusal> {
    let solstice = year(walked, number)?.solstice;
    cuts::point(walked.calendar.cuts, solstice, points, index).ok_or(Refusal::Cut)
}

/// The row of a month of the calendar.
pub fn genuine(walked: &Checkpoints, lunation: u64) -> Option<Numbers> {
    let month = walked.month(lunation)?;
    Some(fields::row(&month.row))
}

/// The month that a row names, where all its numbers are that month's.
fn tested(walked: &Checkpoints, row: &[u64]) -> Result<u64, Refusal> {
    let lunation = row[0];
    match genuine(walked, lunation) {
        Some(genuine) if genuine == row => Ok(lunation),
        _ => Err(Refusal::ForgedRow),
    }
}

/// The month so many months on, where the calendar has it.
fn moved(walked: &Checkpoints, lunation: u64, count: i64) -> Option<u64> {
    let next = lunation.checked_add_signed(count);
    next.filter(|next| *next < walked.months())
}

/// The row carried by a signed count of months. It is handed in as numbers, any of
/// which may be wrong; the first names its month.
pub fn carry(walked: &Checkpoints, row: &[u64], count: i64) -> Result<Numbers, Refusal> {
    let lunation = tested(walked, row)?;
    moved(walked, lunation, count)
        .and_then(|next| genuine(walked, next))
        .ok_or(Refusal::CarryOutside)
}

/// Where a walk ends.
#[derive(Clone, Debug, PartialEq, Eq)]
pub struct Walk {
    pub row: Numbers,
    /// The sum of the answered counts, and how many they are.
    pub sum: i64,
    pub answered: u64,
}

/// The row carried by each of the counts in turn; those that would lead outside are
/// passed over.
pub fn walk(walked: &Checkpoints, row: &[u64], counts: &[i64]) -> Result<Walk, Refusal> {
    let mut lunation = tested(walked, row)?;
    let (mut sum, mut answered) = (0, 0);
    for &count in counts {
        if let Some(next) = moved(walked, lunation, count) {
            lunation = next;
            sum += count;
            answered += 1;
        }
    }
    Ok(Walk {
        row: genuine(walked, lunation).expect("a month of the calendar"),
        sum,
        answered,
    })
}
