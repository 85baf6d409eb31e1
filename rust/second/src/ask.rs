//! The questions of the rules paper with their refusals, answered by the walk.

use crate::anomaly::{self, ByRates};
use crate::checkpoints::Checkpoints;
use crate::counts::Count;
use crate::cuts;
use crate::fields::{self, RowNumbers};
use crate::instants::ASKED_CUTS;
use crate::planets::Conjunctions;
use crate::sixty;
use crate::stages::{self, Stage};
use crate::walker::{Month, Row, Year};

/// Why nothing is answered; the discriminant is the paper's number.
#[derive(Clone, Copy, Debug, PartialEq, Eq)]
pub enum Refusal {
    Year = 1,
    Place = 2,
    /// Of a month, of the sixty, or of the anomaly with its rest.
    NoSuchDay = 3,
    ForgedRow = 4,
    CarryOutside = 5,
    /// Or a lent buffer.
    ListTooShort = 6,
    DayNumber = 7,
    Cut = 8,
    Planet = 9,
    NoNames = 10,
    /// Empty, or no whole number of blocks; to be mended, also too many of them.
    Volume = 11,
    Block = 12,
    /// The year of a volume's first block is not known, or its run leaves the round.
    FirstYear = 13,
    /// Not one for each day of the anomaly, or one that is too great.
    Rates = 14,
}

impl Refusal {
    /// A span in the wrong order has the place's number.
    pub const ORDER: Self = Self::Place;
    /// So have years that are not in the volume, or in the wrong order.
    pub const NOT_IN_VOLUME: Self = Self::Place;
}

pub fn year(number: u64) -> Result<Year, Refusal> {
    Checkpoints::shared().year(number).ok_or(Refusal::Year)
}

pub fn month(number: u64, place: u64) -> Result<Month, Refusal> {
    let year = year(number)?;
    let found = year.months.iter().find(|month| month.row.place == place);
    found.copied().ok_or(Refusal::Place)
}

/// The number from the origin of a day of a month, and its day of the sixty;
/// the first day of a month is 1.
pub fn day_number(year: u64, place: u64, day_of_month: u64) -> Result<(u64, u64), Refusal> {
    let month = month(year, place)?;
    if !(1..=month.row.length).contains(&day_of_month) {
        return Err(Refusal::NoSuchDay);
    }
    let later = day_of_month - 1;
    Ok((month.row.day + later, sixty::days_on(month.sixty, later)))
}

/// The month in which a day lies, and the day of that month.
pub fn date(day: u64) -> Result<(Row, u64), Refusal> {
    let month = Checkpoints::shared().month_of_day(day);
    let row = month.ok_or(Refusal::DayNumber)?.row;
    Ok((row, day - row.day + 1))
}

/// The row carried by a signed count of months. It is handed in as numbers, any
/// of which may be wrong; the first names its month.
pub fn carry(row: &RowNumbers, count: i64) -> Result<RowNumbers, Refusal> {
    let lunation = row[0];
    if genuine(lunation).as_ref() != Some(row) {
        return Err(Refusal::ForgedRow);
    }
    lunation
        .checked_add_signed(count)
        .and_then(genuine)
        .ok_or(Refusal::CarryOutside)
}

/// The row of a month of the round.
pub fn genuine(lunation: u64) -> Option<RowNumbers> {
    let month = Checkpoints::shared().month(lunation)?;
    Some(fields::row(&month.row))
}

/// Writes the rows of a year to the front of a lent list and gives their count.
/// The rows past them stay as they were; refused, all of them do.
pub fn fill_year(number: u64, lent: &mut [RowNumbers]) -> Result<usize, Refusal> {
    let months = year(number)?.months;
    let front = lent.get_mut(..months.len());
    let front = front.ok_or(Refusal::ListTooShort)?;
    for (row, month) in front.iter_mut().zip(&months) {
        *row = fields::row(&month.row);
    }
    Ok(months.len())
}

/// Point `index` of the cut of a year in `points`.
pub fn cut_point(number: u64, points: u64, index: u64) -> Result<Count, Refusal> {
    let solstice = year(number)?.solstice;
    cuts::point(ASKED_CUTS, solstice, points, index).ok_or(Refusal::Cut)
}

/// The amount before a day of the anomaly and the correction at a rest of it, by any
/// list of rates. The day is looked at before the list.
pub fn correction_by_rates(
    rates: &[i64],
    day: u64,
    rest: u64,
    half: u64,
) -> Result<ByRates, Refusal> {
    let anomaly = anomaly::into_round(day, rest, half).ok_or(Refusal::NoSuchDay)?;
    let rates = anomaly::listed(rates).ok_or(Refusal::Rates)?;
    Ok(anomaly::by_rates(rates, anomaly))
}

/// A planet's conjunctions of a year.
pub fn conjunctions(number: u64, planet: u64) -> Result<Conjunctions, Refusal> {
    let year = year(number)?;
    Ok(year.conjunctions[index(planet)?])
}

/// A planet's stages, in order.
pub fn stages(planet: u64) -> Result<Vec<Stage>, Refusal> {
    index(planet).map(stages::of_planet)
}

/// Planets are numbered from 1.
fn index(planet: u64) -> Result<usize, Refusal> {
    match planet {
        1..=5 => Ok(planet as usize - 1),
        _ => Err(Refusal::Planet),
    }
}
