//! Years, months and days.

use super::anomaly::Anomaly;
use super::chapter::{self, MonthsBefore};
use super::cuts::SunYear;
use super::moon::new_moon;
use super::node;

pub const N: u64 = 208_530;
pub const D: u64 = 16_860;
pub const P: u64 = 6_158_017;
pub const SUN_YEAR: SunYear = SunYear {
    parts: P,
    degree_divisor: D,
};

const LONG_FROM: u64 = 97_883;

/// Days of the sixty are counted from 1.
pub const SIXTY: u64 = 60;

pub const ROUND_YEARS: u64 = 1_011_600;
pub const ROUND_MONTHS: u64 = 12_511_800;
pub const ROUND_DAYS: u64 = 369_481_020;

/// A month's row in the order of include/xinghe.h.
pub const ROW: usize = 13;
pub type Row = [u64; ROW];

/// Middle terms lie P parts apart, of which a day has so many.
const TERM_DAY: u64 = 12 * D;

/// The day of the solstice after so many years.
#[inline]
pub fn solstice(past: u64) -> u64 {
    past * P / D
}

/// The month in which a day lies.
#[inline]
pub fn month_of(day: u64) -> u64 {
    (day * N + N - 1) / P
}

/// Whether a month begins on a day or before it.
#[inline]
pub fn begins_by(lunation: u64, day: u64) -> bool {
    lunation * P < (day + 1) * N
}

/// What the chapter's division leaves.
#[inline]
fn leap_remainder(past: u64) -> u64 {
    past * chapter::MONTHS % chapter::YEARS
}

/// The months of a year: twelve, and a thirteenth if the one after it begins by
/// the next solstice's day.
#[inline]
pub fn months(past: u64, before: u64) -> u64 {
    12 + u64::from(begins_by(before + 13, solstice(past + 1)))
}

/// The leap place of a year of thirteen months: the first whose term falls on
/// the next new moon's day or later. By instants it comes after `last`, which one
/// division gives. A term gains nine tenths of a day on the new moon from place
/// to place, so that by days it may also be `last` or the place before.
#[inline]
pub fn leap_place(past: u64, before: u64) -> u64 {
    // From the solstice to the next new moon, a month being 562.
    let gap = chapter::YEARS - leap_remainder(past);
    let last = (12 * gap - 1) / chapter::LEAPS;
    let is_behind = |places_back| {
        let next_day = (before + last + 1 - places_back) * P / N;
        (12 * past + last - places_back) * P >= next_day * TERM_DAY
    };
    last + 1 - u64::from(is_behind(0)) - u64::from(is_behind(1))
}

/// The years before a year.
#[inline]
pub fn past(year: u64) -> Result<u64, u64> {
    if !(1..=ROUND_YEARS).contains(&year) {
        return Err(1);
    }
    Ok(year - 1)
}

#[inline]
pub fn head<B: MonthsBefore>(number: u64) -> Result<[u64; 6], u64> {
    let past = past(number)?;
    let before = B::months_before(past);
    let months = months(past, before);
    Ok([
        before,
        leap_remainder(past),
        months,
        // Worked out for every year, as a jump would often be guessed wrongly.
        leap_place(past, before) * (months - 12),
        solstice(past),
        past * P % D,
    ])
}

#[inline]
pub fn lunation<B: MonthsBefore>(number: u64, place: u64) -> Result<u64, u64> {
    let past = past(number)?;
    let before = B::months_before(past);
    // The thirteenth month is seldom asked for, and only then looked for.
    if place < 12 || place == 12 && months(past, before) == 13 {
        Ok(before + place)
    } else {
        Err(2)
    }
}

/// The number of the month that holds the term so many after the solstice.
#[inline]
pub fn number(term: u64) -> u64 {
    if term < 2 {
        term + 11
    } else {
        term - 1
    }
}

#[inline]
pub fn length(remainder: u64) -> u64 {
    29 + u64::from(remainder >= LONG_FROM)
}

/// What a row takes from the moon.
#[derive(Clone, Copy)]
struct NewMoon {
    lunation: u64,
    day: u64,
    remainder: u64,
    node: node::NewMoon,
    anomaly: Anomaly,
}

impl NewMoon {
    #[inline]
    fn of(lunation: u64) -> Self {
        let instant = new_moon(lunation);
        Self {
            lunation,
            day: instant / N,
            remainder: instant % N,
            node: node::NewMoon::of(lunation),
            anomaly: Anomaly::at(instant),
        }
    }

    /// The monthly additions.
    #[inline]
    fn next(self) -> Self {
        let length = self.length();
        Self {
            lunation: self.lunation + 1,
            day: self.day + length,
            remainder: self.remainder + P - length * N,
            node: self.node.next(),
            anomaly: self.anomaly.next(),
        }
    }

    #[inline]
    fn length(&self) -> u64 {
        length(self.remainder)
    }

    /// The row, where it is also known whether the place's term falls after its
    /// month and whether the month is leap.
    #[inline]
    fn row(&self, past: u64, place: u64, behind: bool, leap: bool) -> Row {
        let [degrees, parts, side] = self.node.numbers();
        let [anomaly_day, rest] = self.anomaly.numbers();
        [
            self.lunation,
            past + 1,
            place,
            number(place - u64::from(behind)),
            u64::from(leap),
            self.day,
            self.remainder,
            self.length(),
            degrees,
            parts,
            side,
            anomaly_day,
            rest,
        ]
    }
}

#[inline]
pub fn row_at(past: u64, place: u64, lunation: u64) -> Row {
    let moon = NewMoon::of(lunation);
    let term = (12 * past + place) * P;
    // From the leap month on, a place's term falls after its month; the leap
    // month comes after the term before, too. Both are worked out for every
    // month, as a jump would often be guessed wrongly.
    let behind = term >= (moon.day + moon.length()) * TERM_DAY;
    let leap = behind & (term < moon.day * TERM_DAY + P);
    moon.row(past, place, behind, leap)
}

/// The row of a month of the round.
#[inline]
pub fn row_of<B: MonthsBefore>(lunation: u64) -> Row {
    let past = past_of(lunation);
    row_at(past, lunation - B::months_before(past), lunation)
}

/// The years before that of a month, the last whose solstice falls on a day
/// before the next month's first.
#[inline]
fn past_of(lunation: u64) -> u64 {
    let next_day = (lunation + 1) * P / N;
    (next_day * D - 1) / P
}

#[inline]
pub fn day<B: MonthsBefore>(year: u64, place: u64, day: u64) -> Result<[u64; 2], u64> {
    let lunation = lunation::<B>(year, place)?;
    let index = day.wrapping_sub(1);
    if index >= length(lunation * P % N) {
        return Err(3);
    }
    let number = lunation * P / N + index;
    Ok([number, number % SIXTY + 1])
}

#[inline]
pub fn date<B: MonthsBefore>(number: u64) -> Result<[u64; 3], u64> {
    if number >= ROUND_DAYS {
        return Err(7);
    }
    let lunation = month_of(number);
    let past = past_of(lunation);
    let place = lunation - B::months_before(past);
    Ok([past + 1, place, number - lunation * P / N + 1])
}

#[inline]
pub fn phases(lunation: u64) -> [u64; 12] {
    let mut all = [0; 12];
    for (quarter, phase) in all.chunks_exact_mut(3).enumerate() {
        let quarters = (4 * lunation + quarter as u64) * P;
        phase[0] = quarters / (4 * N);
        phase[1] = quarters / 4 % N;
        phase[2] = quarters % 4;
    }
    all
}

#[inline]
pub fn fill<B: MonthsBefore>(number: u64, out: &mut [u64]) -> u64 {
    let past = match past(number) {
        Ok(past) => past,
        Err(number) => return number,
    };
    let before = B::months_before(past);
    let (rows, _) = out.as_chunks_mut();
    let months = months(past, before);
    let Some(rows) = rows.get_mut(..months as usize) else {
        return 6;
    };
    // With a loop for each, the numbers in a year of twelve months are constants.
    if months == 12 {
        step_rows::<12>(rows, past, before, 13);
    } else {
        step_rows::<13>(rows, past, before, leap_place(past, before));
    }
    0
}

/// From row to row by additions; a year lies in one era.
#[inline(always)]
fn step_rows<const COUNT: u64>(rows: &mut [Row], past: u64, before: u64, leap: u64) {
    let mut moon = NewMoon::of(before);
    for (place, row) in (0..COUNT).zip(rows) {
        *row = moon.row(past, place, place >= leap, place == leap);
        moon = moon.next();
    }
}
