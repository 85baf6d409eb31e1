//! Inputs for the jobs that every calendar has.

use std::ops::RangeInclusive;

use crate::inputs::{some, Random, COUNT};

const WALKS: usize = 64;
const STEPS: usize = 1_000;

/// For a calendar whose rows have so many numbers.
pub struct CalendarInputs<const ROW: usize> {
    pub months: Vec<(u64, u64)>,
    pub dates: Vec<(u64, u64, u64)>,
    pub days: Vec<u64>,
    pub carries: Vec<([u64; ROW], i64)>,
    pub walks: Vec<([u64; ROW], Vec<i64>)>,
    pub years: Vec<u64>,
    pub points: Vec<(u64, u64, u64)>,
}

/// What they are drawn from.
pub struct Draw<const ROW: usize> {
    pub random: Random,
    pub years: RangeInclusive<u64>,
    pub months: u64,
    pub days: u64,
    /// By it places and rows are found.
    pub month_row: extern "C" fn(u64, u64, &mut [u64; ROW]) -> u64,
}

impl<const ROW: usize> Draw<ROW> {
    pub fn year(&mut self) -> u64 {
        let (first, last) = (self.years.start(), self.years.end());
        first + self.random.below(last - first + 1)
    }

    /// Where the year has that place.
    fn row_at(&self, year: u64, place: u64) -> Option<[u64; ROW]> {
        let mut row = [0; ROW];
        ((self.month_row)(year, place, &mut row) == 0).then_some(row)
    }

    fn month(&mut self) -> (u64, u64) {
        let year = self.year();
        let months = 12 + u64::from(self.row_at(year, 12).is_some());
        (year, self.random.below(months))
    }

    fn row(&mut self) -> [u64; ROW] {
        let (year, place) = self.month();
        self.row_at(year, place).expect("a month of the calendar")
    }

    fn date(&mut self) -> (u64, u64, u64) {
        let (year, place) = self.month();
        (year, place, 1 + self.random.below(29))
    }

    /// To a month of the calendar.
    fn carry(&mut self) -> ([u64; ROW], i64) {
        let row = self.row();
        let to = self.random.below(self.months);
        (row, to as i64 - row[0] as i64)
    }

    /// Steps of up to a million months either way; some lead outside.
    fn walk(&mut self) -> ([u64; ROW], Vec<i64>) {
        let counts = some(STEPS, || self.random.below(2_000_001) as i64 - 1_000_000);
        (self.row(), counts)
    }

    fn point(&mut self) -> (u64, u64, u64) {
        let cut = [24, 60, 72][self.random.below(3) as usize];
        (self.year(), cut, self.random.below(cut))
    }

    pub fn inputs(&mut self) -> CalendarInputs<ROW> {
        CalendarInputs {
            months: some(COUNT, || self.month()),
            dates: some(COUNT, || self.date()),
            days: some(COUNT, || self.random.below(self.days)),
            carries: some(COUNT, || self.carry()),
            walks: some(WALKS, || self.walk()),
            years: some(COUNT, || self.year()),
            points: some(COUNT, || self.point()),
        }
    }
}
