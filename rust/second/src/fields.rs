//! A year's, a month's and a planet's answers as plain numbers, in the order in
//! which they are written. Nowhere else are the Xinghe's rows listed as numbers.

use crate::counts::Count;
use crate::nodes::Side;
use crate::planets::{Conjunction, Conjunctions};
use crate::stages::Stage;
use crate::walker::{Month, Row, Year};

/// Months before, leap remainder, months, leap place, day and remainder of the
/// solstice.
pub fn head(year: &Year) -> [u64; 6] {
    [
        year.months_before,
        year.leap_remainder,
        year.months.len() as u64,
        year.leap_place,
        year.solstice.whole,
        year.solstice.remainder,
    ]
}

/// How many numbers a row has.
pub const ROW: usize = 13;

/// A row as it is written out and handed in.
pub type RowNumbers = [u64; ROW];

pub fn row(row: &Row) -> RowNumbers {
    let moon = &row.moon;
    let mut numbers = [0; ROW];
    let (front, behind) = numbers.split_at_mut(8);
    front.copy_from_slice(&first_eight(row));
    behind.copy_from_slice(&[
        moon.since_node.whole,
        moon.since_node.remainder,
        side(moon.side),
        moon.anomaly_day,
        moon.anomaly_rest,
    ]);
    numbers
}

/// The numbers of a row that every calendar has.
pub fn first_eight<M>(row: &Row<M>) -> [u64; 8] {
    [
        row.lunation,
        row.year,
        row.place,
        row.number,
        u64::from(row.leap),
        row.day,
        row.remainder,
        row.length,
    ]
}

fn side(side: Side) -> u64 {
    match side {
        Side::AtNode => 0,
        Side::Outside => 1,
        Side::Inside => 2,
    }
}

/// Of any calendar's cut.
pub fn point(point: Count) -> [u64; 3] {
    [point.whole, point.remainder, point.rest]
}

/// Day, remainder and quarters of each of the four phases.
pub fn phases(month: &Month) -> [[u64; 3]; 4] {
    month
        .phases
        .map(|phase| [phase.day, phase.remainder, phase.quarters])
}

pub fn new_moon_node(month: &Month) -> [u64; 7] {
    let node = &month.new_moon_node;
    [
        node.distance.whole,
        node.distance.remainder,
        side(node.side),
        u64::from(node.eclipse.marked),
        node.eclipse.distance.whole,
        node.eclipse.distance.remainder,
        node.eclipse.size,
    ]
}

pub fn full_moon_node(month: &Month) -> [u64; 8] {
    let node = &month.full_moon_node;
    [
        node.distance.whole,
        node.distance.remainder,
        node.distance.half,
        u64::from(node.eclipse.marked),
        node.eclipse.distance.whole,
        node.eclipse.distance.remainder,
        node.eclipse.distance.half,
        node.eclipse.size,
    ]
}

/// `shift` is added to the correction: the digest takes no negative numbers.
pub fn new_moon_correction(month: &Month, shift: i64) -> [i64; 5] {
    let at = &month.new_moon_correction;
    [
        at.anomaly_day as i64,
        at.rest as i64,
        at.correction + shift,
        at.day as i64,
        at.remainder as i64,
    ]
}

/// `shift` as for the new moon.
pub fn full_moon_correction(month: &Month, shift: i64) -> [i64; 7] {
    let at = &month.full_moon_correction;
    [
        at.anomaly_day as i64,
        at.rest as i64,
        at.half as i64,
        at.correction + shift,
        at.day as i64,
        at.remainder as i64,
        at.day_half as i64,
    ]
}

/// Of the year's conjunction and of the one after it: days and remainder from
/// the solstice, day and remainder from the origin, kind.
pub fn conjunctions(conjunctions: &Conjunctions) -> [[u64; 5]; 2] {
    [conjunctions.first, conjunctions.second].map(conjunction)
}

fn conjunction(at: Conjunction) -> [u64; 5] {
    [
        at.from_solstice.whole,
        at.from_solstice.remainder,
        at.from_origin.whole,
        at.from_origin.remainder,
        at.twilight as u64,
    ]
}

/// Days, degrees, each with a remainder, the day's motion, kind, morning or
/// evening.
pub fn stage(stage: &Stage) -> [i64; 9] {
    [
        stage.days as i64,
        stage.days_remainder as i64,
        stage.degrees,
        stage.degrees_remainder as i64,
        stage.motion.whole as i64,
        stage.motion.numerator as i64,
        stage.motion.denominator as i64,
        stage.course as i64,
        stage.twilight as i64,
    ]
}
