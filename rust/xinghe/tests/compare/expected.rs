//! The second program's answers in the order of include/xinghe.h.

use second::ask::Refusal;
use second::planets::Conjunctions;
use second::stages::Stage;
use second::{fields, Month};
use xinghe::{Row, Stages};

/// The round's last year, month and day.
pub const LAST_YEAR: u64 = second::numbers::ROUND_YEARS;
pub const LAST_MONTH: u64 = second::numbers::ROUND_MONTHS - 1;
pub const LAST_DAY: u64 = second::numbers::LAST_DAY;

/// The most months that a year has.
pub const MONTHS: usize = 13;

pub fn number<T>(answer: Result<T, Refusal>) -> Result<T, u64> {
    answer.map_err(|refusal| refusal as u64)
}

pub fn row(month: &Month) -> Row {
    fields::row(&month.row)
}

pub fn phases(month: &Month) -> [u64; 12] {
    joined(fields::phases(month).as_flattened(), &[])
}

pub fn nodes(month: &Month) -> [u64; 15] {
    joined(
        &fields::new_moon_node(month),
        &fields::full_moon_node(month),
    )
}

/// The second program gives a correction as one signed number.
pub fn corrections(month: &Month) -> [u64; 14] {
    let [day, rest, by, to_day, to_rest] = fields::new_moon_correction(month, 0);
    let new = [day, rest, i64::from(by < 0), by.abs(), to_day, to_rest];
    let [day, rest, half, by, to_day, to_rest, to_half] = fields::full_moon_correction(month, 0);
    let below = i64::from(by < 0);
    let full = [day, rest, half, below, by.abs(), to_day, to_rest, to_half];
    joined(&new.map(|n| n as u64), &full.map(|n| n as u64))
}

pub fn conjunctions(conjunctions: &Conjunctions) -> [u64; 10] {
    joined(fields::conjunctions(conjunctions).as_flattened(), &[])
}

/// The second program gives degrees as one signed number, and no places past
/// the last stage.
pub fn stages(stages: &[Stage]) -> Stages {
    let mut all = [[0; 10]; 14];
    for (place, stage) in all.iter_mut().zip(stages) {
        let numbers = fields::stage(stage);
        let degrees = numbers[2];
        let front = [numbers[0], numbers[1], i64::from(degrees < 0)];
        let front = front.map(|n| n as u64);
        let behind = numbers.map(i64::unsigned_abs);
        *place = joined(&front, &behind[2..]);
    }
    Stages {
        count: stages.len() as u64,
        stages: all,
    }
}

fn joined<const LENGTH: usize>(first: &[u64], second: &[u64]) -> [u64; LENGTH] {
    let mut all = [0; LENGTH];
    all[..first.len()].copy_from_slice(first);
    all[first.len()..].copy_from_slice(second);
    all
}
