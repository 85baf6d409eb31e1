//! The rates' part of the cases: every day by the printed rates and with its rate
//! changed, amounts of nothing, then the edges of the day, the list and the rates.

use crate::anomaly::{DAYS, PRINTED};
use crate::ask;
use crate::cases::{joined, line};

/// A list of so many rates, the printed ones over and over, in which that of one day
/// is replaced by another; day, rate and length. Without such a day none is replaced.
type List = (usize, i64, usize);

/// Day of the anomaly, rest and half.
type At = (u64, u64, u64);

const PRINTED_LIST: List = (0, 0, DAYS);

/// The beginning of the first day.
const FIRST: At = (1, 0, 0);

pub fn lines() -> Vec<String> {
    let days = 1..=DAYS as u64;
    let mut lines: Vec<String> = days.map(|day| answer(PRINTED_LIST, (day, 0, 0))).collect();
    lines.extend((1..=DAYS).flat_map(greatest));
    lines.extend(noughts());
    lines.extend(anomalies());
    lines.extend([0, 27, 29, 56].map(|length| answer((0, 0, length), FIRST)));
    lines.push(answer((0, 0, 27), (0, 0, 0)));
    lines.extend(outside());
    lines
}

/// By a day's greatest rate and its least.
fn greatest(day: usize) -> [String; 2] {
    [1_000, -1_000].map(|rate| answer((day, rate, DAYS), (day as u64, 115_630, 1)))
}

/// An amount lowered past nothing, and amounts of nothing or next to it that are raised.
fn noughts() -> [String; 4] {
    [
        ((14, -820, DAYS), (14, 208_529, 1)),
        ((14, -820, DAYS), (15, 0, 0)),
        ((15, 0, DAYS), (16, 208_529, 1)),
        ((14, -815, DAYS), (15, 208_529, 1)),
    ]
    .map(|(list, at)| answer(list, at))
}

/// Days, rests and halves at the edge.
fn anomalies() -> [String; 11] {
    [
        (0, 0, 0),
        (29, 0, 0),
        (u64::MAX, 0, 0),
        (1, 208_529, 1),
        (1, 208_530, 0),
        (1, u64::MAX, 0),
        (1, 0, 2),
        (1, 0, u64::MAX),
        (27, 208_529, 1),
        (28, 115_630, 1),
        (28, 115_631, 0),
    ]
    .map(|at| answer(PRINTED_LIST, at))
}

/// Rates that are too great, then one of them at a rest that is none.
fn outside() -> impl Iterator<Item = String> {
    let rates = [
        (1, 1_001),
        (28, 1_001),
        (1, -1_001),
        (28, -1_001),
        (7, i64::MIN),
        (7, i64::MAX),
    ];
    let first = rates.map(|(day, rate)| answer((day, rate, DAYS), FIRST));
    let last = answer((28, 1_001, DAYS), (28, 115_631, 0));
    first.into_iter().chain([last])
}

fn answer(list: List, (day, rest, half): At) -> String {
    let (changed, rate, length) = list;
    let answer = ask::correction_by_rates(&rates(list), day, rest, half)
        .map(|answer| joined(&[answer.amount, answer.correction]));
    let question = format!("rates {changed} {rate} {length} {day} {rest} {half}");
    line(question, answer)
}

fn rates((changed, rate, length): List) -> Vec<i64> {
    let printed = PRINTED.into_iter().cycle().take(length);
    let numbered = (1..).zip(printed);
    let rates = numbered.map(|(day, printed)| if day == changed { rate } else { printed });
    rates.collect()
}
