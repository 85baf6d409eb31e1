//! The moon's corrections, from a table worked out while compiling.

use super::moon::{full_moon, new_moon, split, HALF_AT_FULL};
use super::rows::{N, P};

const T: u64 = 5_745_941;
const SMALL_CIRCUIT: u64 = 7_513;

const RATES: [i64; 28] = [
    757, 689, 616, 545, 466, 315, 89, -139, -283, -390, -502, -618, -729, -816, -731, -646, -558,
    -445, -334, -214, -79, 63, 225, 388, 549, 674, 701, 734,
];

/// One day of the anomaly.
#[derive(Clone, Copy)]
struct Day {
    /// Size of the amount before the day.
    amount: i64,
    /// Size of the rate; negative where the day lowers the amount.
    change: i64,
    /// -1 or 1.
    sign: i64,
}

static DAYS: [Day; 28] = days();

const fn days() -> [Day; 28] {
    let mut days = [Day {
        amount: 0,
        change: 0,
        sign: 1,
    }; 28];
    let (mut sum, mut i) = (0, 0);
    while i < 28 {
        days[i] = day(i, sum);
        sum += RATES[i];
        i += 1;
    }
    days
}

const fn day(index: usize, sum: i64) -> Day {
    let twice = 2 * sum.unsigned_abs() * N;
    let rate = RATES[index].abs();
    let raises = matches!(index, 0..=6 | 14..=20);
    Day {
        amount: ((twice + SMALL_CIRCUIT) / (2 * SMALL_CIRCUIT)) as i64,
        change: if raises { rate } else { -rate },
        sign: if sum < 0 || index == 14 { -1 } else { 1 },
    }
}

/// How far a moon is in the round of the anomaly.
#[derive(Clone, Copy)]
pub struct Anomaly {
    parts: u64,
}

impl Anomaly {
    #[inline]
    pub fn at(instant: u64) -> Self {
        Self { parts: instant % T }
    }

    /// That of the next new moon. A month is a round and less than another.
    #[inline]
    pub fn next(self) -> Self {
        let sum = self.parts + P - T;
        Self {
            parts: if sum >= T { sum - T } else { sum },
        }
    }

    /// Day of the anomaly and its rest.
    #[inline]
    pub fn numbers(self) -> [u64; 2] {
        let [days, rest] = split(self.parts);
        [days + 1, rest]
    }
}

/// The anomaly's day and rest, the correction's sign and size, and the corrected
/// day and remainder, of the phase at an instant and half a part more or not.
#[inline]
fn corrected(instant: u64, half: u64, day_at: impl Fn(usize) -> Day) -> [u64; 6] {
    let [number, rest] = Anomaly::at(instant).numbers();
    let day = day_at(number as usize - 1);
    let change = day.change.unsigned_abs() * (2 * rest + half) / (2 * SMALL_CIRCUIT);
    let size = day.amount + change as i64 * day.change.signum();
    // No correction comes before day 0, and none is of a whole day.
    let moved = instant.wrapping_add_signed(-(day.sign * size));
    [
        number,
        rest,
        u64::from(day.sign * size < 0),
        size as u64,
        moved / N,
        moved % N,
    ]
}

#[inline]
fn both(lunation: u64, day_at: impl Fn(usize) -> Day) -> [u64; 14] {
    let new = corrected(new_moon(lunation), 0, &day_at);
    let full = corrected(full_moon(lunation), HALF_AT_FULL, &day_at);
    [
        new[0],
        new[1],
        new[2],
        new[3],
        new[4],
        new[5],
        full[0],
        full[1],
        HALF_AT_FULL,
        full[2],
        full[3],
        full[4],
        full[5],
        HALF_AT_FULL,
    ]
}

#[inline]
pub fn corrections(lunation: u64) -> [u64; 14] {
    both(lunation, |index| DAYS[index])
}

/// Without a table of amounts, as the library works: the rates are added up.
#[inline]
pub fn corrections_from_rates(lunation: u64) -> [u64; 14] {
    both(lunation, |index| day(index, RATES[..index].iter().sum()))
}
