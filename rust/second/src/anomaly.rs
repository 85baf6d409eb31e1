//! The moon's correction from 28 signed rates, the printed ones or any others.

use crate::instants::Phase;
use crate::numbers::{N, SMALL_CIRCUIT};
use crate::spans::{carried, Span};

/// The days of the anomaly.
pub const DAYS: usize = 28;

/// A rate for each day.
pub type Rates = [i64; DAYS];

pub const PRINTED: Rates = [
    757, 689, 616, 545, 466, 315, 89, -139, -283, -390, -502, -618, -729, -816, -731, -646, -558,
    -445, -334, -214, -79, 63, 225, 388, 549, 674, 701, 734,
];

/// The greatest size of a rate.
pub const GREATEST_RATE: u64 = 1_000;

/// The least and the greatest correction by the printed rates.
const LEAST: i64 = -83_462;
const GREATEST: i64 = 96_507;

/// Parts over N with a rest in half parts over the small circuit, so that what
/// comes to half a part or less is kept in sums.
#[derive(Clone, Copy)]
struct Share {
    parts: u64,
    rest: u64,
}

/// A part, counted in the rests of a share.
const FULL: u64 = 2 * SMALL_CIRCUIT;

impl Share {
    const ZERO: Self = Self { parts: 0, rest: 0 };
    /// What a rate of 1 comes to in half a part.
    const LEAST: Self = Self { parts: 0, rest: 1 };
    /// What it comes to in a day.
    const DAY: Self = Self {
        parts: 27,
        rest: 11_358,
    };

    const fn plus(self, other: Self) -> Self {
        let (part, rest) = carried(self.rest + other.rest, FULL);
        Self {
            parts: self.parts + other.parts + part,
            rest,
        }
    }

    /// So many times over, by so many additions.
    const fn times(self, count: u64) -> Self {
        let mut sum = Self::ZERO;
        let mut i = 0;
        while i < count {
            sum = sum.plus(self);
            i += 1;
        }
        sum
    }

    const fn rounded_half_up(self) -> u64 {
        if self.rest + self.rest >= FULL {
            self.parts + 1
        } else {
            self.parts
        }
    }
}

// Checked while compiling: a day has 2 N half parts.
const _: () = assert!(Share::DAY.parts * FULL + Share::DAY.rest == 2 * N);

/// The doublings of half a part that are needed to make up any rest of a day.
const DOUBLINGS: usize = 19;
const _: () = assert!(2 * N <= 1 << DOUBLINGS);

/// One day of the treatise's table.
#[derive(Clone, Copy)]
struct TableDay {
    /// What the day's rate comes to in 1, 2, 4 and so on half parts.
    changes: [Share; DOUBLINGS],
    /// Absolute value of what has accumulated before the day.
    amount: u64,
    negative: bool,
    raises: bool,
}

impl TableDay {
    const UNFILLED: Self = Self {
        changes: [Share::ZERO; DOUBLINGS],
        amount: 0,
        negative: false,
        raises: false,
    };

    const fn of(rates: &Rates, index: usize) -> Self {
        let sum = sum_before(rates, index);
        let day = index + 1;
        Self {
            changes: doubled(Share::LEAST.times(rates[index].unsigned_abs())),
            amount: Share::DAY.times(sum.unsigned_abs()).rounded_half_up(),
            negative: sum < 0 || (sum == 0 && day == 15),
            raises: matches!(day, 1..=7 | 15..=21),
        }
    }

    /// What the day's rate comes to in the rest of an anomaly, made up of doublings.
    fn change(&self, anomaly: Span) -> u64 {
        let half_parts = anomaly.remainder + anomaly.remainder + anomaly.half;
        let mut sum = Share::ZERO;
        for (i, doubling) in self.changes.iter().enumerate() {
            // A sum that is always added and sometimes kept spares a jump that
            // nothing foretells.
            let more = sum.plus(*doubling);
            sum = if half_parts >> i & 1 == 1 { more } else { sum };
        }
        sum.parts
    }

    /// The amount changed by so much. One that is lowered by more than it has is
    /// used up.
    fn changed(&self, change: u64) -> i64 {
        let size = if self.raises {
            self.amount + change
        } else {
            self.amount.saturating_sub(change)
        };
        self.signed(size)
    }

    fn signed(&self, size: u64) -> i64 {
        let size = size as i64;
        if self.negative {
            -size
        } else {
            size
        }
    }
}

const fn sum_before(rates: &Rates, index: usize) -> i64 {
    let mut sum = 0;
    let mut i = 0;
    while i < index {
        sum += rates[i];
        i += 1;
    }
    sum
}

static TABLE: [TableDay; DAYS] = table(&PRINTED);

const fn table(rates: &Rates) -> [TableDay; DAYS] {
    let mut days = [TableDay::UNFILLED; DAYS];
    let mut i = 0;
    while i < DAYS {
        days[i] = TableDay::of(rates, i);
        i += 1;
    }
    days
}

// Checked while compiling: by the printed rates nothing has accumulated before days
// 1 and 15 alone, and a day raises where it leaves the sum larger.
const _: () = {
    let mut i = 0;
    while i < DAYS {
        let (before, after) = (sum_before(&PRINTED, i), sum_before(&PRINTED, i + 1));
        assert!((TABLE[i].amount == 0) == (i == 0 || i == 14));
        assert!(TABLE[i].raises == (after.unsigned_abs() > before.unsigned_abs()));
        i += 1;
    }
};

const fn doubled(least: Share) -> [Share; DOUBLINGS] {
    let mut doublings = [least; DOUBLINGS];
    let mut i = 1;
    while i < DOUBLINGS {
        doublings[i] = doublings[i - 1].plus(doublings[i - 1]);
        i += 1;
    }
    doublings
}

/// Where a day of the anomaly, counted from 1, and a rest of it stand in the round,
/// if they do.
pub fn into_round(day: u64, rest: u64, half: u64) -> Option<Span> {
    let anomaly = Span::new(day.checked_sub(1)?, rest, half);
    let stands = rest < N && half < 2 && anomaly < Span::ANOMALY_ROUND;
    stands.then_some(anomaly)
}

/// A list that has a rate for each day, none of them too great.
pub fn listed(rates: &[i64]) -> Option<&Rates> {
    let rates: &Rates = rates.try_into().ok()?;
    let mut sizes = rates.iter().map(|rate| rate.unsigned_abs());
    sizes.all(|size| size <= GREATEST_RATE).then_some(rates)
}

/// What has accumulated before a day, and the correction so far into it.
#[derive(Clone, Copy, Debug, PartialEq, Eq)]
pub struct ByRates {
    pub amount: i64,
    pub correction: i64,
}

/// At an anomaly of the round, by any rates.
pub fn by_rates(rates: &Rates, anomaly: Span) -> ByRates {
    let day = TableDay::of(rates, anomaly.whole as usize);
    ByRates {
        amount: day.signed(day.amount),
        correction: day.changed(day.change(anomaly)),
    }
}

/// The correction at one new or full moon, and the phase it gives. At new
/// moon both halves are 0.
#[derive(Clone, Copy, Debug, PartialEq, Eq)]
pub struct Correction {
    pub anomaly_day: u64,
    pub rest: u64,
    pub half: u64,
    pub correction: i64,
    pub day: u64,
    pub remainder: u64,
    pub day_half: u64,
}

/// The anomaly of the new moons, walked from month to month.
#[derive(Clone, Copy, Debug)]
pub struct AnomalyWalk {
    into_round: Span,
}

impl AnomalyWalk {
    pub const ORIGIN: Self = Self {
        into_round: Span::ZERO,
    };

    pub fn next(self) -> Self {
        Self {
            into_round: moved_on(self.into_round, Span::MONTH),
        }
    }

    pub fn new_moon(self, phase: Phase) -> Correction {
        corrected(self.into_round, phase)
    }

    /// Half a month on from the new moon.
    pub fn full_moon(self, phase: Phase) -> Correction {
        corrected(moved_on(self.into_round, Span::HALF_MONTH), phase)
    }
}

/// A month is longer than a round, so that two may have to be taken off.
fn moved_on(into_round: Span, way: Span) -> Span {
    let mut sum = into_round.plus(way);
    while sum >= Span::ANOMALY_ROUND {
        sum = sum.minus(Span::ANOMALY_ROUND);
    }
    sum
}

/// The correction at an anomaly, applied to the phase.
fn corrected(anomaly: Span, phase: Phase) -> Correction {
    let day = &TABLE[anomaly.whole as usize];
    let change = day.change(anomaly);
    assert!(day.raises || change <= day.amount, "lowered past nothing");
    let correction = day.changed(change);
    assert!((LEAST..=GREATEST).contains(&correction));
    let (day, remainder) = moved(phase, correction);
    Correction {
        anomaly_day: anomaly.whole + 1,
        rest: anomaly.remainder,
        half: anomaly.half,
        correction,
        day,
        remainder,
        day_half: half_of(phase),
    }
}

/// The half part of a phase that is a new or a full moon.
fn half_of(phase: Phase) -> u64 {
    match phase.quarters {
        0 => 0,
        2 => 1,
        _ => panic!("neither new nor full"),
    }
}

/// Takes the correction from the remainder and carries at most one day. The
/// half part stays as it is, since the correction is whole.
fn moved(phase: Phase, correction: i64) -> (u64, u64) {
    let full = N as i64;
    let remainder = phase.remainder as i64 - correction;
    let (step, remainder) = if remainder < 0 {
        (-1, remainder + full)
    } else if remainder >= full {
        (1, remainder - full)
    } else {
        (0, remainder)
    };
    assert!((0..full).contains(&remainder));
    let day = phase.day.checked_add_signed(step);
    (day.expect("a corrected day before day 0"), remainder as u64)
}
