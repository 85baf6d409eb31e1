//! The correction by any rates, against multiplication and division.

use second::anomaly::{ByRates, Rates, DAYS, PRINTED};
use second::ask::{self, Refusal};
use second::numbers::{N, SMALL_CIRCUIT, T};
use second::{Month, Walker};

/// Numbers that look random and are the same in every run.
struct Random(u64);

impl Random {
    /// The upper half of the state, whose lower bits repeat soon.
    fn below(&mut self, limit: u64) -> u64 {
        let multiplied = self.0.wrapping_mul(6_364_136_223_846_793_005);
        self.0 = multiplied.wrapping_add(1_442_695_040_888_963_407);
        (self.0 >> 32) % limit
    }

    fn rates(&mut self) -> Rates {
        [0; DAYS].map(|_| self.below(2_001) as i64 - 1_000)
    }
}

fn asked(rates: &Rates, day: u64, rest: u64, half: u64) -> (i64, i64) {
    let ByRates { amount, correction } = ask::correction_by_rates(rates, day, rest, half).unwrap();
    (amount, correction)
}

/// How many rests a day has.
fn rests(day: u64) -> u64 {
    N.min(T - (day - 1) * N)
}

/// As the paper has it, by multiplication and division.
fn divided(rates: &Rates, day: u64, rest: u64, half: u64) -> (i64, i64) {
    let (before, now) = (day as usize - 1, rates[day as usize - 1]);
    let sum: i64 = rates[..before].iter().sum();
    let amount = (2 * sum.unsigned_abs() * N + SMALL_CIRCUIT) / (2 * SMALL_CIRCUIT);
    let change = now.unsigned_abs() * (2 * rest + half) / (2 * SMALL_CIRCUIT);
    let size = match day {
        1..=7 | 15..=21 => amount + change,
        _ if change > amount => 0,
        _ => amount - change,
    };
    let sign = match sum.signum() {
        0 if day == 15 => -1,
        0 => 1,
        sign => sign,
    };
    (sign * amount as i64, sign * size as i64)
}

fn compare_list(random: &mut Random, rates: &Rates) {
    for day in 1..=DAYS as u64 {
        let last = rests(day) - 1;
        let drawn = [0; 8].map(|_| random.below(last + 1));
        for rest in [0, 1, last - 1, last].into_iter().chain(drawn) {
            for half in [0, 1] {
                let divided = divided(rates, day, rest, half);
                let at = (rates, day, rest, half);
                assert_eq!(asked(rates, day, rest, half), divided, "{at:?}");
            }
        }
    }
}

#[test]
fn added_and_divided() {
    let mut random = Random(1);
    for rates in [PRINTED, [1_000; DAYS], [-1_000; DAYS], [0; DAYS]] {
        compare_list(&mut random, &rates);
    }
    for _ in 0..500 {
        let rates = random.rates();
        compare_list(&mut random, &rates);
    }
}

/// Every sum that the rates before the last day can come to.
#[test]
fn amounts_of_every_sum() {
    for sum in 0..=27_000 {
        let mut left = sum;
        let mut rates = [0; DAYS];
        for rate in &mut rates[..27] {
            *rate = left.min(1_000);
            left -= *rate;
        }
        let (amount, _) = divided(&rates, 28, 0, 0);
        assert_eq!(asked(&rates, 28, 0, 0), (amount, amount), "{sum}");
        let below = rates.map(|rate| -rate);
        assert_eq!(asked(&below, 28, 0, 0), (-amount, -amount), "{sum}");
    }
}

/// Those of the days at which the paper does not follow the print, and the greatest.
#[test]
fn printed_amounts() {
    let amount = |day| asked(&PRINTED, day, 0, 0).0;
    assert_eq!([4, 18, 22].map(amount), [57_233, -53_708, -83_462]);
    assert_eq!((1..=28).map(amount).min(), Some(-83_462));
    assert_eq!((1..=28).map(amount).max(), Some(96_507));
}

/// By the printed rates it is the correction of the new and full moons.
#[test]
fn moons_of_the_walk() {
    let compare = |month: &Month| {
        for at in [&month.new_moon_correction, &month.full_moon_correction] {
            let (_, correction) = asked(&PRINTED, at.anomaly_day, at.rest, at.half);
            assert_eq!(correction, at.correction);
        }
    };
    for year in Walker::from_origin().take(500) {
        year.months.iter().for_each(compare);
    }
}

/// A rate of 1 or -1 on the first day comes to 28, which day 8 soon uses up. It does not
/// come back on the other side.
#[test]
fn lowered_past_nothing() {
    for first in [1, -1] {
        for eighth in [1_000, -1_000] {
            let mut rates = [0; DAYS];
            (rates[0], rates[7]) = (first, eighth);
            let correction = |rest| asked(&rates, 8, rest, 0).1;
            assert_eq!(asked(&rates, 8, 0, 0), (28 * first, 28 * first));
            assert_eq!(correction(202), 2 * first);
            assert_eq!(correction(203), first);
            assert_eq!([211, 219, 100_000, N - 1].map(correction), [0; 4]);
        }
    }
}

/// A single rate raises nothing to the same size on every day that raises, on day 15
/// below nothing; on the others nothing is left.
#[test]
fn signs_of_a_raised_nought() {
    let size = (1_000 * 100_000 / SMALL_CIRCUIT) as i64;
    for day in 1..=DAYS as u64 {
        for rate in [1_000, -1_000] {
            let mut rates = [0; DAYS];
            rates[day as usize - 1] = rate;
            let raised = match day {
                15 => -size,
                1..=7 | 16..=21 => size,
                _ => 0,
            };
            assert_eq!(asked(&rates, day, 100_000, 0), (0, raised));
        }
    }
}

#[test]
fn refused_days_and_rests() {
    let refused = [
        (0, 0, 0),
        (29, 0, 0),
        (u64::MAX, 0, 0),
        (1, N, 0),
        (27, N, 0),
        (28, rests(28), 0),
        (28, N - 1, 1),
        (1, u64::MAX, 0),
        (1, 0, 2),
        (28, 0, u64::MAX),
    ];
    for (day, rest, half) in refused {
        for rates in [&PRINTED[..], &PRINTED[1..], &[1_001; DAYS], &[]] {
            let answer = ask::correction_by_rates(rates, day, rest, half);
            assert_eq!(answer, Err(Refusal::NoSuchDay));
        }
    }
    assert!(ask::correction_by_rates(&PRINTED, 28, rests(28) - 1, 1).is_ok());
}

#[test]
fn refused_lists() {
    for length in (0..=60).filter(|&length| length != DAYS) {
        let rates: Vec<i64> = PRINTED.into_iter().cycle().take(length).collect();
        let answer = ask::correction_by_rates(&rates, 1, 0, 0);
        assert_eq!(answer, Err(Refusal::Rates), "{length}");
    }
    for index in 0..DAYS {
        for rate in [i64::MIN, -1_001, -1_000, 1_000, 1_001, i64::MAX] {
            let mut rates = PRINTED;
            rates[index] = rate;
            let refused = ask::correction_by_rates(&rates, 28, 0, 0).err();
            let outside = !matches!(rate, -1_000..=1_000);
            assert_eq!(refused, outside.then_some(Refusal::Rates));
        }
    }
}
