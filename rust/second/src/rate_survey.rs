//! The rates' part of the survey: a digest of what is answered by lists that look
//! random, at every day of the anomaly.

use crate::anomaly::{Rates, DAYS, GREATEST_RATE};
use crate::ask;
use crate::digest::Digest;
use crate::numbers::N;
use crate::spans::Span;

const LISTS: u64 = 1_000;
/// How many rests of a day are asked for besides its beginning.
const RESTS: u64 = 3;

/// Numbers that look random and are the same in every run: each is made from the one
/// before it by a product.
struct Random {
    number: u64,
}

impl Random {
    fn below(&mut self, limit: u64) -> u64 {
        self.number = self.number * 48_271 % 2_147_483_647;
        self.number % limit
    }

    fn rates(&mut self) -> Rates {
        let greatest = GREATEST_RATE as i64;
        [0; DAYS].map(|_| self.below(2 * GREATEST_RATE + 1) as i64 - greatest)
    }
}

pub fn line() -> String {
    let mut random = Random { number: 1 };
    let mut digest = Digest::default();
    for _ in 0..LISTS {
        let rates = random.rates();
        for day in 1..=DAYS as u64 {
            feed_day(&mut digest, &mut random, &rates, day);
        }
    }
    format!("rates lists {LISTS} digest {}\n", digest.value())
}

fn feed_day(digest: &mut Digest, random: &mut Random, rates: &Rates, day: u64) {
    let mut feed = |rest, half| {
        let answer = ask::correction_by_rates(rates, day, rest, half);
        digest.feed_by_rates(&answer.expect("a day of the anomaly"));
    };
    feed(0, 0);
    for _ in 0..RESTS {
        let rest = random.below(rests(day));
        feed(rest, random.below(2));
    }
}

/// How many rests a day has; the last one is cut short by the round's end.
fn rests(day: u64) -> u64 {
    if day > Span::ANOMALY_ROUND.whole {
        Span::ANOMALY_ROUND.remainder
    } else {
        N
    }
}
