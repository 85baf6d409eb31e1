//! Conjunctions of single years, and the planets' stages.

use second::ask;

use crate::expected::{self, LAST_YEAR};
use crate::random::Random;
use crate::single::{some_year, EDGES, EDGE_YEARS};
use crate::tally::Tally;

/// The five, and what is none.
fn planets() -> impl Iterator<Item = u64> {
    (0..=8).chain([1 << 32 | 1, 1 << 63]).chain(EDGES)
}

/// Every kind of question as the second program itself answers it. 976,859 has
/// the one conjunction that falls on a solstice.
#[test]
fn conjunctions_and_refusals() {
    let mut random = Random::new(15);
    let mut tally = Tally::new("conjunctions and refusals");
    let outside = [0, LAST_YEAR + 1, u64::MAX];
    let edges = EDGE_YEARS.into_iter().chain([976_859]).chain(outside);
    let drawn: Vec<_> = (0..300).map(|_| some_year(&mut random)).collect();
    for year in edges.chain(drawn) {
        for planet in planets() {
            let walked = expected::number(ask::conjunctions(year, planet));
            let walked = walked.map(|walked| expected::conjunctions(&walked));
            tally.same(xinghe::conjunctions(year, planet), walked);
        }
    }
    tally.end(5_000);
}

/// A planet outside the five is refused under 9, but a year comes first.
#[test]
fn planets_outside() {
    let mut random = Random::new(16);
    let mut tally = Tally::new("planets outside");
    for _ in 0..100_000 {
        let planet = random.number() | 8;
        let year = 1 + random.below(LAST_YEAR);
        tally.same(xinghe::conjunctions(year, planet), Err(9));
        tally.same(xinghe::stages(planet), Err(9));
        let year = random.number() | 1 << 20;
        tally.same(xinghe::conjunctions(year, planet), Err(1));
        tally.same(xinghe::conjunctions(year, 1 + planet % 5), Err(1));
    }
    tally.end(400_000);
}

#[test]
fn stages() {
    let mut tally = Tally::new("stages");
    for planet in planets() {
        let read = expected::number(ask::stages(planet));
        let read = read.map(|read| expected::stages(&read));
        tally.same(xinghe::stages(planet), read);
    }
    tally.end(15);
}
