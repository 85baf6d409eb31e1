//! The planets' conjunctions, against the treatise's division.

use second::ask::{self, Refusal};
use second::fields;
use second::numbers::{D, P};
use second::planets::{Conjunctions, Days, Planet, Twilight};
use second::Walker;

fn conjunctions(year: u64, planet: u64) -> Conjunctions {
    ask::conjunctions(year, planet).unwrap()
}

/// What the division leaves, in parts from the solstice, and the kind.
fn divided(year: u64, planet: &Planet) -> (u64, u64) {
    let number = planet.number;
    let time = number - (year - 1) * P % number;
    match *planet {
        Planet::VENUS | Planet::MERCURY if 2 * time >= number => (time - number / 2, 1),
        Planet::VENUS | Planet::MERCURY => (time, 2),
        _ => (time, 0),
    }
}

fn after((time, kind): (u64, u64), planet: &Planet) -> (u64, u64) {
    match kind {
        0 => (time + planet.number, 0),
        kind => (time + planet.number / 2, 3 - kind),
    }
}

fn compare(year: u64, planet: &Planet, walked: &Conjunctions) {
    let first = divided(year, planet);
    let both = [first, after(first, planet)].map(|(time, kind)| {
        let instant = (year - 1) * P + time;
        [time / D, time % D, instant / D, instant % D, kind]
    });
    assert_eq!(fields::conjunctions(walked), both, "{year}");
}

#[test]
fn walked_and_divided() {
    for year in Walker::from_origin().take(3_000) {
        for (planet, walked) in Planet::ALL.iter().zip(&year.conjunctions) {
            compare(year.number, planet, walked);
        }
    }
    for year in (1..=1_011_600).step_by(4_999).chain([976_859, 1_011_600]) {
        for (planet, walked) in Planet::ALL.iter().zip(1..) {
            compare(year, planet, &conjunctions(year, walked));
        }
    }
}

/// At the origin every planet stands at a conjunction, which isn't year 1's.
#[test]
fn first_year() {
    let numbers = [(398, 13_608), (779, 15_143), (378, 981)];
    let halves = [(291, 15_681), (57, 15_838)];
    for ((days, remainder), planet) in numbers.into_iter().chain(halves).zip(1..) {
        let first = conjunctions(1, planet).first;
        assert_eq!(first.from_solstice, Days::new(days, remainder));
        assert_eq!(first.from_origin, first.from_solstice);
        let morning = planet >= 4;
        assert_eq!(first.twilight == Twilight::Morning, morning);
        assert_eq!(first.twilight == Twilight::Neither, !morning);
    }
}

#[test]
fn morning_on_a_solstice() {
    let first = conjunctions(976_859, 5).first;
    assert_eq!(first.from_solstice, Days::ZERO);
    assert_eq!(first.twilight, Twilight::Morning);
}

/// Mars keeps away for two years, so that years may have the same conjunction.
#[test]
fn years_without_a_conjunction() {
    let [before, year] = [1, 2].map(|year| conjunctions(year, 2).first);
    assert_eq!(before.from_origin, year.from_origin);
    assert_eq!(year.from_solstice, Days::new(414, 11_026));
}

/// The year is looked at before the planet.
#[test]
fn refusals() {
    for planet in [0, 6, u64::MAX] {
        for year in [0, 1_011_601, u64::MAX] {
            assert_eq!(ask::conjunctions(year, planet), Err(Refusal::Year));
        }
        assert_eq!(ask::conjunctions(1, planet), Err(Refusal::Planet));
        assert_eq!(ask::stages(planet), Err(Refusal::Planet));
    }
    assert_eq!(ask::conjunctions(0, 1), Err(Refusal::Year));
}
