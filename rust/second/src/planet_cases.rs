//! The planets' part of the cases: conjunctions, then stages.

use crate::ask;
use crate::cases::{joined, line};
use crate::fields;
use crate::planets::Planet;

/// The first years, Xinghe 2, the one conjunction on a solstice, the last year.
const YEARS: [u64; 5] = [1, 2, 293_997, 976_859, 1_011_600];

/// A stage is written for as many places as the longest list has.
const PLACES: usize = 14;

pub fn lines() -> Vec<String> {
    let planets = || 1..=Planet::ALL.len() as u64;
    let mut lines = Vec::new();
    for year in YEARS {
        lines.extend(planets().map(|planet| conjunctions(year, planet)));
    }
    lines.extend(refused_conjunctions());
    lines.extend(planets().flat_map(stages));
    lines.extend([0, 6, u64::MAX].into_iter().flat_map(stages));
    lines
}

fn refused_conjunctions() -> [String; 8] {
    [
        (0, 0),
        (0, 1),
        (1, 0),
        (1, 6),
        (1_011_600, u64::MAX),
        (1_011_601, 1),
        (1_011_601, 6),
        (u64::MAX, 3),
    ]
    .map(|(year, planet)| conjunctions(year, planet))
}

fn conjunctions(year: u64, planet: u64) -> String {
    let answer = ask::conjunctions(year, planet)
        .map(|conjunctions| joined(fields::conjunctions(&conjunctions).as_flattened()));
    line(format!("conjunctions {year} {planet}"), answer)
}

/// Their count, then every place of the list; those past the count are zeros.
fn stages(planet: u64) -> Vec<String> {
    let answer = ask::stages(planet);
    let count = answer.as_ref().map(|stages| stages.len().to_string());
    let count = count.map_err(|refusal| *refusal);
    let mut lines = vec![line(format!("stages {planet}"), count)];
    if let Ok(mut stages) = answer {
        stages.resize_with(PLACES, Default::default);
        for (place, stage) in stages.iter().enumerate() {
            let values = joined(&fields::stage(stage));
            lines.push(format!("stage {planet} {place} {values}\n"));
        }
    }
    lines
}
