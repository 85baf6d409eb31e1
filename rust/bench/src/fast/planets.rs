//! The planets' conjunctions.

use super::rows::{self, D, P};

/// A planet's number, and the way to its next conjunction: the number, or half
/// of it where mornings and evenings take turns.
struct Planet {
    number: u64,
    step: u64,
}

// One table and a division by a variable: where planets come in any order, a
// jump to each one's own constant is guessed wrongly too often to pay.
static PLANETS: [Planet; 5] = [
    Planet::outer(6_723_888),
    Planet::outer(13_149_083),
    Planet::outer(6_374_061),
    Planet::inner(9_843_882),
    Planet::inner(1_953_716),
];

impl Planet {
    const fn outer(number: u64) -> Self {
        Self {
            number,
            step: number,
        }
    }

    const fn inner(number: u64) -> Self {
        Self {
            number,
            step: number / 2,
        }
    }
}

#[inline]
pub fn conjunctions(year: u64, planet: u64) -> Result<[u64; 10], u64> {
    let solstice = rows::past(year)? * P;
    let planet = PLANETS.get(planet.wrapping_sub(1) as usize).ok_or(9_u64)?;
    let Planet { number, step } = *planet;
    let time = number - solstice % number;
    // Both are 0 or 1 and are worked with instead of jumped on.
    let inner = u64::from(step < number);
    let morning = inner & u64::from(time >= step);
    let first = time - morning * step;
    let second = first + step;
    let kind = 2 * inner - morning;
    Ok([
        first / D,
        first % D,
        (solstice + first) / D,
        (solstice + first) % D,
        kind,
        second / D,
        second % D,
        (solstice + second) / D,
        (solstice + second) % D,
        3 * inner - kind,
    ])
}
