//! The marked moons of a span of years, told from the totals: against the second
//! program's count of every month, and at the edges of years and lengths.

use second::numbers::ERA_YEARS;
use second::reigns;
use xinghe::{Answer, Marked, BLOCK};

use crate::expected::LAST_YEAR;
use crate::random::Random;
use crate::raw;
use crate::tally::Tally;
use crate::volumes::{volume, OTHER, SENTINEL};

/// A first and a last year.
pub type Span = (u64, u64);

/// The raw call's numbers are others before, and noughts where it is refused.
#[track_caller]
pub fn compare(tally: &mut Tally, volume: &[u8], (from, to): Span, expected: Answer<(u64, u64)>) {
    let mut moons = [OTHER; 2];
    let (bytes, length) = (volume.as_ptr(), volume.len());
    // SAFETY: pointer and length are those of a slice.
    let number = unsafe { raw::xinghe_marked(bytes, length, from, to, &mut moons) };
    let told = expected.map_or_else(|number| (number, [0; 2]), |(new, full)| (0, [new, full]));
    tally.same((number, moons), told);
    let expected = expected.map(|(new_moons, full_moons)| Marked {
        new_moons,
        full_moons,
    });
    tally.same(xinghe::marked(volume, from, to), expected);
}

/// A run of up to so many years, often at an end of the round or about an era's head.
pub fn run(random: &mut Random, most: u64) -> Span {
    let years = 1 + random.below(most);
    let first = match random.below(6) {
        0 => 1,
        1 => LAST_YEAR - years + 1,
        2 => random.pick(&[1, 2, 3, 4, 5]) * ERA_YEARS + 1 - random.below(years),
        _ => 1 + random.below(LAST_YEAR - years + 1),
    };
    (first, first + years - 1)
}

/// In a run, from its first year on one time in four.
pub fn span_within(random: &mut Random, (first, last): Span) -> Span {
    let years = last - first + 1;
    let (one, other) = (random.below(years), random.below(years));
    let from = match random.below(4) {
        0 => first,
        _ => first + one.min(other),
    };
    (from, first + one.max(other))
}

#[test]
fn every_month_counted() {
    let mut random = Random::new(20);
    let mut tally = Tally::new("marked moons of spans");
    for _ in 0..1_500 {
        let (first, last) = run(&mut random, 40);
        let volume = volume(first, last);
        for _ in 0..6 {
            let (from, to) = span_within(&mut random, (first, last));
            let counted = reigns::counted(from, to);
            compare(&mut tally, &volume, (from, to), Ok(counted));
        }
    }
    tally.end(18_000);
}

/// Totals of marked moons that need three bytes each, over the head of an era.
#[test]
fn long_volume() {
    let mut random = Random::new(21);
    let mut tally = Tally::new("marked moons of long spans");
    let run = (ERA_YEARS - 600, ERA_YEARS + 40_000);
    let volume = volume(run.0, run.1);
    let (all_new_moons, all_full_moons) = reigns::counted(run.0, run.1);
    assert!(all_new_moons > 1 << 16 && all_full_moons > 1 << 16);
    compare(
        &mut tally,
        &volume,
        run,
        Ok((all_new_moons, all_full_moons)),
    );
    for _ in 0..20 {
        let (from, to) = span_within(&mut random, run);
        let counted = reigns::counted(from, to);
        compare(&mut tally, &volume, (from, to), Ok(counted));
    }
    tally.end(42);
}

/// At and about the ends of a run; such a year past 32 bits, or so much later that 512
/// times as much is past 64; and years that are in hardly any volume.
pub fn edge_year(random: &mut Random, (first, last): Span) -> u64 {
    let near = random.pick(&[first.wrapping_sub(1), first, first + 1, last, last + 1]);
    match random.below(6) {
        0..=2 => near,
        3 => near.wrapping_add(random.pick(&[1 << 32, 1 << 55, 1 << 63])),
        4 => random.pick(&[0, 1, (1 << 32) - 1, 1 << 32, u64::MAX - 1, u64::MAX]),
        _ => random.number(),
    }
}

#[test]
fn years_at_the_edge() {
    let mut random = Random::new(22);
    let mut tally = Tally::new("years not in the volume");
    let (mut answered, mut refused) = (0, 0);
    for _ in 0..500 {
        let run = run(&mut random, 40);
        let volume = volume(run.0, run.1);
        for _ in 0..400 {
            let from = edge_year(&mut random, run);
            let to = edge_year(&mut random, run);
            let expected = reigns::marked(&volume, from, to);
            match expected {
                Ok(_) => answered += 1,
                Err(number) => {
                    assert_eq!(number, 2);
                    refused += 1;
                }
            }
            compare(&mut tally, &volume, (from, to), expected);
        }
    }
    println!("answered, refused: {answered} {refused}");
    assert!(answered > 10_000 && refused > 100_000);
    tally.end(400_000);
}

/// From an odd place of the memory on; 11 before years that are in the wrong order or
/// in no volume.
#[test]
fn lengths() {
    let mut tally = Tally::new("marked moons of lengths");
    let bytes = [vec![SENTINEL], volume(168_599, 168_602)].concat();
    let volume = &bytes[1..];
    for length in 0..=volume.len() {
        for (from, to) in [
            (168_599, 168_599),
            (168_600, 168_601),
            (168_601, 168_600),
            (0, 0),
        ] {
            let expected = match length {
                512 | 1_024 | 1_536 | 2_048 => reigns::marked(&volume[..length], from, to),
                _ => Err(11),
            };
            compare(&mut tally, &volume[..length], (from, to), expected);
        }
    }
    // An empty volume of its own, whose pointer comes from no memory at all.
    compare(&mut tally, &[], (1, 1), Err(11));
    compare(&mut tally, &[], (1, 0), Err(11));
    tally.end(16_000);
}

/// Zeros have right checks, but for a check of 65,521, which is no rest.
#[test]
fn zeros() {
    let mut tally = Tally::new("marked moons of zeros");
    let mut zeros = [0; 3 * BLOCK];
    compare(&mut tally, &zeros[..BLOCK], (0, 0), Ok((0, 0)));
    for span in [(0, 0), (0, 2), (1, 1), (1, 2), (2, 2)] {
        compare(&mut tally, &zeros, span, Ok((0, 0)));
    }
    for span in [(0, 3), (3, 3), (1, 0), (u64::MAX, 0), (0, u64::MAX)] {
        compare(&mut tally, &zeros, span, Err(2));
    }
    zeros[2 * BLOCK - 2..2 * BLOCK].copy_from_slice(&65_521_u16.to_le_bytes());
    for span in [(0, 1), (1, 1), (2, 2)] {
        compare(&mut tally, &zeros, span, Err(12));
    }
    for span in [(0, 0), (0, 2), (1, 2)] {
        compare(&mut tally, &zeros, span, Ok((0, 0)));
    }
    tally.end(34);
}

/// A first year that is in no round, and the year after it past 32 bits.
#[test]
fn past_four_bytes() {
    let mut tally = Tally::new("years past four bytes");
    let mut volume = volume(3, 5);
    volume[..4].copy_from_slice(&[u8::MAX; 4]);
    let first = u64::from(u32::MAX);
    let expected = Ok(reigns::counted(5, 5));
    compare(&mut tally, &volume, (first + 2, first + 2), expected);
    for to in [1, 2] {
        let expected = Ok(reigns::counted(3, 3 + to));
        compare(&mut tally, &volume, (first, first + to), expected);
    }
    // The first block is altered, so that its check is wrong.
    compare(&mut tally, &volume, (first, first), Err(12));
    compare(&mut tally, &volume, (first + 1, first + 1), Err(12));
    for span in [(0, 0), (0, 1), (1, 1), (first, first + 3), (first, 0)] {
        compare(&mut tally, &volume, span, Err(2));
    }
    let two_blocks = &volume[..2 * BLOCK];
    let expected = Ok(reigns::counted(3, 4));
    compare(&mut tally, two_blocks, (first, first + 1), expected);
    tally.end(22);
}
