//! The marked moons of a span in volumes that were altered: the blocks that are looked
//! at decide, and no other.

use second::reigns;
use xinghe::BLOCK;

use crate::damages::{alter_bytes, exchange_blocks};
use crate::random::Random;
use crate::reign_outcomes::{four, Outcomes, TOTALS};
use crate::reigns::{compare, edge_year, run, span_within, Span};
use crate::tally::Tally;
use crate::volumes::{make_check_right, volume};

/// A volume as it was written, and its years.
struct Genuine {
    years: Span,
    bytes: Vec<u8>,
}

fn some_volumes(random: &mut Random, most_years: u64) -> Vec<Genuine> {
    let runs = (0..100).map(|_| run(random, most_years));
    let volumes = runs.map(|years| Genuine {
        years,
        bytes: volume(years.0, years.1),
    });
    volumes.collect()
}

/// Every byte behind the first year to every other value, for spans that look at the
/// second and the fourth of five blocks, and at the fourth alone.
#[test]
fn every_byte_to_every_value() {
    let mut tally = Tally::new("one altered byte and the marked moons");
    let mut altered = volume(5, 9);
    let spans = [(7, 8), (5, 8)].map(|span| (span, reigns::counted(span.0, span.1)));
    for at in 4..altered.len() {
        let genuine = altered[at];
        let looked_at = [[1, 3].contains(&(at / BLOCK)), at / BLOCK == 3];
        for change in 1..=u8::MAX {
            altered[at] = genuine ^ change;
            for ((span, counted), looked_at) in spans.into_iter().zip(looked_at) {
                let expected = if looked_at { Err(12) } else { Ok(counted) };
                compare(&mut tally, &altered, span, expected);
            }
        }
        altered[at] = genuine;
    }
    tally.end(4 * 2_556 * 255);
}

pub fn fill(random: &mut Random, bytes: &mut [u8]) {
    match random.below(4) {
        0 => bytes.fill(0),
        1 => bytes.fill(u8::MAX),
        _ => bytes.fill_with(|| random.number() as u8),
    }
}

/// All blocks but the one or two are filled; only the first four bytes stay.
#[test]
fn other_blocks_do_not_count() {
    let mut random = Random::new(23);
    let mut tally = Tally::new("blocks that are not looked at");
    let volumes = some_volumes(&mut random, 40);
    let mut filled: u64 = 0;
    for genuine in volumes.iter().cycle().take(20_000) {
        let (from, to) = span_within(&mut random, genuine.years);
        let mut altered = genuine.bytes.clone();
        for (year, block) in (genuine.years.0..).zip(altered.chunks_mut(BLOCK)) {
            if year != to && year + 1 != from {
                fill(&mut random, block);
                filled += 1;
            }
        }
        altered[..4].copy_from_slice(&genuine.bytes[..4]);
        let expected = reigns::marked(&genuine.bytes, from, to);
        assert!(expected.is_ok());
        compare(&mut tally, &altered, (from, to), expected);
    }
    assert!(filled > 200_000);
    tally.end(40_000);
}

pub fn some_block<'a>(random: &mut Random, bytes: &'a mut [u8]) -> &'a mut [u8] {
    let index = random.below((bytes.len() / BLOCK) as u64) as usize;
    &mut bytes[index * BLOCK..][..BLOCK]
}

pub fn copy_block(random: &mut Random, bytes: &mut [u8]) {
    let copied = some_block(random, bytes).to_vec();
    some_block(random, bytes).copy_from_slice(&copied);
}

/// Between blocks or within one, at the front or behind.
pub fn cut(random: &mut Random, bytes: &mut Vec<u8>) {
    let length = random.below(bytes.len() as u64 + 1) as usize;
    let whole_blocks = length / BLOCK * BLOCK;
    match random.below(6) {
        0 => bytes.truncate(length),
        1 => drop(bytes.drain(..length)),
        2 | 3 => bytes.truncate(whole_blocks),
        _ => drop(bytes.drain(..whole_blocks)),
    }
}

/// A little more or less, or any number; the check is right again.
fn alter_total(random: &mut Random, bytes: &mut [u8]) {
    let at = random.pick(&TOTALS);
    let block = some_block(random, bytes);
    let total = four(block, at);
    let few = random.below(8) as u32;
    let altered = match random.below(5) {
        0 | 1 => total.wrapping_add(few),
        2 | 3 => total.wrapping_sub(few),
        _ => random.number() as u32,
    };
    block[at..at + 4].copy_from_slice(&altered.to_le_bytes());
    make_check_right(block);
}

/// Any year, a small one, one about the end of four bytes, or a few years on; its
/// block's check is right again half of the times.
fn alter_first_year(random: &mut Random, bytes: &mut [u8]) {
    let any = random.number() as u32;
    let few = random.below(20) as u32;
    let year = random.pick(&[any, few, u32::MAX - few, four(bytes, 0).wrapping_add(few)]);
    bytes[..4].copy_from_slice(&year.to_le_bytes());
    if random.below(2) == 0 {
        make_check_right(&mut bytes[..BLOCK]);
    }
}

/// Nothing but the length is left; half of the times every check is right.
pub fn make_garbage(random: &mut Random, bytes: &mut [u8]) {
    bytes.fill_with(|| random.number() as u8);
    if random.below(2) == 0 {
        // A cut may have left a part of one.
        let blocks = bytes.chunks_exact_mut(BLOCK);
        blocks.for_each(make_check_right);
    }
}

fn damage(random: &mut Random, bytes: &mut Vec<u8>) {
    match random.below(16) {
        0 | 1 => alter_bytes(random, bytes, 1),
        2 => {
            let count = 2 + random.below(40);
            alter_bytes(random, bytes, count);
        }
        3 => some_block(random, bytes).fill(0),
        4 => exchange_blocks(random, bytes),
        5 => copy_block(random, bytes),
        6 | 7 => cut(random, bytes),
        8 => alter_first_year(random, bytes),
        9 => make_garbage(random, bytes),
        _ => alter_total(random, bytes),
    }
}

/// Of the years that the volume has now, seven times in eight.
fn some_span(random: &mut Random, bytes: &[u8], genuine: Span) -> Span {
    let first = bytes
        .get(..4)
        .map_or(genuine.0, |front| u64::from(four(front, 0)));
    let years = (bytes.len() / BLOCK).max(1) as u64;
    let run = (first, first + years - 1);
    match random.below(8) {
        0 => (edge_year(random, run), edge_year(random, run)),
        _ => span_within(random, run),
    }
}

/// Once, twice or three times damaged.
#[test]
fn million_damages() {
    let mut random = Random::new(24);
    let mut tally = Tally::new("damaged volumes and the marked moons");
    let mut outcomes = Outcomes::default();
    let volumes = some_volumes(&mut random, 12);
    for genuine in volumes.iter().cycle().take(1_000_000) {
        let mut altered = genuine.bytes.clone();
        for _ in 0..random.pick(&[1, 1, 2, 3]) {
            if altered.len() >= BLOCK {
                damage(&mut random, &mut altered);
            }
        }
        let span = some_span(&mut random, &altered, genuine.years);
        let expected = reigns::marked(&altered, span.0, span.1);
        outcomes.count(&altered, span, expected);
        compare(&mut tally, &altered, span, expected);
    }
    outcomes.end(5_000);
    tally.end(2_000_000);
}
