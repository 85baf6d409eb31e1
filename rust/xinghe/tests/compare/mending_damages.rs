//! Volumes damaged at random and mended, in every way that decides an answer.

use xinghe::{BLOCK, MOST_BLOCKS};

use crate::damages::{alter_bytes, exchange_blocks};
use crate::expected::LAST_YEAR;
use crate::mending::{compare, compare_mended, Mended};
use crate::mending_outcomes::Outcomes;
use crate::random::Random;
use crate::reign_damages::{copy_block, cut, fill, make_garbage, some_block};
use crate::reign_outcomes::four;
use crate::reigns::run;
use crate::tally::Tally;
use crate::volumes::{make_check_right, volume};

/// One in two, or all but one.
fn scratch_blocks(random: &mut Random, bytes: &mut [u8]) {
    let left = random.below((bytes.len() / BLOCK) as u64) as usize;
    let all = random.below(2) == 0;
    for (index, block) in bytes.chunks_exact_mut(BLOCK).enumerate() {
        if index != left && (all || random.below(2) == 0) {
            fill(random, block);
        }
    }
}

/// Some bytes behind its year, and the check right again: the block is sound.
fn alter_contents(random: &mut Random, bytes: &mut [u8]) {
    let block = some_block(random, bytes);
    for _ in 0..random.pick(&[1, 1, 2, 300]) {
        block[4 + random.below(506) as usize] = random.number() as u8;
    }
    make_check_right(block);
}

/// A year near the block's own, about the ends of the round, or any; the check is
/// right again.
fn alter_year(random: &mut Random, bytes: &mut [u8]) {
    let block = some_block(random, bytes);
    let few = random.below(4) as u32;
    let (near, last) = (four(block, 0), LAST_YEAR as u32);
    let year = match random.below(6) {
        0 => near.wrapping_add(few),
        1 => near.wrapping_sub(few),
        2 => few,
        3 => last - few,
        4 => last + few,
        _ => random.number() as u32,
    };
    block[..4].copy_from_slice(&year.to_le_bytes());
    make_check_right(block);
}

/// Zeros or more of the same, before or behind.
fn lengthen(random: &mut Random, bytes: &mut Vec<u8>) {
    let blocks = 1 + random.below(4) as usize;
    match random.below(4) {
        0 => bytes.resize(bytes.len() + blocks * BLOCK, 0),
        1 => drop(bytes.splice(..0, vec![0; blocks * BLOCK])),
        2 => bytes.extend_from_within(..),
        _ => lengthen_much(random, bytes),
    }
}

/// One time in three to about as many blocks as there may be.
fn lengthen_much(random: &mut Random, bytes: &mut Vec<u8>) {
    if random.below(3) == 0 {
        let blocks = MOST_BLOCKS - 1 + random.below(6) as usize;
        bytes.resize(blocks * BLOCK, 0);
    }
}

fn damage(random: &mut Random, bytes: &mut Vec<u8>) {
    match random.below(16) {
        0 | 1 => alter_bytes(random, bytes, 1),
        2 => {
            let count = 2 + random.below(40);
            alter_bytes(random, bytes, count);
        }
        3..=5 => scratch_blocks(random, bytes),
        6 => exchange_blocks(random, bytes),
        7 => copy_block(random, bytes),
        8 | 9 => cut(random, bytes),
        10 | 11 => alter_contents(random, bytes),
        12 => alter_year(random, bytes),
        13 => make_garbage(random, bytes),
        _ => lengthen(random, bytes),
    }
}

/// Not at all, once, twice or three times damaged.
#[test]
fn many_damages() {
    let mut random = Random::new(26);
    let mut tally = Tally::new("damaged volumes mended");
    let mut outcomes = Outcomes::default();
    for _ in 0..100_000 {
        let (first, last) = run(&mut random, 12);
        let mut altered = volume(first, last);
        for _ in 0..random.pick(&[0, 1, 1, 1, 2, 2, 3]) {
            if altered.len() >= BLOCK {
                damage(&mut random, &mut altered);
            }
        }
        let expected = Mended::walked(&altered);
        outcomes.count(&altered, &expected.damaged);
        compare(&mut tally, &altered, &expected);
        if expected.damaged.is_ok() {
            compare_mended(&mut tally, &expected.bytes);
        }
    }
    outcomes.end(500);
    tally.end(300_000);
}
