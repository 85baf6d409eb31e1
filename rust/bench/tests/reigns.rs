//! The plain Rust's marked moons of a span against the second program's.

use bench::fast::{self, BLOCK, ROUND_YEARS};
use second::{reigns, volumes};

const OTHER: u64 = 7;

#[track_caller]
fn compare(volume: &[u8], from: u64, to: u64) {
    let expected = match reigns::marked(volume, from, to) {
        Ok((new_moons, full_moons)) => (0, [new_moons, full_moons]),
        Err(number) => (number, [0; 2]),
    };
    for marked in [fast::marked, fast::marked_by_halves] {
        let mut moons = [OTHER; 2];
        let number = marked(volume, from, to, &mut moons);
        assert_eq!((number, moons), expected);
    }
}

/// Spans within the years and about them, at the extremes too.
#[track_caller]
fn compare_spans(volume: &[u8], first: u64, last: u64) {
    let within = first.saturating_sub(2)..=last + 2;
    let years: Vec<u64> = within.chain([0, 1 << 32 | first, u64::MAX]).collect();
    for &from in &years {
        for &to in &years {
            compare(volume, from, to);
        }
    }
}

fn volume(first: u64, last: u64) -> Vec<u8> {
    let blocks = volumes::blocks(first, last).expect("years of the round");
    blocks.flatten().collect()
}

#[test]
fn spans() {
    for first in [1, 168_590, 293_990, ROUND_YEARS - 19] {
        compare_spans(&volume(first, first + 19), first, first + 19);
    }
}

#[test]
fn lengths() {
    let volume = volume(5, 7);
    for length in 0..=volume.len() {
        compare(&volume[..length], 6, 6);
        compare(&volume[..length], 6, 5);
    }
}

/// Altered bytes, years past four bytes, and totals that fall behind right checks.
#[test]
fn altered_volumes() {
    let mut volume = volume(5, 8);
    for at in 0..volume.len() {
        volume[at] ^= 16;
        let first = u32::from_le_bytes([0, 1, 2, 3].map(|i| volume[i])).into();
        for (from, to) in [
            (5, 5),
            (5, 7),
            (7, 7),
            (8, 8),
            (first, first + 2),
            (first + 2, first + 3),
        ] {
            compare(&volume, from, to);
        }
        volume[at] ^= 16;
    }
    volume[..4].fill(u8::MAX);
    let first = u64::from(u32::MAX);
    compare_spans(&volume, first, first + 3);
    volume.rotate_left(BLOCK);
    compare_spans(&volume, 6, 9);
    for blocks in 1..=3 {
        compare_spans(&vec![0; blocks * BLOCK], 0, blocks as u64);
        let behind_a_year = [&volume[..BLOCK], &vec![0; blocks * BLOCK]].concat();
        compare_spans(&behind_a_year, 6, 6 + blocks as u64);
    }
}
