//! The plain Rust's mending against the second program's.

use bench::fast::{self, BLOCK, MOST_BLOCKS, ROUND_YEARS};
use second::{mending, volumes};

const OTHER: u64 = 7;

/// The list past the count stays as it was; refused, list and volume do.
#[track_caller]
fn compare(volume: &[u8]) {
    let (mut expected, mut list) = (volume.to_vec(), [OTHER; MOST_BLOCKS]);
    let told = match mending::mend(&mut expected) {
        Ok(damaged) => {
            list[..damaged.len()].copy_from_slice(&damaged);
            (0, [damaged.len() as u64])
        }
        Err(number) => (number, [0]),
    };
    for mend in [fast::mend, fast::mend_by_names] {
        let mut mended = volume.to_vec();
        let (mut damaged, mut count) = ([OTHER; MOST_BLOCKS], [OTHER]);
        let number = mend(&mut mended, &mut damaged, &mut count);
        assert_eq!((number, count), told);
        assert_eq!(damaged, list);
        assert!(mended == expected);
    }
}

fn volume(first: u64, last: u64) -> Vec<u8> {
    let blocks = volumes::blocks(first, last).expect("years of the round");
    blocks.flatten().collect()
}

fn make_check_right(block: &mut [u8]) {
    let bytes = (1..=510).zip(&*block);
    let sum: u64 = bytes.map(|(weight, &byte)| weight * u64::from(byte)).sum();
    block[510..].copy_from_slice(&((sum % 65_521) as u16).to_le_bytes());
}

#[test]
fn lengths() {
    let volume = volume(5, 7);
    for length in 0..=volume.len() {
        compare(&volume[..length]);
        compare(&vec![0; length]);
    }
    let most = MOST_BLOCKS * BLOCK;
    for length in [most - BLOCK, most, most + 1, most + BLOCK, 2 * most] {
        compare(&vec![0; length]);
    }
}

/// One altered byte, with the check that it makes wrong and with a right one.
#[test]
fn altered_bytes() {
    for first in [1, 168_599, ROUND_YEARS - 2] {
        let genuine = volume(first, first + 2);
        compare(&genuine);
        for at in 0..genuine.len() {
            let mut altered = genuine.clone();
            altered[at] ^= 16;
            compare(&altered);
            altered.chunks_mut(BLOCK).for_each(make_check_right);
            compare(&altered);
            compare(&altered[BLOCK..]);
        }
    }
}

/// Blocks lost, copied to every other place, or left alone there; at both ends of the
/// round this leads out of it.
#[test]
fn blocks_at_other_places() {
    for first in [1, 2, 293_995, ROUND_YEARS - 4, ROUND_YEARS - 3] {
        let genuine = volume(first, (first + 4).min(ROUND_YEARS));
        for from in genuine.chunks(BLOCK) {
            for to in (0..genuine.len()).step_by(BLOCK) {
                for mut altered in [genuine.clone(), vec![0; genuine.len()]] {
                    altered[to..][..BLOCK].copy_from_slice(from);
                    compare(&altered);
                    altered.extend([0; BLOCK]);
                    compare(&altered);
                    altered[to..][..BLOCK].fill(0);
                    compare(&altered);
                    compare(&altered[BLOCK..]);
                }
            }
        }
    }
}

#[test]
fn most_blocks() {
    let last = 168_000 + MOST_BLOCKS as u64;
    let mut volume = volume(168_000, last);
    compare(&volume);
    volume.truncate(MOST_BLOCKS * BLOCK);
    compare(&volume);
    for block in volume.chunks_mut(BLOCK).step_by(3) {
        block[9] ^= 1;
    }
    compare(&volume);
    volume[BLOCK..].fill(0);
    compare(&volume);
}

/// A check of the prime or more is no rest of it.
#[test]
fn check_past_the_prime() {
    let mut zeros = [0; 2 * BLOCK];
    zeros[..4].copy_from_slice(&1_u32.to_le_bytes());
    for check in [1_u16, 2, 65_520, 65_521, 65_522, 65_535] {
        zeros[510..512].copy_from_slice(&check.to_le_bytes());
        compare(&zeros);
        compare(&zeros[..BLOCK]);
    }
}
