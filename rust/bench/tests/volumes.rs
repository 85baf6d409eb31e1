//! The plain Rust's volumes against the second program's.

use bench::fast::{self, BLOCK, ROUND_YEARS};
use second::volumes;

const OTHER: u8 = 7;

fn written(first: u64, last: u64, out: &mut [u8]) -> Result<u64, u64> {
    let mut count = [u64::from(OTHER)];
    match fast::write_volume(first, last, out, &mut count) {
        0 => Ok(count[0]),
        number => {
            assert_eq!(count, [0]);
            Err(number)
        }
    }
}

fn read(volume: &[u8]) -> Result<(u64, u64), u64> {
    let mut years = [u64::from(OTHER); 2];
    match fast::read_volume(volume, &mut years) {
        0 => Ok((years[0], years[1])),
        number => {
            assert_eq!(years, [0; 2]);
            Err(number)
        }
    }
}

#[track_caller]
fn compare(first: u64, last: u64) {
    let blocks = volumes::blocks(first, last).expect("years of the round");
    let mut volume = vec![OTHER; (last - first + 2) as usize * BLOCK];
    let count = written(first, last, &mut volume).expect("room for all") as usize;
    assert_eq!(count, volume.len() - BLOCK);
    for (block, expected) in volume[..count].chunks(BLOCK).zip(blocks) {
        assert!(*block == expected, "in the volume of {first} to {last}");
    }
    assert!(volume[count..].iter().all(|&byte| byte == OTHER));
    assert_eq!(read(&volume[..count]), Ok((first, last)));
}

/// Every year of the round, in volumes of a few chapters.
#[test]
fn every_year() {
    for first in (1..=ROUND_YEARS).step_by(1_686) {
        compare(first, first + 1_685);
    }
}

/// Totals that need three bytes each, over two heads of eras.
#[test]
fn long_volume() {
    compare(168_000, 338_000);
}

#[test]
fn refused_spans() {
    let years = [0, 1, 2, 3, ROUND_YEARS, ROUND_YEARS + 1, u64::MAX];
    for first in years {
        for last in years {
            for room in [0, 511, 512, 513, 1_023, 1_024, 1_536] {
                let (mut out, mut expected) = (vec![OTHER; room], vec![OTHER; room]);
                let answer = written(first, last, &mut out);
                assert_eq!(answer, volumes::write(first, last, &mut expected));
                assert_eq!(out, expected);
            }
        }
    }
}

/// Lengths, one altered byte, blocks exchanged or past the round.
#[test]
fn refused_volumes() {
    let mut volume = vec![0; 3 * BLOCK];
    for first in [1, 168_600, ROUND_YEARS - 2] {
        written(first, first + 2, &mut volume).expect("three years");
        for length in 0..=volume.len() {
            let cut = &volume[..length];
            assert_eq!(read(cut), volumes::read(cut));
        }
        for at in 0..volume.len() {
            volume[at] ^= 1;
            assert_eq!(read(&volume), Err(12));
            volume[at] ^= 1;
        }
        volume.rotate_left(BLOCK);
        assert_eq!(read(&volume), Err(12));
        volume.rotate_right(BLOCK);
        let longer = [&volume[..], &volume[..BLOCK]].concat();
        assert_eq!(read(&longer), volumes::read(&longer));
    }
    for zeros in [BLOCK, 2 * BLOCK] {
        assert_eq!(read(&vec![0; zeros]), Err(12));
    }
    assert_eq!(read(&[u8::MAX; BLOCK]), Err(12));
}
