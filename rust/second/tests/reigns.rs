//! How many in a reign: the totals against every month, what decides each refusal, and
//! what a volume that was cut or altered still tells.

use second::numbers::{M, P, ROUND_MONTHS, ROUND_YEARS};
use second::{reigns, volumes};

const BLOCK: usize = 512;
/// Where the three totals of a block stand.
const TOTALS: [usize; 3] = [216, 220, 224];

fn volume(first: u64, last: u64) -> Vec<u8> {
    let blocks = volumes::blocks(first, last).unwrap();
    blocks.flatten().collect()
}

/// As the request has it, by multiplication and division.
fn mend_check(block: &mut [u8]) {
    let bytes = (1..=510).zip(&*block);
    let sum: u64 = bytes.map(|(weight, &byte)| weight * u64::from(byte)).sum();
    block[510..].copy_from_slice(&((sum % 65_521) as u16).to_le_bytes());
}

/// A block of nothing but totals and a right check, of whatever year.
fn bare(year: u32, totals: [u32; 3]) -> Vec<u8> {
    let mut block = vec![0; BLOCK];
    block[..4].copy_from_slice(&year.to_le_bytes());
    for (at, total) in TOTALS.into_iter().zip(totals) {
        block[at..at + 4].copy_from_slice(&total.to_le_bytes());
    }
    mend_check(&mut block);
    block
}

/// Every span of volumes about both ends of the round and an era's head, and of one
/// that is longer than a chapter some.
#[test]
fn totals_are_counts() {
    for (first, last, step) in [
        (1, 30, 1),
        (168_590, 168_610, 1),
        (293_980, 294_000, 1),
        (ROUND_YEARS - 24, ROUND_YEARS, 1),
        (1_000, 1_700, 117),
    ] {
        let volume = volume(first, last);
        assert_eq!(volumes::read(&volume), Ok((first, last)));
        for from in (first..=last).step_by(step) {
            for to in (from..=last).step_by(step) {
                let counted = reigns::counted(from, to);
                assert_eq!(reigns::marked(&volume, from, to), Ok(counted));
            }
        }
    }
}

/// Each node of the round marks one of each; Xinghe 2 by itself has two and three.
#[test]
fn counts() {
    let nodes = ROUND_MONTHS * P / M + 1;
    assert_eq!(reigns::counted(1, ROUND_YEARS), (nodes, nodes));
    assert_eq!(reigns::counted(293_997, 293_997), (2, 3));
}

/// The length before the years, the years before the blocks, of which every one has
/// a wrong check.
#[test]
fn order_of_refusals() {
    let mut volume = volume(5, 8);
    volume.chunks_mut(BLOCK).for_each(|block| block[300] = 1);
    for length in 0..=volume.len() {
        let whole_blocks = length > 0 && length % BLOCK == 0;
        let expected = if whole_blocks { Err(2) } else { Err(11) };
        assert_eq!(reigns::marked(&volume[..length], 7, 6), expected);
    }
    for (from, to) in [
        (6, 5),
        (8, 5),
        (0, 5),
        (4, 6),
        (5, 9),
        (9, 9),
        (u64::MAX, 5),
    ] {
        assert_eq!(reigns::marked(&volume, from, to), Err(2));
    }
    for from in 5..=8 {
        for to in from..=8 {
            assert_eq!(reigns::marked(&volume, from, to), Err(12));
        }
    }
}

#[test]
fn years_of_the_volume() {
    let volume = volume(5, 8);
    let years = [0, 1, 4, 5, 6, 7, 8, 9, 1 << 32 | 6, u64::MAX - 1, u64::MAX];
    for from in years {
        for to in years {
            let expected = if from <= to && (5..=8).contains(&from) && (5..=8).contains(&to) {
                Ok(reigns::counted(from, to))
            } else {
                Err(2)
            };
            assert_eq!(reigns::marked(&volume, from, to), expected);
        }
    }
}

/// The years of a volume are not those of the round, nor do they end with 32 bits.
#[test]
fn first_year_as_it_stands() {
    let two = [bare(u32::MAX, [1, 2, 3]), bare(7, [1, 5, 9])].concat();
    let (last, past) = (u64::from(u32::MAX), 1 << 32);
    assert_eq!(reigns::marked(&two, last, last), Ok((2, 3)));
    assert_eq!(reigns::marked(&two, last, past), Ok((5, 9)));
    assert_eq!(reigns::marked(&two, past, past), Ok((3, 6)));
    assert_eq!(reigns::marked(&two, 0, 0), Err(2));
    assert_eq!(reigns::marked(&two, last, past + 1), Err(2));
    assert_eq!(reigns::marked(&[0; BLOCK], 0, 0), Ok((0, 0)));
    assert_eq!(reigns::marked(&[0; 2 * BLOCK], 1, 1), Ok((0, 0)));
    assert_eq!(reigns::marked(&[0; BLOCK], 0, 1), Err(2));
}

/// Each of the three, one less and all that four bytes hold; where the span starts the
/// volume nothing is compared.
#[test]
fn totals_that_fall() {
    let earlier = [5, 6, 7];
    for index in 0..TOTALS.len() {
        for (total, expected) in [
            (earlier[index] - 1, Err(12)),
            (0, Err(12)),
            (earlier[index], Ok((0, 0))),
        ] {
            let mut later = earlier;
            later[index] = total;
            let volume = [bare(3, earlier), bare(0, later)].concat();
            assert_eq!(reigns::marked(&volume, 4, 4), expected);
            let alone = Ok((u64::from(later[1]), u64::from(later[2])));
            assert_eq!(reigns::marked(&volume, 3, 4), alone);
        }
    }
    let most = [bare(3, [0; 3]), bare(0, [u32::MAX; 3])].concat();
    let all = u64::from(u32::MAX);
    assert_eq!(reigns::marked(&most, 4, 4), Ok((all, all)));
}

/// The check is compared as a number: with the prime more it is not the same.
#[test]
fn check_past_the_prime() {
    let mut zeros = [0; 2 * BLOCK];
    for block in [0, 1] {
        zeros[block * BLOCK + 510..][..2].copy_from_slice(&65_521_u16.to_le_bytes());
        assert_eq!(reigns::marked(&zeros, 1, 1), Err(12));
        assert_eq!(volumes::read(&zeros), Err(12));
        zeros[block * BLOCK..][..BLOCK].fill(0);
    }
    assert_eq!(reigns::marked(&zeros, 1, 1), Ok((0, 0)));
}

/// Every byte of five blocks, for a span that looks at the second and the fourth, and
/// for one that looks at the fourth alone.
#[test]
fn one_altered_byte() {
    let mut volume = volume(5, 9);
    let (two_blocks, one_block) = (reigns::counted(7, 8), reigns::counted(5, 8));
    for at in 4..volume.len() {
        volume[at] ^= 16;
        let block = at / BLOCK;
        let expected = if block == 1 || block == 3 {
            Err(12)
        } else {
            Ok(two_blocks)
        };
        assert_eq!(reigns::marked(&volume, 7, 8), expected);
        let expected = if block == 3 { Err(12) } else { Ok(one_block) };
        assert_eq!(reigns::marked(&volume, 5, 8), expected);
        volume[at] ^= 16;
    }
}

/// Byte 441 counts twice as often as byte 220, the lowest of the new moons' total: two
/// less here and one more there leave the check right, and only the reader tells.
#[test]
fn bytes_that_cancel() {
    let mut volume = volume(5, 9);
    let block = &mut volume[3 * BLOCK..];
    block[220] -= 2;
    block[441] += 1;
    let (new_moons, full_moons) = reigns::counted(6, 8);
    let wrong = Ok((new_moons - 2, full_moons));
    assert_eq!(reigns::marked(&volume, 6, 8), wrong);
    assert_eq!(volumes::read(&volume), Err(12));
}

/// Another first year: the span is refused under 2 or told of other years, and only
/// the first block's check tells.
#[test]
fn altered_first_year() {
    let mut volume = volume(5, 9);
    volume[0] = 4;
    assert_eq!(reigns::marked(&volume, 9, 9), Err(2));
    assert_eq!(reigns::marked(&volume, 6, 8), Ok(reigns::counted(7, 9)));
    assert_eq!(reigns::marked(&volume, 4, 8), Ok(reigns::counted(5, 9)));
    assert_eq!(reigns::marked(&volume, 4, 4), Err(12));
    assert_eq!(reigns::marked(&volume, 5, 5), Err(12));
    assert_eq!(volumes::read(&volume), Err(12));
}

/// Cut after a block it is the volume of fewer years. Cut at the front its totals go
/// on counting from the old first year, which only a span that starts it shows, and
/// only to those who read the volume.
#[test]
fn cut_volumes() {
    let whole = volume(5, 9);
    let shorter = &whole[..3 * BLOCK];
    assert_eq!(volumes::read(shorter), Ok((5, 7)));
    assert_eq!(reigns::marked(shorter, 6, 7), Ok(reigns::counted(6, 7)));
    assert_eq!(reigns::marked(shorter, 6, 8), Err(2));
    assert_eq!(reigns::marked(&whole[..3 * BLOCK + 100], 6, 7), Err(11));
    let headless = &whole[2 * BLOCK..];
    assert_eq!(reigns::marked(headless, 8, 9), Ok(reigns::counted(8, 9)));
    assert_eq!(reigns::marked(headless, 9, 9), Ok(reigns::counted(9, 9)));
    assert_eq!(reigns::marked(headless, 6, 9), Err(2));
    for to in 7..=9 {
        let too_many = reigns::counted(5, to);
        assert_ne!(too_many, reigns::counted(7, to));
        assert_eq!(reigns::marked(headless, 7, to), Ok(too_many));
    }
    assert_eq!(volumes::read(headless), Err(12));
}
