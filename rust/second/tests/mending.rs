//! Mending a scratched volume: what comes out of many damages, which blocks are told,
//! and what decides each refusal.

use second::numbers::ROUND_YEARS;
use second::{mending, scratched, volumes};

const BLOCK: usize = 512;
const MOST: usize = 1_024;

fn volume(first: u64, last: u64) -> Vec<u8> {
    let blocks = volumes::blocks(first, last).unwrap();
    blocks.flatten().collect()
}

/// As the request has it, by multiplication and division.
fn multiplied(block: &[u8]) -> u16 {
    let bytes = (1..=510).zip(block);
    let sum: u64 = bytes.map(|(weight, &byte)| weight * u64::from(byte)).sum();
    (sum % 65_521) as u16
}

fn make_check_right(block: &mut [u8]) {
    let check = multiplied(block);
    block[510..].copy_from_slice(&check.to_le_bytes());
}

fn block(bytes: &mut [u8], index: usize) -> &mut [u8] {
    &mut bytes[index * BLOCK..][..BLOCK]
}

/// A wrong check, whatever else is in the block.
fn break_block(bytes: &mut [u8], index: usize) {
    block(bytes, index)[300] ^= 1;
}

fn name_year(bytes: &mut [u8], index: usize, year: u32) {
    let block = block(bytes, index);
    block[..4].copy_from_slice(&year.to_le_bytes());
    make_check_right(block);
}

/// The blocks in which two runs of bytes differ, in the request's words those that are
/// not what is called for.
fn differing(one: &[u8], other: &[u8]) -> Vec<u64> {
    let blocks = one.chunks(BLOCK).zip(other.chunks(BLOCK));
    let indices = (0..).zip(blocks).filter(|(_, (one, other))| one != other);
    indices.map(|(index, _)| index).collect()
}

/// The bytes become the volume of these years. The reader accepts it, and there is
/// nothing to mend in it.
#[track_caller]
fn comes_out(bytes: &[u8], first: u64, last: u64) -> Vec<u64> {
    let expected = volume(first, last);
    let mut mended = bytes.to_vec();
    let damaged = mending::mend(&mut mended).unwrap();
    assert!(mended == expected);
    assert_eq!(damaged, differing(bytes, &expected));
    assert_eq!(volumes::read(&mended), Ok((first, last)));
    assert_eq!(mending::mend(&mut mended), Ok(vec![]));
    assert!(mended == expected);
    damaged
}

#[track_caller]
fn refused(bytes: &[u8], number: u64) {
    let mut after = bytes.to_vec();
    assert_eq!(mending::mend(&mut after), Err(number));
    assert!(after == bytes);
}

#[test]
fn accepted_volumes_are_kept() {
    for (first, last) in [
        (1, 1),
        (1, 20),
        (168_590, 168_610),
        (293_997, 293_997),
        (ROUND_YEARS - 30, ROUND_YEARS),
        (ROUND_YEARS, ROUND_YEARS),
    ] {
        assert_eq!(comes_out(&volume(first, last), first, last), []);
    }
}

/// Each byte of four blocks, which the block's own check tells; the other three are
/// sound.
#[test]
fn one_altered_byte() {
    let mut bytes = volume(168_599, 168_602);
    for at in 0..bytes.len() {
        bytes[at] ^= 16;
        let damaged = comes_out(&bytes, 168_599, 168_602);
        assert_eq!(damaged, [(at / BLOCK) as u64]);
        bytes[at] ^= 16;
    }
}

/// A year alone has no other block to be known by.
#[test]
fn one_altered_byte_of_one_block() {
    let mut bytes = volume(293_997, 293_997);
    for at in 0..bytes.len() {
        bytes[at] ^= 16;
        refused(&bytes, 13);
        bytes[at] ^= 16;
    }
}

/// Any one block is enough, wherever it stands, and the others may be of any bytes.
#[test]
fn one_block_left() {
    for (first, last) in [(1, 7), (168_597, 168_603), (ROUND_YEARS - 6, ROUND_YEARS)] {
        let genuine = volume(first, last);
        for left in 0..7 {
            for filling in [0, 1, 77, 255] {
                let mut bytes = vec![filling; genuine.len()];
                block(&mut bytes, left).copy_from_slice(&genuine[left * BLOCK..][..BLOCK]);
                let damaged = comes_out(&bytes, first, last);
                assert!(damaged.into_iter().eq((0..7).filter(|&i| i != left as u64)));
            }
        }
    }
}

/// Each subset of five blocks, broken or lost; none left is refused.
#[test]
fn every_subset() {
    let genuine = volume(5, 9);
    for subset in 0_u32..32 {
        let broken: Vec<u64> = (0..5).filter(|i| subset >> i & 1 == 1).collect();
        let (mut scratched, mut lost) = (genuine.clone(), genuine.clone());
        for &index in &broken {
            break_block(&mut scratched, index as usize);
            block(&mut lost, index as usize).fill(0);
        }
        for bytes in [scratched, lost] {
            if broken.len() == 5 {
                refused(&bytes, 13);
            } else {
                assert_eq!(comes_out(&bytes, 5, 9), broken);
            }
        }
    }
}

/// With the check made right again the block is sound and tells its year, and it is
/// written afresh all the same; alone, too.
#[test]
fn sound_blocks_with_wrong_contents() {
    for (first, last) in [(293_996, 293_998), (293_997, 293_997)] {
        let genuine = volume(first, last);
        for at in (0..genuine.len()).filter(|at| (4..510).contains(&(at % BLOCK))) {
            let mut bytes = genuine.clone();
            bytes[at] ^= 1;
            bytes.chunks_mut(BLOCK).for_each(make_check_right);
            assert_eq!(comes_out(&bytes, first, last), [(at / BLOCK) as u64]);
        }
    }
    // Nothing is left of the block but its year.
    let mut bare = [0; BLOCK];
    name_year(&mut bare, 0, 293_997);
    assert_eq!(comes_out(&bare, 293_997, 293_997), [0]);
}

/// Byte 441 counts twice as often as byte 220: two less here and one more there leave
/// the check right. In the year's bytes that makes another year of it.
#[test]
fn bytes_that_cancel() {
    let mut bytes = volume(5, 9);
    let wrong = block(&mut bytes, 3);
    wrong[220] -= 2;
    wrong[441] += 1;
    assert_eq!(multiplied(wrong).to_le_bytes(), wrong[510..]);
    assert_eq!(comes_out(&bytes, 5, 9), [3]);
    let mut bytes = volume(5, 9);
    let wrong = block(&mut bytes, 3);
    wrong[0] -= 2;
    wrong[1] += 1;
    assert_eq!(multiplied(wrong).to_le_bytes(), wrong[510..]);
    refused(&bytes, 13);
}

/// Both blocks are sound and neither is at its place; there is no majority.
#[test]
fn exchanged_blocks() {
    let genuine = volume(5, 14);
    for one in 0..10 {
        for other in 0..one {
            let mut bytes = genuine.clone();
            block(&mut bytes, one).copy_from_slice(&genuine[other * BLOCK..][..BLOCK]);
            refused(&bytes, 13);
            block(&mut bytes, other).copy_from_slice(&genuine[one * BLOCK..][..BLOCK]);
            refused(&bytes, 13);
            // Broken, they are two damaged blocks.
            break_block(&mut bytes, one);
            refused(&bytes, 13);
            break_block(&mut bytes, other);
            assert_eq!(comes_out(&bytes, 5, 14), [other as u64, one as u64]);
        }
    }
}

/// The only sound block decides the run, also where it stands at another's place: the
/// rest is held against that run and not against the years that the blocks name.
#[test]
fn only_sound_block_at_another_place() {
    let mut bytes = volume(5, 8);
    bytes.rotate_left(BLOCK);
    refused(&bytes, 13);
    // The years 6, 7, 8, 5: the first three go on as a run that is cut at the front.
    break_block(&mut bytes, 3);
    assert_eq!(comes_out(&bytes, 6, 9), [0, 1, 2, 3]);
    break_block(&mut bytes, 3);
    (0..3).for_each(|index| break_block(&mut bytes, index));
    assert_eq!(comes_out(&bytes, 2, 5), [0, 1, 2, 3]);
}

/// Every block is sound, and its totals are those of a volume that begins earlier.
#[test]
fn cut_at_the_front() {
    let whole = volume(5, 9);
    for cut in 1..5 {
        let rest = &whole[cut * BLOCK..];
        assert_eq!(volumes::read(rest), Err(12));
        let damaged = comes_out(rest, 5 + cut as u64, 9);
        assert!(damaged.into_iter().eq(0..5 - cut as u64));
    }
    let longer = [volume(1, 9), volume(10, 12)].concat();
    assert_eq!(comes_out(&longer, 1, 12), [9, 10, 11]);
}

/// Blocks of zeros have right checks and are not sound: before the volume they are the
/// years before it, so that all totals are others, and behind it those after it.
#[test]
fn zeros_before_and_behind() {
    let (zeros, volume) = (vec![0; 2 * BLOCK], volume(3, 5));
    let before = [&zeros[..], &volume].concat();
    assert_eq!(comes_out(&before, 1, 5), [0, 1, 2, 3, 4]);
    refused(&[&zeros[..BLOCK], &before].concat(), 13);
    let behind = [&volume[..], &zeros].concat();
    assert_eq!(comes_out(&behind, 3, 7), [3, 4]);
    for blocks in 1..=3 {
        refused(&vec![0; blocks * BLOCK], 13);
        refused(&vec![255; blocks * BLOCK], 13);
    }
}

/// The implied run just stays in the round, or leaves it by one year, at either end.
#[test]
fn ends_of_the_round() {
    let zeros = |blocks| vec![0; blocks * BLOCK];
    for index in 0..6 {
        let first = 1 + index as u64;
        let just = [zeros(index), volume(first, first), zeros(2)].concat();
        comes_out(&just, 1, first + 2);
        let before = [zeros(index + 1), volume(first, first), zeros(2)].concat();
        refused(&before, 13);
        let last = ROUND_YEARS - index as u64;
        let just = [zeros(2), volume(last, last), zeros(index)].concat();
        comes_out(&just, last - 2, ROUND_YEARS);
        let past = [zeros(2), volume(last, last), zeros(index + 1)].concat();
        refused(&past, 13);
    }
    // Far below the first year, by as many blocks as there may be.
    refused(&[zeros(MOST - 1), volume(1, 1)].concat(), 13);
    refused(&[zeros(MOST - 1), volume(1_023, 1_023)].concat(), 13);
    comes_out(&[zeros(MOST - 1), volume(1_024, 1_024)].concat(), 1, 1_024);
}

/// Two blocks that imply years outside the round, the same or not, are refused as
/// well; so is one of them beside a block that is right.
#[test]
fn sound_blocks_that_leave_the_round() {
    let mut bytes = vec![7; 5 * BLOCK];
    name_year(&mut bytes, 3, 1);
    refused(&bytes, 13);
    name_year(&mut bytes, 4, 2);
    refused(&bytes, 13);
    name_year(&mut bytes, 4, 1);
    refused(&bytes, 13);
    name_year(&mut bytes, 4, 5);
    refused(&bytes, 13);
    name_year(&mut bytes, 3, 4);
    assert_eq!(comes_out(&bytes, 1, 5), [0, 1, 2, 3, 4]);
}

/// A year that is none of the round makes a block that is not sound, with a right
/// check too, and what it would imply does not count.
#[test]
fn years_outside_the_round() {
    let last = ROUND_YEARS as u32;
    for year in [0, last + 1, last + 2, 1 << 31, u32::MAX] {
        let mut bytes = volume(ROUND_YEARS - 3, ROUND_YEARS);
        name_year(&mut bytes, 1, year);
        let damaged = comes_out(&bytes, ROUND_YEARS - 3, ROUND_YEARS);
        assert_eq!(damaged, [1]);
        let mut alone = volume(9, 9);
        name_year(&mut alone, 0, year);
        refused(&alone, 13);
    }
    // The last year is one, and stands at another's place.
    let mut bytes = volume(ROUND_YEARS - 3, ROUND_YEARS);
    name_year(&mut bytes, 1, last);
    refused(&bytes, 13);
}

/// The check is compared as a number: with the prime more it is not the same.
#[test]
fn check_past_the_prime() {
    let small = (1..=ROUND_YEARS).step_by(7).find_map(|year| {
        let block = volume(year, year);
        (multiplied(&block) < 15).then_some((year, block))
    });
    let (year, mut bytes) = small.expect("a year with a small check");
    let more = multiplied(&bytes) + 65_521;
    bytes[510..].copy_from_slice(&more.to_le_bytes());
    refused(&bytes, 13);
    bytes.extend_from_slice(&volume(year, year + 1)[BLOCK..]);
    assert_eq!(comes_out(&bytes, year, year + 1), [0]);
}

/// The length comes before what the blocks hold.
#[test]
fn lengths() {
    let whole = volume(1, 4);
    for length in 0..=whole.len() {
        let bytes = &whole[..length];
        if length > 0 && length % BLOCK == 0 {
            assert_eq!(comes_out(bytes, 1, (length / BLOCK) as u64), []);
            refused(&vec![0; length], 13);
        } else {
            refused(bytes, 11);
            refused(&vec![0; length], 11);
        }
    }
}

#[test]
fn most_blocks() {
    let last = 168_000 + MOST as u64 - 1;
    let mut bytes = volume(168_000, last + 1);
    refused(&bytes, 11);
    refused(&bytes[..MOST * BLOCK + 1], 11);
    refused(&vec![0; (MOST + 1) * BLOCK], 11);
    refused(&vec![0; 3 * MOST * BLOCK], 11);
    bytes.truncate(MOST * BLOCK);
    assert_eq!(comes_out(&bytes, 168_000, last), []);
    let damaged = [0, 1, 599, 600, 601, 1_022, 1_023];
    for index in damaged {
        break_block(&mut bytes, index as usize);
    }
    assert_eq!(comes_out(&bytes, 168_000, last), damaged);
    bytes[BLOCK..].fill(0);
    bytes[..BLOCK].copy_from_slice(&volume(168_000, 168_000));
    assert_eq!(comes_out(&bytes, 168_000, last).len(), MOST - 1);
}

#[test]
fn what_is_printed() {
    let whole = volume(3, 5);
    let mut bytes = whole.clone();
    assert_eq!(mending::printed(&bytes), [b"0\n", &whole[..]].concat());
    break_block(&mut bytes, 2);
    assert_eq!(mending::printed(&bytes), [b"2\n1\n", &whole[..]].concat());
    block(&mut bytes, 0).fill(0);
    let printed = [b"0\n2\n2\n", &whole[..]].concat();
    assert_eq!(mending::printed(&bytes), printed);
    break_block(&mut bytes, 1);
    assert_eq!(mending::printed(&bytes), b"refused 13\n");
    assert_eq!(mending::printed(&bytes[1..]), b"refused 11\n");
    assert_eq!(mending::printed(b""), b"refused 11\n");
}

/// The stored run: four of six blocks, two of them whole.
#[test]
fn stored_volume() {
    let bytes = scratched::volume();
    let whole = volume(293_994, 293_999);
    assert_eq!(comes_out(&bytes, 293_994, 293_999), [0, 1, 3, 4]);
    let printed = [b"0\n1\n3\n4\n4\n", &whole[..]].concat();
    assert_eq!(mending::printed(&bytes), printed);
}
