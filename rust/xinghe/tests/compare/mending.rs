//! Scratched volumes mended: every byte of them, which blocks are told, and what stands
//! about the lent parts as it was.

use second::mending;
use xinghe::{Answer, BLOCK, MOST_BLOCKS};

use crate::expected::LAST_YEAR;
use crate::random::Random;
use crate::raw;
use crate::reign_damages::fill;
use crate::sentinels::Lent;
use crate::tally::Tally;
use crate::volumes::{make_check_right, volume, MARGIN, OTHER, SENTINEL};

/// What is answered, and the volume afterwards.
pub struct Mended {
    pub damaged: Answer<Vec<u64>>,
    pub bytes: Vec<u8>,
}

impl Mended {
    /// As the second program mends it.
    pub fn walked(volume: &[u8]) -> Self {
        let mut bytes = volume.to_vec();
        Self {
            damaged: mending::mend(&mut bytes),
            bytes,
        }
    }

    pub fn refused(volume: &[u8], number: u64) -> Self {
        Self {
            damaged: Err(number),
            bytes: volume.to_vec(),
        }
    }

    /// The indices stand at the front of a list of other numbers.
    fn list(&self) -> [u64; MOST_BLOCKS] {
        let mut list = [OTHER; MOST_BLOCKS];
        if let Ok(damaged) = &self.damaged {
            list[..damaged.len()].copy_from_slice(damaged);
        }
        list
    }

    fn number_and_count(&self) -> (u64, u64) {
        match &self.damaged {
            Ok(damaged) => (0, damaged.len() as u64),
            Err(number) => (*number, 0),
        }
    }
}

/// Other bytes about a volume, which so begins at an odd place.
fn between_others(volume: &[u8]) -> Vec<u8> {
    let others = [SENTINEL; MARGIN];
    [&others, volume, &others].concat()
}

/// The raw call's list and count are other numbers before, between more of them.
#[track_caller]
pub fn compare(tally: &mut Tally, volume: &[u8], expected: &Mended) {
    let mut memory = between_others(volume);
    let lent = &mut memory[MARGIN..][..volume.len()];
    let (mut list, mut count) = (Lent::new([OTHER; MOST_BLOCKS]), Lent::new([OTHER]));
    // SAFETY: pointer and length are those of a slice.
    let number =
        unsafe { raw::xinghe_mend(lent.as_mut_ptr(), lent.len(), &mut list.out, &mut count.out) };
    let [count] = count.given_back();
    tally.same((number, count), expected.number_and_count());
    assert_eq!(list.given_back(), expected.list());
    assert!(memory == between_others(&expected.bytes));
    let (mut bytes, mut list) = (volume.to_vec(), [OTHER; MOST_BLOCKS]);
    let damaged = xinghe::mend(&mut bytes, &mut list).map(<[u64]>::to_vec);
    tally.same(&damaged, &expected.damaged);
    assert_eq!(list, expected.list());
    assert!(bytes == expected.bytes);
}

/// What is mended is read, and mending it again changes nothing.
#[track_caller]
pub fn compare_mended(tally: &mut Tally, volume: &[u8]) {
    assert!(xinghe::read_volume(volume).is_ok());
    let kept = Mended {
        damaged: Ok(vec![]),
        bytes: volume.to_vec(),
    };
    compare(tally, volume, &kept);
}

#[test]
fn whole_volumes() {
    let mut tally = Tally::new("whole volumes to mend");
    for (first, last) in [
        (1, 1),
        (1, 20),
        (1, 1_024),
        (293_996, 293_998),
        (168_595, 168_605),
        (168_090, 169_113),
        (LAST_YEAR, LAST_YEAR),
        (LAST_YEAR - 1_023, LAST_YEAR),
    ] {
        compare_mended(&mut tally, &volume(first, last));
    }
    tally.end(16);
}

/// The length comes before what the blocks hold.
#[test]
fn lengths() {
    let mut tally = Tally::new("lengths to mend");
    let whole = volume(168_599, 168_602);
    let zeros = vec![0; whole.len()];
    for length in 0..=whole.len() {
        for bytes in [&whole[..length], &zeros[..length]] {
            compare(&mut tally, bytes, &Mended::walked(bytes));
        }
    }
    // An empty volume of its own, whose pointer comes from no memory at all.
    let mut list = [OTHER; MOST_BLOCKS];
    assert_eq!(xinghe::mend(&mut [], &mut list), Err(11));
    assert_eq!(list, [OTHER; MOST_BLOCKS]);
    tally.end(8_000);
}

/// 1,024 blocks, whole, lost but for one, and scratched here and there; then more.
#[test]
fn most_blocks() {
    let mut random = Random::new(25);
    let mut tally = Tally::new("as many blocks as may be");
    let longer = volume(168_000, 168_000 + MOST_BLOCKS as u64);
    let most = MOST_BLOCKS * BLOCK;
    let whole = &longer[..most];
    for left in [0, 1, 600, 1_022, 1_023] {
        let mut lost = vec![0; most];
        let left = left * BLOCK..(left + 1) * BLOCK;
        lost[left.clone()].copy_from_slice(&whole[left]);
        compare(&mut tally, &lost, &Mended::walked(&lost));
    }
    for one_in in [2, 10, 500] {
        let mut scratched = whole.to_vec();
        for block in scratched.chunks_mut(BLOCK) {
            if random.below(one_in) == 0 {
                fill(&mut random, block);
            }
        }
        let mended = Mended::walked(&scratched);
        assert!(mended.damaged.is_ok() && mended.bytes == whole);
        compare(&mut tally, &scratched, &mended);
    }
    let zeros = vec![0; 3 * most];
    for bytes in [&longer[..], &longer[..most + 1], &zeros, &zeros[..most + 1]] {
        compare(&mut tally, bytes, &Mended::refused(bytes, 11));
    }
    tally.end(24);
}

/// Every byte of three blocks to every other value: its block is told, and no other. Of
/// one block alone nothing is known then.
#[test]
fn every_byte_to_every_value() {
    let mut tally = Tally::new("one altered byte to mend");
    let genuine = volume(168_599, 168_601);
    let alone = volume(293_997, 293_997);
    for at in 0..genuine.len() {
        let mended = Mended {
            damaged: Ok(vec![(at / BLOCK) as u64]),
            bytes: genuine.clone(),
        };
        let mut altered = genuine.clone();
        for change in 1..=u8::MAX {
            altered[at] = genuine[at] ^ change;
            compare(&mut tally, &altered, &mended);
        }
        if at < BLOCK {
            let mut altered = alone.clone();
            altered[at] ^= 1 + at as u8 % 255;
            compare(&mut tally, &altered, &Mended::refused(&altered, 13));
        }
    }
    tally.end(2 * (3 * 512 * 255 + 512));
}

/// A block that is nothing but its year and a right check, at a place among zeros.
fn bare(year: u32, place: usize, blocks: usize) -> Vec<u8> {
    let mut bytes = vec![0; blocks * BLOCK];
    let block = &mut bytes[place * BLOCK..][..BLOCK];
    block[..4].copy_from_slice(&year.to_le_bytes());
    make_check_right(block);
    bytes
}

/// A run that just stays in the round, or leaves it by a year or more.
#[test]
fn ends_of_the_round() {
    let mut tally = Tally::new("volumes to mend about the round's ends");
    let last = LAST_YEAR as u32;
    let years = [0, 1, 2, 3, 4, last - 2, last - 1, last, last + 1, last + 2];
    for year in years.into_iter().chain([1_023, 1_024, 1 << 31, u32::MAX]) {
        for (place, blocks) in [
            (0, 1),
            (0, 2),
            (1, 2),
            (0, 3),
            (1, 3),
            (2, 3),
            (3, 4),
            (0, MOST_BLOCKS),
            (MOST_BLOCKS - 1, MOST_BLOCKS),
        ] {
            let bytes = bare(year, place, blocks);
            compare(&mut tally, &bytes, &Mended::walked(&bytes));
        }
    }
    tally.end(250);
}

/// Two such blocks among zeros: they agree, or they do not.
#[test]
fn two_sound_blocks() {
    let mut tally = Tally::new("two sound blocks");
    let years = [1, 2, 3, 4, 5, 6, 7, 8];
    for one in years {
        for other in years {
            let mut bytes = bare(one, 1, 6);
            bytes[4 * BLOCK..5 * BLOCK].copy_from_slice(&bare(other, 0, 1));
            let mended = Mended::walked(&bytes);
            let agree = one >= 2 && other == one + 3;
            assert_eq!(mended.damaged.is_ok(), agree);
            compare(&mut tally, &bytes, &mended);
        }
    }
    tally.end(128);
}

/// A year that is none of the round makes no block sound, and so contradicts none.
#[test]
fn years_outside_the_round() {
    let mut tally = Tally::new("years outside the round to mend");
    let last = LAST_YEAR as u32;
    for year in [0, last + 1, last + 2, 1 << 31, u32::MAX] {
        let mut bytes = bare(last - 3, 0, 4);
        bytes[3 * BLOCK..].copy_from_slice(&bare(year, 0, 1));
        let mended = Mended::walked(&bytes);
        assert_eq!(mended.damaged, Ok(vec![0, 1, 2, 3]));
        compare(&mut tally, &bytes, &mended);
    }
    tally.end(10);
}

/// A check of the prime or more is no rest of it: the block is not sound.
#[test]
fn check_past_the_prime() {
    let mut tally = Tally::new("checks past the prime to mend");
    let mut bytes = bare(1, 0, 2);
    for check in [0_u16, 1, 2, 65_520, 65_521, 65_522, 65_535] {
        bytes[510..512].copy_from_slice(&check.to_le_bytes());
        let mended = Mended::walked(&bytes);
        assert_eq!(mended.damaged.is_ok(), check == 1);
        compare(&mut tally, &bytes, &mended);
    }
    tally.end(14);
}
