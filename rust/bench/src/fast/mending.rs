//! Mending a scratched volume.

use super::reigns::{check_is_right, four, weighted_by_halves};
use super::rows::ROUND_YEARS;
use super::volumes::{Block, Volume, BLOCK};

pub const MOST_BLOCKS: usize = 1_024;

#[inline]
fn is_sound(block: &Block) -> bool {
    let round = 1..=ROUND_YEARS as u32;
    round.contains(&four(block, 0)) && check_is_right(block, weighted_by_halves)
}

/// The year of the first block as a sound one implies it; nothing if this one is not.
#[inline]
fn implied(index: i64, block: &Block) -> Option<i64> {
    is_sound(block).then(|| i64::from(four(block, 0)) - index)
}

#[inline]
fn in_round(first: i64, blocks: &[Block]) -> bool {
    first >= 1 && first + blocks.len() as i64 - 1 <= ROUND_YEARS as i64
}

/// A year of the round, as is the last of the run that it begins. Every block's check is
/// worked out.
#[inline]
pub fn first_by_checks(blocks: &[Block]) -> Option<u64> {
    let blocks_and_places = (0..).zip(blocks);
    let mut implied = blocks_and_places.filter_map(|(index, block)| implied(index, block));
    let first = implied.next()?;
    (in_round(first, blocks) && implied.all(|other| other == first)).then_some(first as u64)
}

/// The same, where a block that names its own year is not looked at further.
#[inline]
pub fn first_by_names(blocks: &[Block]) -> Option<u64> {
    let first = (0..)
        .zip(blocks)
        .find_map(|(index, block)| implied(index, block))?;
    let agrees =
        |(year, block): (i64, &Block)| i64::from(four(block, 0)) == year || !is_sound(block);
    (in_round(first, blocks) && (first..).zip(blocks).all(agrees)).then_some(first as u64)
}

/// The count of the blocks written afresh; the first year comes by one way or the other.
#[inline]
pub fn mend(
    volume: &mut [u8],
    damaged: &mut [u64; MOST_BLOCKS],
    first_year: impl Fn(&[Block]) -> Option<u64>,
) -> Result<[u64; 1], u64> {
    let (blocks, rest) = volume.as_chunks_mut::<BLOCK>();
    if blocks.is_empty() || blocks.len() > MOST_BLOCKS || !rest.is_empty() {
        return Err(11);
    }
    let mut expected = Volume::from_year(first_year(blocks).ok_or(13_u64)?);
    let mut own = [0; BLOCK];
    let mut count = 0;
    for (index, block) in (0..).zip(blocks) {
        expected.write_block(&mut own);
        if *block != own {
            *block = own;
            damaged[count] = index;
            count += 1;
        }
    }
    Ok([count as u64])
}
