//! The volume that the mending program's stored run is given.

use crate::blocks::{Block, BLOCK};
use crate::volumes;

const FIRST: u64 = 293_994;
const LAST: u64 = 293_999;

/// Six years about Xinghe 2. The first block and one in the middle are scratched, one
/// is lost, and one has a single altered byte, in the total of its marked full moons.
/// The third and the last are whole.
pub fn volume() -> Vec<u8> {
    let blocks = volumes::blocks(FIRST, LAST).expect("years of the round");
    let mut blocks: Vec<Block> = blocks.collect();
    scratch(&mut blocks[0][..300], 1);
    blocks[1] = [0; BLOCK];
    blocks[3][224] += 1;
    scratch(&mut blocks[4][7..], 2);
    blocks.concat()
}

/// Bytes that look random and are the same in every run.
fn scratch(bytes: &mut [u8], mut seed: u32) {
    for byte in bytes {
        seed = seed.wrapping_mul(1_664_525).wrapping_add(1_013_904_223);
        *byte = seed.to_be_bytes()[0];
    }
}
