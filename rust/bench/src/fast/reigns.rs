//! The marked moons of a span of years, by the totals in a volume's blocks.

use super::volumes::{Block, BLOCK, CHECK_AT, PRIME, TOTALS_AT};

#[inline]
pub fn four(block: &Block, at: usize) -> u32 {
    let [a, b, c, d] = [0, 1, 2, 3].map(|i| block[at + i]);
    u32::from_le_bytes([a, b, c, d])
}

/// Byte i counts i + 1 times. Any bytes may stand behind the totals, so that all of
/// them are summed.
#[inline]
pub fn weighted(body: &[u8]) -> u32 {
    let products = (1..).zip(body).map(|(i, &byte)| i * u32::from(byte));
    products.sum()
}

/// The same in two halves, with products of 16 bits: a byte of the second half counts
/// as often as its like in the first, and once more for each byte there.
#[inline]
pub fn weighted_by_halves(body: &[u8]) -> u32 {
    const HALF: u16 = (CHECK_AT / 2) as u16;
    let (front, back) = body.split_at(HALF.into());
    let sum = |bytes: &[u8], more: u16| -> u32 {
        let products = (1..).zip(bytes).map(|(i, &byte): (u16, _)| {
            let byte = u16::from(byte);
            u32::from(i * byte) + u32::from(more * byte)
        });
        products.sum()
    };
    sum(front, 0) + sum(back, HALF)
}

#[inline]
pub fn check_is_right(block: &Block, weighted: impl Fn(&[u8]) -> u32) -> bool {
    let (body, told) = block.split_at(CHECK_AT);
    let told = u16::from_le_bytes([told[0], told[1]]);
    weighted(body) % PRIME == u32::from(told)
}

/// Leap months, marked new moons, marked full moons.
#[inline]
fn totals(block: &Block, weighted: impl Fn(&[u8]) -> u32) -> Result<[u32; 3], u64> {
    if !check_is_right(block, weighted) {
        return Err(12);
    }
    Ok([0, 4, 8].map(|further| four(block, TOTALS_AT + further)))
}

/// The marked new moons and the marked full moons.
#[inline]
pub fn marked(
    volume: &[u8],
    from: u64,
    to: u64,
    weighted: impl Fn(&[u8]) -> u32,
) -> Result<[u64; 2], u64> {
    let (blocks, rest) = volume.as_chunks::<BLOCK>();
    let ([front, ..], []) = (blocks, rest) else {
        return Err(11);
    };
    let first = u64::from(four(front, 0));
    if from < first || from > to || to - first >= blocks.len() as u64 {
        return Err(2);
    }
    let later = totals(&blocks[(to - first) as usize], &weighted)?;
    let earlier = if from == first {
        [0; 3]
    } else {
        totals(&blocks[(from - first - 1) as usize], &weighted)?
    };
    if later
        .iter()
        .zip(earlier)
        .any(|(&later, earlier)| later < earlier)
    {
        return Err(12);
    }
    Ok([1, 2].map(|i| u64::from(later[i] - earlier[i])))
}
