//! Where new and full moons fall, in parts.

use super::rows::{N, P};

/// Parts from the origin to a new moon.
#[inline]
pub const fn new_moon(lunation: u64) -> u64 {
    lunation * P
}

/// The whole parts to a full moon. As P is odd, half a part is always left.
#[inline]
pub const fn full_moon(lunation: u64) -> u64 {
    new_moon(lunation) + P / 2
}

pub const HALF_AT_FULL: u64 = P % 2;

/// Days or degrees and the remainder, of parts of less than one round: they fit in
/// 32 bits, in which the division is shorter.
#[inline]
pub fn split(parts: u64) -> [u64; 2] {
    let (parts, full) = (parts as u32, N as u32);
    [parts / full, parts % full].map(u64::from)
}
