//! The moon's nodes and eclipses.

use super::moon::{full_moon, new_moon, split, HALF_AT_FULL};
use super::rows::{N, P};

pub const M: u64 = 36_142_807;
const ERA_MONTHS: u64 = 2_085_300;

const OUTSIDE: u64 = 1;
const INSIDE: u64 = 2;

/// Distance and side of the treatise's era heads.
const ERA_HEADS: [(u64, u64); 6] = [
    (0, OUTSIDE),
    (127 * N + 39_339, OUTSIDE),
    (81 * N + 11_561, INSIDE),
    (34 * N + 192_313, INSIDE),
    (162 * N + 23_122, OUTSIDE),
    (115 * N + 203_874, OUTSIDE),
];

/// The nodes are counted on from the origin. So counted they give the sides of the
/// table in every era but the second, where each side is the other one.
#[inline]
const fn nodes_passed(lunation: u64) -> u64 {
    new_moon(lunation) / M + (lunation / ERA_MONTHS == 1) as u64
}

/// Outside after an even count of nodes.
#[inline]
const fn side_after(nodes: u64) -> u64 {
    OUTSIDE + nodes % 2
}

// Checked while compiling: the era heads are those of the table.
const _: () = {
    let mut era = 0;
    while era < ERA_HEADS.len() {
        let head = era as u64 * ERA_MONTHS;
        let (distance, side) = ERA_HEADS[era];
        assert!(new_moon(head) % M == distance);
        assert!(side_after(nodes_passed(head)) == side);
        era += 1;
    }
};

/// A new moon between the nodes.
#[derive(Clone, Copy)]
pub struct NewMoon {
    /// Since the last node.
    distance: u64,
    /// Nodes passed.
    nodes: u64,
}

impl NewMoon {
    #[inline]
    pub fn of(lunation: u64) -> Self {
        Self {
            distance: new_moon(lunation) % M,
            nodes: nodes_passed(lunation),
        }
    }

    /// A month later in the same era.
    #[inline]
    pub fn next(self) -> Self {
        let sum = self.distance + P;
        let passed = sum >= M;
        Self {
            distance: if passed { sum - M } else { sum },
            nodes: self.nodes + u64::from(passed),
        }
    }

    /// Degrees, remainder and side, which is 0 at the node.
    #[inline]
    pub fn numbers(self) -> [u64; 3] {
        let [degrees, remainder] = split(self.distance);
        let side = side_after(self.nodes) * u64::from(self.distance > 0);
        [degrees, remainder, side]
    }
}

/// Marked, degrees, remainder, half and size of the eclipse at a distance in
/// halves of a part.
#[inline]
fn eclipse(halves: u64) -> [u64; 5] {
    let from = if halves <= P {
        halves
    } else if halves >= 2 * M - P {
        2 * M - halves
    } else {
        return [0; 5];
    };
    let degrees = from / (2 * N);
    [1, degrees, from / 2 % N, from % 2, 15 - degrees]
}

#[inline]
pub fn nodes(lunation: u64) -> [u64; 15] {
    let new = NewMoon::of(lunation);
    let [degrees, remainder, side] = new.numbers();
    let at_new = eclipse(2 * new.distance);
    let full = full_moon(lunation) % M;
    let [full_degrees, full_remainder] = split(full);
    let at_full = eclipse(2 * full + HALF_AT_FULL);
    [
        degrees,
        remainder,
        side,
        at_new[0],
        at_new[1],
        at_new[2],
        at_new[4],
        full_degrees,
        full_remainder,
        HALF_AT_FULL,
        at_full[0],
        at_full[1],
        at_full[2],
        at_full[3],
        at_full[4],
    ]
}
