//! Two running sums over every number of the walk.

use crate::anomaly::ByRates;
use crate::blocks::Block;
use crate::fields;
use crate::instants::ASKED_CUTS;
use crate::sixty::{self, GANZHI};
use crate::walker::{Month, Year};

/// Added to corrections and amounts, so that none is negative.
const CORRECTION_SHIFT: i64 = 1_000_000;

#[derive(Clone, Copy, Debug, PartialEq, Eq)]
pub struct Digest {
    h1: u64,
    h2: u64,
}

impl Default for Digest {
    fn default() -> Self {
        Self { h1: 1, h2: 1 }
    }
}

impl Digest {
    pub fn feed(&mut self, value: u64) {
        self.h1 = (self.h1 * 65_599 + value) % 4_294_967_291;
        self.h2 = (self.h2 * 31_337 + value) % 4_294_967_279;
    }

    pub fn feed_all(&mut self, values: &[u64]) {
        for &value in values {
            self.feed(value);
        }
    }

    fn feed_signed(&mut self, values: &[i64]) {
        for &value in values {
            self.feed(u64::try_from(value).expect("no negative number is fed"));
        }
    }

    /// Both sums of another digest, the first one first.
    pub fn feed_digest(&mut self, other: &Self) {
        self.feed(other.h1);
        self.feed(other.h2);
    }

    /// Everything about the year but its planets.
    pub fn feed_year(&mut self, year: &Year) {
        for cut in ASKED_CUTS {
            for point in cut.walk(year.solstice) {
                self.feed_all(&fields::point(point));
            }
        }
        for month in &year.months {
            self.feed_month(month);
        }
    }

    pub fn feed_conjunctions(&mut self, year: &Year) {
        for conjunctions in &year.conjunctions {
            self.feed_all(fields::conjunctions(conjunctions).as_flattened());
        }
    }

    pub fn feed_by_rates(&mut self, answer: &ByRates) {
        let signed = [answer.amount, answer.correction];
        self.feed_signed(&signed.map(|value| value + CORRECTION_SHIFT));
    }

    /// A volume's block, by fours of bytes.
    pub fn feed_block(&mut self, block: &Block) {
        let (fours, _) = block.as_chunks();
        for &four in fours {
            self.feed(u64::from(u32::from_le_bytes(four)));
        }
    }

    pub fn feed_bytes(&mut self, bytes: &[u8]) {
        for &byte in bytes {
            self.feed(u64::from(byte));
        }
    }

    fn feed_month(&mut self, month: &Month) {
        self.feed_all(&fields::row(&month.row));
        self.feed(month.sixty);
        let name = sixty::label(month.sixty, &[], &GANZHI).expect("a day of the sixty");
        self.feed_bytes(name);
        for phase in fields::phases(month) {
            self.feed_all(&phase);
        }
        self.feed_all(&fields::new_moon_node(month));
        self.feed_all(&fields::full_moon_node(month));
        self.feed_signed(&fields::new_moon_correction(month, CORRECTION_SHIFT));
        self.feed_signed(&fields::full_moon_correction(month, CORRECTION_SHIFT));
    }

    /// Both sums in one number.
    pub fn value(&self) -> u64 {
        (self.h1 << 32) + self.h2
    }
}
