//! What decides the answer about a scratched volume, counted: a test of damages has to
//! have come upon every kind.

use xinghe::{Answer, BLOCK, MOST_BLOCKS};

use crate::expected::LAST_YEAR;
use crate::reign_outcomes::{check_is_right, four};

#[derive(Clone, Copy, Debug)]
enum Outcome {
    Kept,
    /// What is written afresh is not sound: the first block too, so that the year comes
    /// from a later one, or others alone.
    First,
    Others,
    /// What is written afresh is sound, all of it or a part.
    Sound,
    SoundAndOthers,
    Empty,
    PartOfBlock,
    TooManyBlocks,
    NoneSound,
    DifferentYears,
    BeforeRound,
    PastRound,
}

const KINDS: usize = Outcome::PastRound as usize + 1;

impl Outcome {
    fn of(volume: &[u8], damaged: &[u64]) -> Self {
        let (blocks, rest) = volume.as_chunks::<BLOCK>();
        match (blocks.len(), rest.len()) {
            (0, 0) => Self::Empty,
            (1..=MOST_BLOCKS, 0) => Self::of_blocks(blocks, damaged),
            (_, 0) => Self::TooManyBlocks,
            _ => Self::PartOfBlock,
        }
    }

    fn of_blocks(blocks: &[[u8; BLOCK]], damaged: &[u64]) -> Self {
        let implied: Vec<Option<i64>> = (0..).zip(blocks).map(implied).collect();
        let mut first_years = implied.iter().flatten();
        let Some(&first) = first_years.next() else {
            return Self::NoneSound;
        };
        let last = first + blocks.len() as i64 - 1;
        if first_years.any(|&other| other != first) {
            Self::DifferentYears
        } else if first < 1 {
            Self::BeforeRound
        } else if last > LAST_YEAR as i64 {
            Self::PastRound
        } else {
            Self::of_damaged(&implied, damaged)
        }
    }

    fn of_damaged(implied: &[Option<i64>], damaged: &[u64]) -> Self {
        let sound = |&&index: &&u64| implied[index as usize].is_some();
        match (damaged, damaged.iter().filter(sound).count()) {
            ([], _) => Self::Kept,
            ([0, ..], 0) => Self::First,
            (_, 0) => Self::Others,
            (_, count) if count == damaged.len() => Self::Sound,
            _ => Self::SoundAndOthers,
        }
    }

    fn number(self) -> u64 {
        match self {
            Self::Kept | Self::First | Self::Others | Self::Sound | Self::SoundAndOthers => 0,
            Self::Empty | Self::PartOfBlock | Self::TooManyBlocks => 11,
            _ => 13,
        }
    }
}

/// The year of the first block, as a sound one has it.
fn implied((index, block): (i64, &[u8; BLOCK])) -> Option<i64> {
    let year = four(block, 0);
    let in_round = (1..=LAST_YEAR as u32).contains(&year);
    (in_round && check_is_right(block)).then_some(i64::from(year) - index)
}

#[derive(Default)]
pub struct Outcomes {
    counts: [u64; KINDS],
}

impl Outcomes {
    /// What decides has to belong to the expected number.
    #[track_caller]
    pub fn count(&mut self, volume: &[u8], expected: &Answer<Vec<u64>>) {
        let damaged = expected.as_deref().unwrap_or_default();
        let outcome = Outcome::of(volume, damaged);
        let number = expected.as_ref().err().unwrap_or(&0);
        assert_eq!(outcome.number(), *number, "{outcome:?}");
        self.counts[outcome as usize] += 1;
    }

    #[track_caller]
    pub fn end(self, least: u64) {
        println!("outcomes: {:?}", self.counts);
        assert!(self.counts.iter().all(|&count| count >= least));
    }
}
