//! What decides an answer about a reign, counted: a test of damages has to have come
//! upon every kind.

use xinghe::{Answer, BLOCK};

use crate::reigns::Span;
use crate::volumes::make_check_right;

/// Where the three totals of a block stand.
pub const TOTALS: [usize; 3] = [216, 220, 224];

#[derive(Clone, Copy, Debug)]
enum Outcome {
    OneBlock,
    TwoBlocks,
    Length,
    Years,
    EarlierCheck,
    LaterCheck,
    BothChecks,
    /// That total alone has fallen.
    Leaps,
    NewMoons,
    FullMoons,
    SeveralTotals,
}

const KINDS: usize = Outcome::SeveralTotals as usize + 1;

impl Outcome {
    fn of(volume: &[u8], (from, to): Span) -> Self {
        if volume.is_empty() || !volume.len().is_multiple_of(BLOCK) {
            return Self::Length;
        }
        let block = |year: u64| {
            let index = u128::from(year).checked_sub(u128::from(four(volume, 0)))?;
            volume.chunks(BLOCK).nth(usize::try_from(index).ok()?)
        };
        let (Some(_), Some(later), true) = (block(from), block(to), from <= to) else {
            return Self::Years;
        };
        match from.checked_sub(1).and_then(block) {
            Some(earlier) => Self::of_two(earlier, later),
            None if check_is_right(later) => Self::OneBlock,
            None => Self::LaterCheck,
        }
    }

    fn of_two(earlier: &[u8], later: &[u8]) -> Self {
        match (check_is_right(earlier), check_is_right(later)) {
            (false, false) => return Self::BothChecks,
            (false, true) => return Self::EarlierCheck,
            (true, false) => return Self::LaterCheck,
            (true, true) => (),
        }
        match TOTALS.map(|at| four(later, at) < four(earlier, at)) {
            [false, false, false] => Self::TwoBlocks,
            [true, false, false] => Self::Leaps,
            [false, true, false] => Self::NewMoons,
            [false, false, true] => Self::FullMoons,
            _ => Self::SeveralTotals,
        }
    }

    fn number(self) -> u64 {
        match self {
            Self::OneBlock | Self::TwoBlocks => 0,
            Self::Length => 11,
            Self::Years => 2,
            _ => 12,
        }
    }
}

pub fn four(bytes: &[u8], at: usize) -> u32 {
    let four = bytes[at..at + 4].try_into();
    u32::from_le_bytes(four.expect("four bytes"))
}

pub fn check_is_right(block: &[u8]) -> bool {
    let mut right = block.to_vec();
    make_check_right(&mut right);
    block == right
}

#[derive(Default)]
pub struct Outcomes {
    counts: [u64; KINDS],
}

impl Outcomes {
    /// What decides has to belong to the expected number.
    #[track_caller]
    pub fn count(&mut self, volume: &[u8], span: Span, expected: Answer<(u64, u64)>) {
        let outcome = Outcome::of(volume, span);
        let number = expected.err().unwrap_or(0);
        assert_eq!(outcome.number(), number, "{outcome:?}");
        self.counts[outcome as usize] += 1;
    }

    #[track_caller]
    pub fn end(self, least: u64) {
        println!("outcomes: {:?}", self.counts);
        assert!(self.counts.iter().all(|&count| count >= least));
    }
}
