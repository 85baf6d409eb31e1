//! Almanac volumes: runs of years on file, walked year after year.

use crate::ask::Refusal;
use crate::blocks::{Block, Page, Totals, BLOCK};
use crate::checkpoints::Checkpoints;
use crate::numbers::ROUND_YEARS;
use crate::walker::{Walker, Year};

/// The blocks of a volume, one after the other; no more than one is held.
pub struct Blocks {
    walker: Walker,
    last: u64,
    totals: Totals,
}

impl Blocks {
    fn from_year(first: u64, last: u64) -> Option<Self> {
        Some(Self {
            walker: Checkpoints::shared().walker(first)?,
            last,
            totals: Totals::default(),
        })
    }
}

impl Iterator for Blocks {
    type Item = Block;

    fn next(&mut self) -> Option<Block> {
        if self.walker.year() > self.last {
            return None;
        }
        let year = self.walker.next()?;
        Some(bind(&mut self.totals, &year).put_down())
    }
}

/// The page of the year that comes next in a volume with these totals so far.
pub fn bind(totals: &mut Totals, year: &Year) -> Page {
    totals.count_year(year);
    Page::of_year(year, totals)
}

/// The volume of the years from the first to the last, or the refusal's number.
pub fn blocks(first: u64, last: u64) -> Result<Blocks, u64> {
    let round = 1..=ROUND_YEARS;
    if !round.contains(&first) || !round.contains(&last) {
        return Err(Refusal::Year as u64);
    }
    if first > last {
        return Err(Refusal::ORDER as u64);
    }
    let blocks = Blocks::from_year(first, last);
    Ok(blocks.expect("a year of the round"))
}

/// Writes a volume to the front of a lent buffer and gives the count of its bytes.
/// The bytes past it stay as they were; refused, all of them do.
pub fn write(first: u64, last: u64, out: &mut [u8]) -> Result<u64, u64> {
    let blocks = blocks(first, last)?;
    let mut places = out.chunks_exact_mut(BLOCK);
    if (places.len() as u64) < (first..=last).count() as u64 {
        return Err(Refusal::ListTooShort as u64);
    }
    let mut written = 0;
    for block in blocks {
        let place = places.next().expect("room for every year");
        place.copy_from_slice(&block);
        written += BLOCK as u64;
    }
    Ok(written)
}

/// The first and the last year of a volume, or the refusal's number.
pub fn read(volume: &[u8]) -> Result<(u64, u64), u64> {
    let (blocks, rest) = volume.as_chunks::<BLOCK>();
    if blocks.is_empty() || !rest.is_empty() {
        return Err(Refusal::Volume as u64);
    }
    years(blocks).ok_or(Refusal::Block as u64)
}

/// Each block is taken apart, and what it says held against the walk from the
/// year that the first one names. Past the round the walk has no year.
fn years(blocks: &[Block]) -> Option<(u64, u64)> {
    let first = Page::take_up(&blocks[0])?.year();
    let mut walker = Checkpoints::shared().walker(first)?;
    let mut totals = Totals::default();
    let mut last = first;
    for block in blocks {
        let page = Page::take_up(block)?;
        let year = walker.next()?;
        if page != bind(&mut totals, &year) {
            return None;
        }
        last = page.year();
    }
    Some((first, last))
}
