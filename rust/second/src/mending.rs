//! Mending a scratched volume: the year of its first block from the sound ones, and
//! every block held to what the walk from that year says.

use std::borrow::Borrow;
use std::collections::BTreeSet;

use crate::ask::Refusal;
use crate::blocks::{check_is_right, year_named, Block, Page, Totals, BLOCK};
use crate::checkpoints::Checkpoints;
use crate::numbers::ROUND_YEARS;
use crate::volume_programs::refused;
use crate::volumes;
use crate::walker::Year;

/// The most blocks of a volume that is mended.
pub const MOST_BLOCKS: usize = 1_024;

/// Mends a volume in place and gives the indices of the blocks written afresh, or the
/// refusal's number: then the volume stays as it was.
pub fn mend(volume: &mut [u8]) -> Result<Vec<u64>, u64> {
    let (blocks, rest) = volume.as_chunks_mut::<BLOCK>();
    if blocks.is_empty() || blocks.len() > MOST_BLOCKS || !rest.is_empty() {
        return Err(Refusal::Volume as u64);
    }
    let pages = called_for(blocks).ok_or(Refusal::FirstYear as u64)?;
    Ok(write_afresh(blocks, &pages))
}

/// The pages of a run of years as long as the volume. Past the round the walk has no
/// year, so that the pages are fewer then.
fn called_for(blocks: &[Block]) -> Option<Vec<Page>> {
    let first = u64::try_from(first_year(blocks)?).ok()?;
    let walker = Checkpoints::shared().walker(first)?;
    let pages = bound(walker.take(blocks.len()));
    (pages.len() == blocks.len()).then_some(pages)
}

/// The year of the first block, where the sound ones agree about it. It may be none
/// of the round.
pub fn first_year(blocks: &[Block]) -> Option<i64> {
    let mut first_years = BTreeSet::new();
    for (index, block) in blocks.iter().enumerate() {
        let before = &blocks[..index];
        first_years.extend(sound_year(block).map(|year| counted_down(year, before)));
    }
    let first_year = first_years.pop_first();
    first_year.filter(|_| first_years.is_empty())
}

/// A block is sound with a right check and a year of the round, whatever else it says.
fn sound_year(block: &Block) -> Option<u32> {
    let year = year_named(block);
    let sound = (1..=ROUND_YEARS).contains(&year.into()) && check_is_right(block);
    sound.then_some(year)
}

/// A year back for each of the blocks before it, below year 1 too.
fn counted_down(year: u32, before: &[Block]) -> i64 {
    before.iter().fold(year.into(), |year, _| year - 1)
}

/// The pages of a volume that begins with the first of these years.
pub fn bound(years: impl IntoIterator<Item = impl Borrow<Year>>) -> Vec<Page> {
    let mut totals = Totals::default();
    let years = years.into_iter();
    let pages = years.map(|year| volumes::bind(&mut totals, year.borrow()));
    pages.collect()
}

/// Puts down each page that its block does not say, and gives the indices of these
/// blocks. A page has every byte of a block in it: those that are not fields have to be
/// zeros, and the check right, for it to be taken up at all.
pub fn write_afresh(blocks: &mut [Block], pages: &[Page]) -> Vec<u64> {
    let mut damaged = Vec::new();
    for (index, (block, page)) in (0..).zip(blocks.iter_mut().zip(pages)) {
        if Page::take_up(block) != Some(*page) {
            *block = page.put_down();
            damaged.push(index);
        }
    }
    damaged
}

/// What the mending program prints: the indices and their number, one a line, then the
/// mended volume and nothing after it.
pub fn printed(input: &[u8]) -> Vec<u8> {
    let mut volume = input.to_vec();
    let text = match mend(&mut volume) {
        Ok(damaged) => listed(&damaged),
        Err(number) => return refused(number).into_bytes(),
    };
    [text.into_bytes(), volume].concat()
}

fn listed(damaged: &[u64]) -> String {
    let count = damaged.len() as u64;
    let numbers = damaged.iter().chain([&count]);
    numbers.map(|number| format!("{number}\n")).collect()
}
