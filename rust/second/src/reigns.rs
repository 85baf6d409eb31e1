//! How many in a reign: the marked moons of a span of years, told from a volume's
//! totals, and counted month by month.

use crate::ask::Refusal;
use crate::blocks::{year_named, Block, Totals, BLOCK};
use crate::checkpoints::Checkpoints;
use crate::walker::Year;

/// The marked new moons and the marked full moons of the years from one to another,
/// from the totals of one or two blocks, or the refusal's number. The volume may be
/// any bytes.
pub fn marked(volume: &[u8], from: u64, to: u64) -> Result<(u64, u64), u64> {
    let (blocks, rest) = volume.as_chunks::<BLOCK>();
    if blocks.is_empty() || !rest.is_empty() {
        return Err(Refusal::Volume as u64);
    }
    let looked_at = looked_at(blocks, from, to);
    let (before, last) = looked_at.ok_or(Refusal::NOT_IN_VOLUME as u64)?;
    let totals = counted_between(before, last).ok_or(Refusal::Block as u64)?;
    Ok(totals.marked())
}

/// The block of the year before the span, where the volume has one, and that of the
/// span's last year. The years are counted on from the first block's, in so many bits
/// that none is past them; the last is looked for from the span's first on.
fn looked_at(blocks: &[Block], from: u64, to: u64) -> Option<(Option<&Block>, &Block)> {
    let first = u128::from(year_named(&blocks[0]));
    let mut years = (first..).zip(blocks).peekable();
    let mut before = None;
    while let Some((_, block)) = years.next_if(|&(year, _)| year != u128::from(from)) {
        before = Some(block);
    }
    let (_, last) = years.find(|&(year, _)| year == u128::from(to))?;
    Some((before, last))
}

/// What the last block has counted and the one before the span has not; before a
/// volume nothing is counted.
fn counted_between(before: Option<&Block>, last: &Block) -> Option<Totals> {
    let last = Totals::take_up(last)?;
    let before = before.map_or(Some(Totals::default()), Totals::take_up)?;
    last.after(&before)
}

/// The same moons of years of the round, counted mark by mark through every month.
pub fn counted(from: u64, to: u64) -> (u64, u64) {
    let walker = Checkpoints::shared().walker(from);
    let years = walker.expect("a year of the round");
    let years = years.take_while(|year| year.number <= to);
    years.fold((0, 0), |(new_moons, full_moons), year| {
        let (new_moon_marks, full_moon_marks) = marks(&year);
        (new_moons + new_moon_marks, full_moons + full_moon_marks)
    })
}

/// The marks at the new moons of a year's months, and those at their full moons.
pub fn marks(year: &Year) -> (u64, u64) {
    let new_moons = year.months.iter().map(|month| month.new_moon_node.eclipse);
    let full_moons = year.months.iter().map(|month| month.full_moon_node.eclipse);
    let new_moons = new_moons.filter(|eclipse| eclipse.marked).count();
    let full_moons = full_moons.filter(|eclipse| eclipse.marked).count();
    (new_moons as u64, full_moons as u64)
}
