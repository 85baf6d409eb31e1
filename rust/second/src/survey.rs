//! The survey: counts and digests for each era and for the round, then for the other
//! calendars.

use std::io::{self, Write};

use crate::blocks::{Block, Totals, BLOCK};
use crate::calendars;
use crate::digest::Digest;
use crate::mending;
use crate::month_counts::MonthCounts;
use crate::numbers::{ERAS, ERA_YEARS};
use crate::reigns;
use crate::volumes;
use crate::walker::{Walker, Year};

#[derive(Default)]
struct Counts {
    months: MonthCounts,
    new_moons: u64,
    full_moons: u64,
}

impl Counts {
    fn count_year(&mut self, year: &Year) {
        let lengths = year.months.iter().map(|month| month.row.length);
        self.months.count_year(year.leap_place, lengths);
        for month in &year.months {
            self.new_moons += u64::from(month.new_moon_node.eclipse.marked);
            self.full_moons += u64::from(month.full_moon_node.eclipse.marked);
        }
    }

    fn add(&mut self, other: &Self) {
        self.months.add(&other.months);
        self.new_moons += other.new_moons;
        self.full_moons += other.full_moons;
    }

    fn line(&self, title: &str, digests: &Digests) -> String {
        format!(
            "{title} {} new {} full {} digest {} planets {} volume {} marked {} mended {}\n",
            self.months.text(),
            self.new_moons,
            self.full_moons,
            digests.months.value(),
            digests.planets.value(),
            digests.volume.value(),
            digests.marked.value(),
            digests.mended.value()
        )
    }
}

/// The volume of the whole round as far as it is walked: its totals, and its last two
/// years with their blocks, or the first alone.
#[derive(Default)]
struct Volume {
    totals: Totals,
    years: Vec<Year>,
    blocks: Vec<Block>,
}

impl Volume {
    /// Goes on by a year and gives its block.
    fn go_on(&mut self, year: Year) -> Block {
        if self.years.len() == 2 {
            self.years.remove(0);
            self.blocks.remove(0);
        }
        let block = volumes::bind(&mut self.totals, &year).put_down();
        self.years.push(year);
        self.blocks.push(block);
        block
    }

    /// The two blocks with one byte altered, in the earlier of them or the later and
    /// further on in it from year to year; the first year's alone as it is.
    fn scratched(&self) -> Vec<Block> {
        let mut blocks = self.blocks.clone();
        if let [_, year] = &*self.years {
            let number = year.number as usize;
            let byte = &mut blocks[number % 2][number % BLOCK];
            *byte = byte.wrapping_add(1);
        }
        blocks
    }

    /// The scratched blocks mended as a volume of their own, and the indices of those
    /// written afresh. The years are at hand: nothing has to be walked again.
    fn mended(&self) -> (Vec<u64>, Vec<Block>) {
        let mut blocks = self.scratched();
        let first = self.years[0].number as i64;
        assert_eq!(mending::first_year(&blocks), Some(first));
        let damaged = mending::write_afresh(&mut blocks, &mending::bound(&self.years));
        (damaged, blocks)
    }
}

/// The planets, the volume, the marked moons and the mended years have digests of
/// their own, beside that of all the others.
#[derive(Default)]
struct Digests {
    months: Digest,
    planets: Digest,
    /// The blocks of the years in the volume of the whole round.
    volume: Digest,
    /// How many new moons and how many full moons of each year are marked.
    marked: Digest,
    /// Each year and the one before it, scratched and mended.
    mended: Digest,
}

impl Digests {
    /// The volume is that of the years before.
    fn feed_year(&mut self, year: Year, volume: &mut Volume) {
        self.months.feed_year(&year);
        self.planets.feed_conjunctions(&year);
        let (new_moons, full_moons) = reigns::marks(&year);
        self.marked.feed(new_moons);
        self.marked.feed(full_moons);
        self.volume.feed_block(&volume.go_on(year));
        let (damaged, blocks) = volume.mended();
        self.feed_mended(&damaged, &blocks);
    }

    fn feed_mended(&mut self, damaged: &[u64], blocks: &[Block]) {
        self.mended.feed(damaged.len() as u64);
        for &index in damaged {
            self.mended.feed(index);
        }
        for block in blocks {
            self.mended.feed_block(block);
        }
    }

    fn add(&mut self, other: &Self) {
        self.months.feed_digest(&other.months);
        self.planets.feed_digest(&other.planets);
        self.volume.feed_digest(&other.volume);
        self.marked.feed_digest(&other.marked);
        self.mended.feed_digest(&other.mended);
    }
}

pub fn write(out: &mut impl Write) -> io::Result<()> {
    let mut walker = Walker::from_origin();
    let mut round = Counts::default();
    let mut round_digests = Digests::default();
    let mut volume = Volume::default();
    for era in 1..=ERAS {
        let (counts, digests) = survey_era(&mut walker, &mut volume);
        out.write_all(counts.line(&format!("era {era}"), &digests).as_bytes())?;
        round.add(&counts);
        round_digests.add(&digests);
    }
    assert!(walker.next().is_none(), "the eras end before the round");
    out.write_all(round.line("round", &round_digests).as_bytes())?;
    for line in calendars::survey::lines() {
        out.write_all(line.as_bytes())?;
    }
    Ok(())
}

fn survey_era(walker: &mut Walker, volume: &mut Volume) -> (Counts, Digests) {
    let mut counts = Counts::default();
    let mut digests = Digests::default();
    for year in walker.take(ERA_YEARS as usize) {
        counts.count_year(&year);
        digests.feed_year(year, volume);
    }
    (counts, digests)
}
