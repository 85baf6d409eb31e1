//! The Xinghe calendar, as `tools/build xinghe` makes it, for Rust.
//!
//! Every function takes any numbers whatever. `Err` holds the number under
//! which the library refuses: 1 the year, 2 the place, a span in the wrong order or
//! with years that are not in the volume, 3 the day of the month or of the sixty, 4 a
//! row that is not genuine, 5 a carry out of the round, 6 a list or buffer too short,
//! 7 the day number, 8 the cut or its point, 9 the planet, 10 two lists of names of
//! which neither is 360 bytes, 11 a volume that is empty or no whole number of blocks,
//! or that has too many of them to be mended, 12 a block that is not what the writer
//! gives, or of those that [`marked`] looks at one with a wrong check or totals that have
//! fallen, 13 a scratched volume whose first year is not known or whose run leaves the
//! round. include/xinghe.h says what each value means; the arrays here are in its order.
//!
//! Two further calendars have modules of their own, [`zhengguang`] and [`linde`].

mod answers;
pub mod linde;
mod raw;
pub mod zhengguang;

use answers::answer;

pub use answers::{Answer, Walk, YearList};
pub use raw::ROW;

/// A month's row: month of the round, year, place, month number, leap mark,
/// first day, small remainder, length; and of its new moon: degrees since the
/// last node, their remainder, side (0 at the node, 1 outside, 2 inside), day of
/// the anomaly and its rest.
pub type Row = [u64; ROW];

/// The bytes of a day's name, and of a list of sixty names.
pub const NAME: usize = 6;
pub const NAMES: usize = 360;

/// The bytes of a volume's block: one year.
pub const BLOCK: usize = 512;

/// The most blocks of a volume that is mended.
pub const MOST_BLOCKS: usize = 1_024;

/// A planet's stages.
#[derive(Clone, Copy, Debug, PartialEq, Eq)]
pub struct Stages {
    /// How many there are.
    pub count: u64,
    /// Ten numbers of each, in order; zeros past the count.
    pub stages: [[u64; 10]; 14],
}

/// The moons of a span of years at which an eclipse is marked.
#[derive(Clone, Copy, Debug, PartialEq, Eq)]
pub struct Marked {
    pub new_moons: u64,
    pub full_moons: u64,
}

/// Months before the year, leap remainder of the chapter, month count, leap
/// place, day of the winter solstice, its remainder.
pub fn year_head(year: u64) -> Answer<[u64; 6]> {
    answer(|out| raw::xinghe_year_head(year, out))
}

/// The row of the month at a place of a year; places are counted from 0.
pub fn month_row(year: u64, place: u64) -> Answer<Row> {
    answer(|out| raw::xinghe_month_row(year, place, out))
}

/// Day number and day of the sixty, which is 1 to 60; days of a month are
/// counted from 1.
pub fn day_of_date(year: u64, place: u64, day: u64) -> Answer<[u64; 2]> {
    answer(|out| raw::xinghe_day_of_date(year, place, day, out))
}

/// Year, place and day of the month of a day counted from the origin.
pub fn date_of_day(number: u64) -> Answer<[u64; 3]> {
    answer(|out| raw::xinghe_date_of_day(number, out))
}

/// The row so many months on, or back where the count is negative.
pub fn carry(row: &Row, count: i64) -> Answer<Row> {
    answer(|out| raw::xinghe_carry(row, count, out))
}

/// Day, remainder and quarters of each of the four phases of a month.
pub fn phases(year: u64, place: u64) -> Answer<[u64; 12]> {
    answer(|out| raw::xinghe_phases(year, place, out))
}

/// The moon's nodes and eclipses: seven numbers of the new moon, eight of the
/// full moon.
pub fn nodes(year: u64, place: u64) -> Answer<[u64; 15]> {
    answer(|out| raw::xinghe_nodes(year, place, out))
}

/// The moon's corrections: six numbers of the new moon, eight of the full moon.
pub fn corrections(year: u64, place: u64) -> Answer<[u64; 14]> {
    answer(|out| raw::xinghe_corrections(year, place, out))
}

/// Day, remainder and rest of a point of the cut of a year in 24, 60 or 72.
pub fn cut_point(year: u64, cut: u64, index: u64) -> Answer<[u64; 3]> {
    answer(|out| raw::xinghe_cut_point(year, cut, index, out))
}

/// A planet's conjunction after the solstice of a year and the one after it,
/// five numbers of each. The planets are 1 Jupiter, 2 Mars, 3 Saturn, 4 Venus
/// and 5 Mercury.
pub fn conjunctions(year: u64, planet: u64) -> Answer<[u64; 10]> {
    answer(|out| raw::xinghe_conjunctions(year, planet, out))
}

/// The stages of a planet from conjunction to conjunction.
pub fn stages(planet: u64) -> Answer<Stages> {
    let mut stages = [[0; 10]; 14];
    let [count] = answer(|count| raw::xinghe_stages(planet, count, &mut stages))?;
    Ok(Stages { count, stages })
}

/// The name of a day of the sixty, in theirs if that is a list of 360 bytes,
/// sixty names of six, else in the house's.
///
/// ```
/// let [number, sixty] = xinghe::day_of_date(293_997, 0, 1).unwrap();
/// let ganzhi = xinghe::ganzhi_names();
/// assert_eq!((number, sixty), (107_380_307, 48));
/// assert_eq!(xinghe::label(sixty, &[], &ganzhi), Ok("辛亥".as_bytes()));
/// ```
pub fn label<'a>(day: u64, theirs: &'a [u8], house: &'a [u8]) -> Answer<&'a [u8]> {
    let [whose, from] = answer(|out| {
        // SAFETY: as in `fill_year`; the names are only read.
        unsafe {
            let (theirs, their_length) = (theirs.as_ptr(), theirs.len());
            raw::xinghe_label(day, theirs, their_length, house.as_ptr(), house.len(), out)
        }
    })?;
    let list = if whose == 1 { theirs } else { house };
    Ok(&list[from as usize..][..NAME])
}

/// The sixty stem and branch names in UTF-8: a list for those who have none.
pub fn ganzhi_names() -> [u8; NAMES] {
    let mut names = [0; NAMES];
    raw::xinghe_ganzhi_names(&mut names);
    names
}

/// Writes the rows of a year, of [`ROW`] numbers each, to the front of the list.
/// The rest of it stays as it was; refused, all of it does.
pub fn fill_year(year: u64, list: &mut [u64]) -> Answer<()> {
    // SAFETY: a slice's pointer is not null and is aligned, also where the
    // slice is empty, and points to as many numbers as the slice has.
    match unsafe { raw::xinghe_fill_year(year, list.as_mut_ptr(), list.len()) } {
        0 => Ok(()),
        number => Err(number),
    }
}

/// Writes the volume of the years from the first to the last, a [`BLOCK`] for
/// each, to the front of the buffer, and gives the count of its bytes. The rest
/// of the buffer stays as it was; refused, all of it does.
///
/// ```
/// let mut buffer = [0; 2 * xinghe::BLOCK];
/// assert_eq!(xinghe::write_volume(293_996, 293_997, &mut buffer), Ok(1_024));
/// assert_eq!(xinghe::read_volume(&buffer), Ok([293_996, 293_997]));
/// buffer[600] += 1;
/// assert_eq!(xinghe::read_volume(&buffer), Err(12));
/// ```
pub fn write_volume(first: u64, last: u64, out: &mut [u8]) -> Answer<usize> {
    let [written] = answer(|written| {
        // SAFETY: as in `fill_year`.
        unsafe { raw::xinghe_write_volume(first, last, out.as_mut_ptr(), out.len(), written) }
    })?;
    Ok(written as usize)
}

/// The first and the last year of a volume. It is answered only where every byte
/// is what [`write_volume`] writes for those years.
pub fn read_volume(volume: &[u8]) -> Answer<[u64; 2]> {
    answer(|years| {
        // SAFETY: as in `fill_year`; the volume is only read.
        unsafe { raw::xinghe_read_volume(volume.as_ptr(), volume.len(), years) }
    })
}

/// The marked moons of the years from one of a volume to another, both included, by
/// the totals in one or two of its blocks. The volume is not read beyond its first
/// four bytes and these: [`read_volume`] tells whether it is what [`write_volume`]
/// writes, and then this is the count of every month.
///
/// ```
/// let mut volume = [0; 3 * xinghe::BLOCK];
/// xinghe::write_volume(293_996, 293_998, &mut volume).unwrap();
/// let marked = xinghe::marked(&volume, 293_997, 293_997).unwrap();
/// assert_eq!((marked.new_moons, marked.full_moons), (2, 3));
/// assert_eq!(xinghe::marked(&volume, 293_997, 293_999), Err(2));
/// ```
pub fn marked(volume: &[u8], from: u64, to: u64) -> Answer<Marked> {
    let [new_moons, full_moons] = answer(|moons| {
        // SAFETY: as in `fill_year`; the volume is only read.
        unsafe { raw::xinghe_marked(volume.as_ptr(), volume.len(), from, to, moons) }
    })?;
    Ok(Marked {
        new_moons,
        full_moons,
    })
}

/// Mends a scratched volume in place. The year of its first block comes from any sound
/// one, which has a right check and a year of the round; each block that is not what
/// [`write_volume`] writes at its place in the volume from that year on is written
/// afresh. Their indices, ascending, stand at the front of the list afterwards and are
/// answered. The rest of the list stays as it was; refused, the whole list does, and the
/// volume.
///
/// ```
/// let mut volume = [0; 3 * xinghe::BLOCK];
/// xinghe::write_volume(293_996, 293_998, &mut volume).unwrap();
/// let whole = volume;
/// volume[600] += 1;
/// volume[..xinghe::BLOCK].fill(0);
/// let mut damaged = [0; xinghe::MOST_BLOCKS];
/// assert_eq!(xinghe::mend(&mut volume, &mut damaged), Ok(&[0, 1][..]));
/// assert_eq!(volume, whole);
/// assert_eq!(xinghe::mend(&mut [0; xinghe::BLOCK], &mut damaged), Err(13));
/// ```
pub fn mend<'a>(volume: &mut [u8], damaged: &'a mut [u64; MOST_BLOCKS]) -> Answer<&'a [u64]> {
    let [count] = answer(|count| {
        // SAFETY: as in `fill_year`.
        unsafe { raw::xinghe_mend(volume.as_mut_ptr(), volume.len(), damaged, count) }
    })?;
    Ok(&damaged[..count as usize])
}

/// Carries a row by each of the counts in turn; those that would lead outside
/// the round are passed over.
pub fn walk(row: &Row, counts: &[i64]) -> Answer<Walk> {
    answers::walk(|out, totals| {
        // SAFETY: as in `fill_year`; the counts are only read.
        unsafe { raw::xinghe_walk(row, counts.as_ptr(), counts.len(), out, totals) }
    })
}
