//! Almanac volumes: the writer and the reader.

use super::chapter::{Division, MonthsBefore};
use super::node::M;
use super::rows::{self, length, number, N, P, ROUND_YEARS};

pub const BLOCK: usize = 512;
pub type Block = [u8; BLOCK];

const RECORDS_AT: usize = 8;
const RECORD: usize = 16;
pub const TOTALS_AT: usize = 216;
pub const CHECK_AT: usize = 510;
pub const PRIME: u32 = 65_521;

/// What moves from year to year of a volume.
pub struct Volume {
    past: u64,
    lunation: u32,
    day: u32,
    remainder: u32,
    /// Halves of a part since the last node.
    since_node: u32,
    /// Leap months, marked new moons, marked full moons.
    totals: [u32; 3],
}

/// In halves of a part, as a full moon falls on one.
const MONTH: u32 = 2 * P as u32;
const NODES_APART: u32 = 2 * M as u32;

#[inline]
fn node_passed(halves: u32) -> u32 {
    if halves >= NODES_APART {
        halves - NODES_APART
    } else {
        halves
    }
}

impl Volume {
    #[inline]
    pub fn from_year(first: u64) -> Self {
        let past = first - 1;
        let lunation = Division::months_before(past);
        let instant = lunation * P;
        Self {
            past,
            lunation: lunation as u32,
            day: (instant / N) as u32,
            remainder: (instant % N) as u32,
            since_node: 2 * (instant % M) as u32,
            totals: [0; 3],
        }
    }

    /// Writes the block of the year at hand and goes on to the next.
    #[inline]
    pub fn write_block(&mut self, block: &mut Block) {
        let before = u64::from(self.lunation);
        // As with a year's list, the numbers of twelve months are constants; no
        // place is 13.
        if rows::months(self.past, before) == 12 {
            self.write_months::<12>(block, 0, 13);
        } else {
            let leap = rows::leap_place(self.past, before);
            self.write_months::<13>(block, leap, leap);
        }
    }

    #[inline(always)]
    fn write_months<const COUNT: u64>(&mut self, block: &mut Block, named: u64, leap: u64) {
        *block = [0; BLOCK];
        block[..4].copy_from_slice(&(self.past as u32 + 1).to_le_bytes());
        block[4] = COUNT as u8;
        block[5] = named as u8;
        let (records, _) = block[RECORDS_AT..TOTALS_AT].as_chunks_mut();
        for (place, record) in (0..COUNT).zip(records) {
            *record = self.record(place, leap);
            self.next_month();
        }
        self.totals[0] += COUNT as u32 - 12;
        for (at, total) in (TOTALS_AT..).step_by(4).zip(self.totals) {
            block[at..at + 4].copy_from_slice(&total.to_le_bytes());
        }
        let check = check(block);
        block[CHECK_AT..].copy_from_slice(&check.to_le_bytes());
        self.past += 1;
    }

    #[inline]
    fn record(&self, place: u64, leap: u64) -> [u8; RECORD] {
        let length = length(u64::from(self.remainder));
        let number = number(place - u64::from(place >= leap));
        let last = (length | number << 8) as u32 | u32::from(place == leap) << 16;
        let fours = [self.lunation, self.day, self.remainder, last];
        let mut record = [0; RECORD];
        for (bytes, four) in record.as_chunks_mut().0.iter_mut().zip(fours) {
            *bytes = four.to_le_bytes();
        }
        record
    }

    /// Counts the month's marks and makes the monthly additions. A moon is marked
    /// within half a month's way of a node: half a month later the last node lies
    /// at most a whole month's way back.
    #[inline]
    fn next_month(&mut self) {
        let at_full_moon = node_passed(self.since_node + MONTH / 2);
        let at_next = node_passed(at_full_moon + MONTH / 2);
        self.totals[1] += u32::from(at_full_moon <= MONTH);
        self.totals[2] += u32::from(at_next <= MONTH);
        let length = length(u64::from(self.remainder)) as u32;
        self.lunation += 1;
        self.day += length;
        self.remainder = self.remainder + P as u32 - length * N as u32;
        self.since_node = at_next;
    }
}

/// Past the totals there are only zeros, and up to them a byte times its weight is
/// below 2^16: in so few bits the processor multiplies eight at once.
#[inline]
fn check(block: &Block) -> u16 {
    let fields = &block[..TOTALS_AT + 12];
    let products = (1..).zip(fields).map(|(i, &byte)| i * u16::from(byte));
    let sum: u32 = products.map(u32::from).sum();
    (sum % PRIME) as u16
}

/// The count of the bytes written.
#[inline]
pub fn write(first: u64, last: u64, out: &mut [u8]) -> Result<[u64; 1], u64> {
    rows::past(first)?;
    rows::past(last)?;
    if first > last {
        return Err(2);
    }
    let years = (last - first + 1) as usize;
    let blocks = out.as_chunks_mut().0.get_mut(..years).ok_or(6_u64)?;
    let mut volume = Volume::from_year(first);
    for block in &mut *blocks {
        volume.write_block(block);
    }
    Ok([(years * BLOCK) as u64])
}

/// The first and the last year.
#[inline]
pub fn read(volume: &[u8]) -> Result<[u64; 2], u64> {
    let (blocks, rest) = volume.as_chunks::<BLOCK>();
    let ([front, ..], []) = (blocks, rest) else {
        return Err(11);
    };
    let [a, b, c, d, ..] = *front;
    let first = u64::from(u32::from_le_bytes([a, b, c, d]));
    let last = first + blocks.len() as u64 - 1;
    if first == 0 || last > ROUND_YEARS {
        return Err(12);
    }
    let mut expected = Volume::from_year(first);
    let mut own = [0; BLOCK];
    for block in blocks {
        expected.write_block(&mut own);
        if *block != own {
            return Err(12);
        }
    }
    Ok([first, last])
}
