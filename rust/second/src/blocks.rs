//! One block of a volume: a year's fields put down one after the other, and taken
//! up again from the front.

use crate::walker::{Month, Year};

/// The bytes of a block.
pub const BLOCK: usize = 512;
pub type Block = [u8; BLOCK];

/// Room for the longest year.
const RECORDS: usize = 13;
/// What stands before the totals: the year's own fields and its records.
const BEFORE_TOTALS: usize = 216;
/// The zeros between the totals and the check.
const ZEROS: usize = 282;
/// The bytes that the check is over; its own two come after them.
const CHECKED: usize = 510;
/// The check is a sum less this prime as often as it goes.
const PRIME: u32 = 65_521;

/// What a volume has counted since its first year.
#[derive(Clone, Copy, Debug, Default, PartialEq, Eq)]
pub struct Totals {
    leaps: u32,
    new_moons: u32,
    full_moons: u32,
}

impl Totals {
    /// Counts on by the marks of a year's months, one by one.
    pub fn count_year(&mut self, year: &Year) {
        for month in &year.months {
            self.leaps += u32::from(month.row.leap);
            self.new_moons += u32::from(month.new_moon_node.eclipse.marked);
            self.full_moons += u32::from(month.full_moon_node.eclipse.marked);
        }
    }

    /// Those of a block with a right check, whatever else it says.
    pub fn take_up(block: &Block) -> Option<Self> {
        let mut bytes = Bytes { rest: block };
        bytes.taken::<BEFORE_TOTALS>();
        let totals = bytes.totals();
        bytes.taken::<ZEROS>();
        bytes.told_check_is_right(block).then_some(totals)
    }

    /// What was counted after other totals; nothing where one of the three has
    /// fallen.
    pub fn after(&self, earlier: &Self) -> Option<Self> {
        Some(Self {
            leaps: self.leaps.checked_sub(earlier.leaps)?,
            new_moons: self.new_moons.checked_sub(earlier.new_moons)?,
            full_moons: self.full_moons.checked_sub(earlier.full_moons)?,
        })
    }

    /// The marked new moons and the marked full moons.
    pub fn marked(&self) -> (u64, u64) {
        (u64::from(self.new_moons), u64::from(self.full_moons))
    }
}

/// What a block says of a month.
#[derive(Clone, Copy, Debug, Default, PartialEq, Eq)]
struct Record {
    lunation: u32,
    day: u32,
    remainder: u32,
    length: u8,
    number: u8,
    leap: u8,
}

impl Record {
    fn of_month(month: &Month) -> Self {
        let row = &month.row;
        Self {
            lunation: wide(row.lunation),
            day: wide(row.day),
            remainder: wide(row.remainder),
            length: narrow(row.length),
            number: narrow(row.number),
            leap: u8::from(row.leap),
        }
    }
}

/// What a block says, without its zeros and its check.
#[derive(Clone, Copy, Debug, PartialEq, Eq)]
pub struct Page {
    year: u32,
    months: u8,
    leap_place: u8,
    records: [Record; RECORDS],
    totals: Totals,
}

impl Page {
    /// The totals have the year itself in them.
    pub fn of_year(year: &Year, totals: &Totals) -> Self {
        let mut records = [Record::default(); RECORDS];
        for (record, month) in records.iter_mut().zip(&year.months) {
            *record = Record::of_month(month);
        }
        Self {
            year: wide(year.number),
            months: narrow(year.months.len() as u64),
            leap_place: narrow(year.leap_place),
            records,
            totals: *totals,
        }
    }

    pub fn year(&self) -> u64 {
        u64::from(self.year)
    }

    pub fn put_down(&self) -> Block {
        let mut bytes = Vec::with_capacity(BLOCK);
        bytes.extend(self.year.to_le_bytes());
        bytes.extend([self.months, self.leap_place, 0, 0]);
        for record in &self.records {
            bytes.extend(record.lunation.to_le_bytes());
            bytes.extend(record.day.to_le_bytes());
            bytes.extend(record.remainder.to_le_bytes());
            bytes.extend([record.length, record.number, record.leap, 0]);
        }
        bytes.extend(self.totals.leaps.to_le_bytes());
        bytes.extend(self.totals.new_moons.to_le_bytes());
        bytes.extend(self.totals.full_moons.to_le_bytes());
        bytes.resize(CHECKED, 0);
        let check = check(&bytes);
        bytes.extend(check.to_le_bytes());
        bytes.try_into().expect("a block's bytes")
    }

    /// Nothing where the check is wrong or a byte is not zero that has to be.
    pub fn take_up(block: &Block) -> Option<Self> {
        let mut bytes = Bytes { rest: block };
        let year = bytes.wide();
        let [months, leap_place] = bytes.taken();
        bytes.zeros::<2>()?;
        let mut records = [Record::default(); RECORDS];
        for record in &mut records {
            *record = bytes.record()?;
        }
        let totals = bytes.totals();
        bytes.zeros::<ZEROS>()?;
        bytes.told_check_is_right(block).then_some(Self {
            year,
            months,
            leap_place,
            records,
            totals,
        })
    }
}

/// The bytes of a block that are not taken up yet.
struct Bytes<'a> {
    rest: &'a [u8],
}

impl Bytes<'_> {
    fn taken<const COUNT: usize>(&mut self) -> [u8; COUNT] {
        let (front, rest) = self.rest.split_first_chunk().expect("bytes of a block");
        self.rest = rest;
        *front
    }

    fn wide(&mut self) -> u32 {
        u32::from_le_bytes(self.taken())
    }

    fn zeros<const COUNT: usize>(&mut self) -> Option<()> {
        (self.taken() == [0; COUNT]).then_some(())
    }

    fn totals(&mut self) -> Totals {
        Totals {
            leaps: self.wide(),
            new_moons: self.wide(),
            full_moons: self.wide(),
        }
    }

    /// The last two bytes of the block.
    fn told_check_is_right(&mut self, block: &Block) -> bool {
        let told = u16::from_le_bytes(self.taken());
        assert!(self.rest.is_empty(), "the fields end before the block");
        told == check(&block[..CHECKED])
    }

    fn record(&mut self) -> Option<Record> {
        let (lunation, day, remainder) = (self.wide(), self.wide(), self.wide());
        let [length, number, leap] = self.taken();
        self.zeros::<1>()?;
        Some(Record {
            lunation,
            day,
            remainder,
            length,
            number,
            leap,
        })
    }
}

/// The first four bytes, whatever number they make.
pub fn year_named(block: &Block) -> u32 {
    Bytes { rest: block }.wide()
}

/// Whatever else the block says.
pub fn check_is_right(block: &Block) -> bool {
    let mut bytes = Bytes { rest: block };
    bytes.taken::<CHECKED>();
    bytes.told_check_is_right(block)
}

/// Byte i counts i + 1 times. Going backwards, a sum of the bytes so far is added
/// up byte after byte: it has byte i in it at i itself and at each place before. 32
/// bits hold it all, so that the prime is taken off at the end.
fn check(bytes: &[u8]) -> u16 {
    let (mut so_far, mut sum) = (0, 0);
    for &byte in bytes.iter().rev() {
        so_far += u32::from(byte);
        sum += so_far;
    }
    while sum >= PRIME {
        sum -= PRIME;
    }
    sum as u16
}

fn wide(number: u64) -> u32 {
    u32::try_from(number).expect("four bytes hold it")
}

fn narrow(number: u64) -> u8 {
    u8::try_from(number).expect("a byte holds it")
}
