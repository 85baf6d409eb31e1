//! The functions of include/xinghe.h, declared as they stand there.
//!
//! An array of fixed length is a reference here, so that Rust itself sees to
//! what the header leaves to the caller: it is not null, is aligned, has that
//! length and overlaps no other argument. Only the functions that take a pointer
//! and a length beside it are unsafe.

/// The header's `XINGHE_ROW_NUMBERS`: how many numbers a row has.
pub const ROW: usize = 13;

/// How many numbers the heads and rows of the other calendars have, and how many rows
/// a year by value.
pub const ZHENGGUANG_HEAD: usize = 6;
pub const ZHENGGUANG_ROW: usize = 10;
pub const LINDE_HEAD: usize = 5;
pub const LINDE_ROW: usize = 8;
pub const YEAR_ROWS: usize = 13;

unsafe extern "C" {
    pub safe fn xinghe_year_head(year: u64, out: &mut [u64; 6]) -> u64;
    pub safe fn xinghe_month_row(year: u64, place: u64, out: &mut [u64; ROW]) -> u64;
    pub safe fn xinghe_day_of_date(year: u64, place: u64, day: u64, out: &mut [u64; 2]) -> u64;
    pub safe fn xinghe_date_of_day(number: u64, out: &mut [u64; 3]) -> u64;
    pub safe fn xinghe_carry(row: &[u64; ROW], count: i64, out: &mut [u64; ROW]) -> u64;
    pub safe fn xinghe_phases(year: u64, place: u64, out: &mut [u64; 12]) -> u64;
    pub safe fn xinghe_nodes(year: u64, place: u64, out: &mut [u64; 15]) -> u64;
    pub safe fn xinghe_corrections(year: u64, place: u64, out: &mut [u64; 14]) -> u64;
    pub safe fn xinghe_cut_point(year: u64, cut: u64, index: u64, out: &mut [u64; 3]) -> u64;
    pub safe fn xinghe_conjunctions(year: u64, planet: u64, out: &mut [u64; 10]) -> u64;
    pub safe fn xinghe_stages(planet: u64, count: &mut [u64; 1], out: &mut [[u64; 10]; 14]) -> u64;

    pub safe fn xinghe_ganzhi_names(out: &mut [u8; 360]) -> u64;

    /// Each list points to as many bytes as the length after it says, and is not
    /// null.
    pub fn xinghe_label(
        day: u64,
        theirs: *const u8,
        theirs_length: usize,
        house: *const u8,
        house_length: usize,
        out: &mut [u64; 2],
    ) -> u64;

    /// `counts` points to `length` numbers, and is neither null nor unaligned.
    pub fn xinghe_walk(
        row: &[u64; ROW],
        counts: *const i64,
        length: usize,
        out: &mut [u64; ROW],
        totals: &mut [u64; 3],
    ) -> u64;

    /// `out` points to `length` numbers, and is neither null nor unaligned.
    pub fn xinghe_fill_year(year: u64, out: *mut u64, length: usize) -> u64;

    /// `out` points to `length` bytes, and is not null.
    pub fn xinghe_write_volume(
        first: u64,
        last: u64,
        out: *mut u8,
        length: usize,
        written: &mut [u64; 1],
    ) -> u64;

    /// `volume` points to `length` bytes, and is not null.
    pub fn xinghe_read_volume(volume: *const u8, length: usize, years: &mut [u64; 2]) -> u64;

    /// `volume` points to `length` bytes, and is not null.
    pub fn xinghe_marked(
        volume: *const u8,
        length: usize,
        from: u64,
        to: u64,
        moons: &mut [u64; 2],
    ) -> u64;

    /// `volume` points to `length` bytes, and is not null.
    pub fn xinghe_mend(
        volume: *mut u8,
        length: usize,
        damaged: &mut [u64; 1_024],
        count: &mut [u64; 1],
    ) -> u64;
}

unsafe extern "C" {
    pub safe fn zhengguang_year_head(year: u64, out: &mut [u64; ZHENGGUANG_HEAD]) -> u64;
    pub safe fn zhengguang_month_row(year: u64, place: u64, out: &mut [u64; ZHENGGUANG_ROW])
        -> u64;
    pub safe fn zhengguang_day_of_date(year: u64, place: u64, day: u64, out: &mut [u64; 2]) -> u64;
    pub safe fn zhengguang_date_of_day(number: u64, out: &mut [u64; 3]) -> u64;
    pub safe fn zhengguang_carry(
        row: &[u64; ZHENGGUANG_ROW],
        count: i64,
        out: &mut [u64; ZHENGGUANG_ROW],
    ) -> u64;
    pub safe fn zhengguang_year(
        year: u64,
        head: &mut [u64; ZHENGGUANG_HEAD],
        rows: &mut [[u64; ZHENGGUANG_ROW]; YEAR_ROWS],
    ) -> u64;
    pub safe fn zhengguang_cut_point(year: u64, cut: u64, index: u64, out: &mut [u64; 3]) -> u64;
    pub safe fn zhengguang_nodes(year: u64, place: u64, out: &mut [u64; 6]) -> u64;

    /// `counts` points to `length` numbers, and is neither null nor unaligned.
    pub fn zhengguang_walk(
        row: &[u64; ZHENGGUANG_ROW],
        counts: *const i64,
        length: usize,
        out: &mut [u64; ZHENGGUANG_ROW],
        totals: &mut [u64; 3],
    ) -> u64;
}

unsafe extern "C" {
    pub safe fn linde_year_head(year: u64, out: &mut [u64; LINDE_HEAD]) -> u64;
    pub safe fn linde_month_row(year: u64, place: u64, out: &mut [u64; LINDE_ROW]) -> u64;
    pub safe fn linde_day_of_date(year: u64, place: u64, day: u64, out: &mut [u64; 2]) -> u64;
    pub safe fn linde_date_of_day(number: u64, out: &mut [u64; 3]) -> u64;
    pub safe fn linde_carry(row: &[u64; LINDE_ROW], count: i64, out: &mut [u64; LINDE_ROW]) -> u64;
    pub safe fn linde_year(
        year: u64,
        head: &mut [u64; LINDE_HEAD],
        rows: &mut [[u64; LINDE_ROW]; YEAR_ROWS],
    ) -> u64;
    pub safe fn linde_cut_point(year: u64, cut: u64, index: u64, out: &mut [u64; 3]) -> u64;

    /// `counts` points to `length` numbers, and is neither null nor unaligned.
    pub fn linde_walk(
        row: &[u64; LINDE_ROW],
        counts: *const i64,
        length: usize,
        out: &mut [u64; LINDE_ROW],
        totals: &mut [u64; 3],
    ) -> u64;
}
