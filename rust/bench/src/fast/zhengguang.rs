//! The Zhengguang calendar's numbers, and its nodes.

use super::boundary::Boundary;
use super::calendar::{Calendar, Head};
use super::written;

pub struct Zhengguang;

const CHAPTER_YEARS: u64 = 505;
const CHAPTER_MONTHS: u64 = 6_246;

impl Boundary<6, 10> for Zhengguang {
    const CALENDAR: Calendar = Calendar {
        first_year: 1,
        last_year: 363_600,
        months: 4_497_120,
        days: 132_802_620,
        day_divisor: 74_952,
        degree_divisor: 6_060,
        month: 2_213_377,
        year: 2_213_377,
        half_round: Some(12_989_904),
    };

    #[inline]
    fn numbers(head: Head) -> [u64; 6] {
        [
            head.before,
            head.past * CHAPTER_MONTHS % CHAPTER_YEARS,
            head.months,
            head.leap_place,
            head.solstice[0],
            head.solstice[1],
        ]
    }
}

impl Zhengguang {
    #[inline(never)]
    pub extern "C" fn nodes(year: u64, place: u64, out: &mut [u64; 6]) -> u64 {
        written(Self::CALENDAR.nodes(year, place), out)
    }
}
