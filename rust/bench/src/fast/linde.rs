//! The Linde calendar's numbers.

use super::boundary::Boundary;
use super::calendar::{Calendar, Head};

pub struct Linde;

impl Boundary<5, 8> for Linde {
    const CALENDAR: Calendar = Calendar {
        first_year: 0,
        last_year: 300_000,
        months: 3_710_517,
        days: 109_573_782,
        day_divisor: 1_340,
        degree_divisor: 1_340,
        month: 39_571,
        year: 489_428,
        half_round: None,
    };

    #[inline]
    fn numbers(head: Head) -> [u64; 5] {
        let [day, remainder] = head.solstice;
        [head.before, head.months, head.leap_place, day, remainder]
    }
}
