//! Years, months and days of the other calendars, by formulas over one struct of
//! numbers. It is handed on by value and everything here is inlined, if need be by
//! order, so that each calendar's functions divide by constants.

use super::cuts::{self, SunYear};
use super::rows::{number, SIXTY};

#[derive(Clone, Copy)]
pub struct Calendar {
    /// As they are written.
    pub first_year: u64,
    pub last_year: u64,
    pub months: u64,
    pub days: u64,
    /// Parts of a day that months are counted in, and years.
    pub day_divisor: u64,
    pub degree_divisor: u64,
    /// So many parts.
    pub month: u64,
    pub year: u64,
    /// From node to node, in a month's parts.
    pub half_round: Option<u64>,
}

/// Where the numbers of the node stand in a row that has them.
const BEHIND: usize = 8;

/// What is told of a year.
#[derive(Clone, Copy)]
pub struct Head {
    pub past: u64,
    pub before: u64,
    pub months: u64,
    /// 0 where there is none.
    pub leap_place: u64,
    pub solstice: [u64; 2],
}

/// What a row takes from the moon.
#[derive(Clone, Copy)]
struct NewMoon {
    lunation: u64,
    day: u64,
    remainder: u64,
    since_node: u64,
}

/// What a month is called in its year.
#[derive(Clone, Copy)]
struct Name {
    year: u64,
    place: u64,
    /// Whether the place's term falls after the month, and whether the month is leap.
    behind: bool,
    leap: bool,
}

impl Calendar {
    #[inline]
    fn past(self, year: u64) -> Result<u64, u64> {
        if !(self.first_year..=self.last_year).contains(&year) {
            return Err(1);
        }
        Ok(year - self.first_year)
    }

    /// The day of the solstice after so many years.
    #[inline]
    fn solstice(self, past: u64) -> u64 {
        past * self.year / self.degree_divisor
    }

    #[inline]
    fn first_day(self, lunation: u64) -> u64 {
        lunation * self.month / self.day_divisor
    }

    /// The month in which a day lies.
    #[inline]
    fn month_of(self, day: u64) -> u64 {
        (day * self.day_divisor + self.day_divisor - 1) / self.month
    }

    #[inline]
    fn months_before(self, past: u64) -> u64 {
        self.month_of(self.solstice(past))
    }

    /// Twelve, and a thirteenth if the one after it begins by the next solstice's day.
    #[inline]
    fn months_of(self, past: u64, before: u64) -> u64 {
        let next = (self.solstice(past + 1) + 1) * self.day_divisor;
        12 + u64::from((before + 13) * self.month < next)
    }

    /// Middle terms lie a year's parts apart, of which a day has so many.
    #[inline]
    fn term_day(self) -> u64 {
        12 * self.degree_divisor
    }

    /// The leap place of a year of thirteen months: the first whose term falls on the
    /// next new moon's day or later. By instants it comes after `last`, which one
    /// division gives. A term gains nine tenths of a day on the new moon from place to
    /// place, so that by days it may also be `last` or the place before.
    #[inline]
    fn leap_place(self, past: u64, before: u64) -> u64 {
        // In parts that measure both; the second is the smaller.
        let (term, moon) = (self.year * self.day_divisor, self.month * self.term_day());
        let gap = (before + 1) * moon - 12 * past * term;
        let last = (gap - 1) / (term - moon);
        let is_behind = |places_back| {
            let next_day = self.first_day(before + last + 1 - places_back);
            (12 * past + last - places_back) * self.year >= next_day * self.term_day()
        };
        last + 1 - u64::from(is_behind(0)) - u64::from(is_behind(1))
    }

    #[inline]
    pub fn head(self, year: u64) -> Result<Head, u64> {
        let past = self.past(year)?;
        let before = self.months_before(past);
        let months = self.months_of(past, before);
        Ok(Head {
            past,
            before,
            months,
            // Worked out for every year, as a jump would often be guessed wrongly.
            leap_place: self.leap_place(past, before) * (months - 12),
            solstice: [self.solstice(past), past * self.year % self.degree_divisor],
        })
    }

    #[inline]
    fn length(self, remainder: u64) -> u64 {
        29 + u64::from(remainder >= 30 * self.day_divisor - self.month)
    }

    #[inline]
    fn new_moon(self, lunation: u64) -> NewMoon {
        let parts = lunation * self.month;
        NewMoon {
            lunation,
            day: parts / self.day_divisor,
            remainder: parts % self.day_divisor,
            since_node: self.half_round.map_or(0, |round| parts % round),
        }
    }

    /// The distance since the last node some way on, which is too short to pass two.
    #[inline]
    fn since_node(self, before: u64, way: u64) -> u64 {
        let moved = before + way;
        match self.half_round {
            Some(round) if moved >= round => moved - round,
            _ => moved,
        }
    }

    /// The monthly additions.
    #[inline]
    fn next(self, moon: NewMoon) -> NewMoon {
        let length = self.length(moon.remainder);
        NewMoon {
            lunation: moon.lunation + 1,
            day: moon.day + length,
            remainder: moon.remainder + self.month - length * self.day_divisor,
            since_node: self.since_node(moon.since_node, self.month),
        }
    }

    /// Degrees and remainder of a distance since a node, in 32 bits, in which the
    /// division is shorter.
    #[inline]
    fn degrees(self, since_node: u64) -> [u64; 2] {
        let (parts, full) = (since_node as u32, self.day_divisor as u32);
        [parts / full, parts % full].map(u64::from)
    }

    #[inline]
    fn numbers<const ROW: usize>(self, moon: NewMoon, name: Name) -> [u64; ROW] {
        let mut row = [0; ROW];
        row[..BEHIND].copy_from_slice(&[
            moon.lunation,
            name.year,
            name.place,
            number(name.place - u64::from(name.behind)),
            u64::from(name.leap),
            moon.day,
            moon.remainder,
            self.length(moon.remainder),
        ]);
        if let [degrees, remainder] = &mut row[BEHIND..] {
            [*degrees, *remainder] = self.degrees(moon.since_node);
        }
        row
    }

    #[inline(always)]
    fn row_at<const ROW: usize>(self, past: u64, place: u64, lunation: u64) -> [u64; ROW] {
        let moon = self.new_moon(lunation);
        let next_day = moon.day + self.length(moon.remainder);
        let term = (12 * past + place) * self.year;
        // From the leap month on, a place's term falls after its month; the leap month
        // comes after the term before, too.
        let behind = term >= next_day * self.term_day();
        let name = Name {
            year: past + self.first_year,
            place,
            behind,
            leap: behind & (term < moon.day * self.term_day() + self.year),
        };
        self.numbers(moon, name)
    }

    #[inline]
    fn lunation(self, year: u64, place: u64) -> Result<u64, u64> {
        let past = self.past(year)?;
        let before = self.months_before(past);
        // The thirteenth month is seldom asked for, and only then looked for.
        if place < 12 || place == 12 && self.months_of(past, before) == 13 {
            Ok(before + place)
        } else {
            Err(2)
        }
    }

    #[inline]
    pub fn row<const ROW: usize>(self, year: u64, place: u64) -> Result<[u64; ROW], u64> {
        let lunation = self.lunation(year, place);
        lunation.map(|lunation| self.row_at(year - self.first_year, place, lunation))
    }

    #[inline]
    pub fn day(self, year: u64, place: u64, day: u64) -> Result<[u64; 2], u64> {
        let parts = self.lunation(year, place)? * self.month;
        let index = day.wrapping_sub(1);
        if index >= self.length(parts % self.day_divisor) {
            return Err(3);
        }
        let number = parts / self.day_divisor + index;
        Ok([number, number % SIXTY + 1])
    }

    /// Degrees since the last node, remainder and half a part of the new moon, then of
    /// the full moon.
    #[inline]
    pub fn nodes(self, year: u64, place: u64) -> Result<[u64; 6], u64> {
        let new = self.new_moon(self.lunation(year, place)?).since_node;
        let [degrees, remainder] = self.degrees(new);
        // Half a month on, and half a part where a month's parts are odd.
        let full = self.since_node(new, self.month / 2);
        let [full_degrees, full_remainder] = self.degrees(full);
        let half = self.month % 2;
        Ok([degrees, remainder, 0, full_degrees, full_remainder, half])
    }

    #[inline]
    pub fn cut_point(self, year: u64, cut: u64, index: u64) -> Result<[u64; 3], u64> {
        let parts = SunYear {
            parts: self.year,
            degree_divisor: self.degree_divisor,
        };
        cuts::point(self.past(year)?, cut, index, parts)
    }

    /// The years before that of a month, the last whose solstice falls on a day before
    /// the next month's first.
    #[inline]
    fn past_of(self, lunation: u64) -> u64 {
        (self.first_day(lunation + 1) * self.degree_divisor - 1) / self.year
    }

    /// The row of a month of the calendar.
    #[inline(always)]
    pub fn row_of<const ROW: usize>(self, lunation: u64) -> [u64; ROW] {
        let past = self.past_of(lunation);
        self.row_at(past, lunation - self.months_before(past), lunation)
    }

    #[inline]
    pub fn date(self, day: u64) -> Result<[u64; 3], u64> {
        if day >= self.days {
            return Err(7);
        }
        let lunation = self.month_of(day);
        let past = self.past_of(lunation);
        let place = lunation - self.months_before(past);
        let first_day = self.first_day(lunation);
        Ok([past + self.first_year, place, day - first_day + 1])
    }

    /// The rows of a year, by additions, and zeros past them.
    #[inline]
    pub fn fill<const ROW: usize>(self, head: Head, rows: &mut [[u64; ROW]; 13]) {
        // With a loop for each, the numbers in a year of twelve months are constants.
        if head.months == 12 {
            self.step_rows::<ROW, 12>(head, rows, 13);
            rows[12] = [0; ROW];
        } else {
            self.step_rows::<ROW, 13>(head, rows, head.leap_place);
        }
    }

    #[inline(always)]
    fn step_rows<const ROW: usize, const COUNT: u64>(
        self,
        head: Head,
        rows: &mut [[u64; ROW]; 13],
        leap: u64,
    ) {
        let mut moon = self.new_moon(head.before);
        for (place, row) in (0..COUNT).zip(rows) {
            let name = Name {
                year: head.past + self.first_year,
                place,
                behind: place >= leap,
                leap: place == leap,
            };
            *row = self.numbers(moon, name);
            moon = self.next(moon);
        }
    }
}
