//! The walk through a calendar from its origin, a year at a time.

use std::ops::Range;

use super::nodes::NodeWalk;
use super::numbers::Calendar;
use crate::counts::Count;
use crate::sixty;
use crate::spans::carried;
use crate::walker::{self, leap_place, Name};

/// With the new moon's distance since the last node, where the calendar has nodes.
pub type Row = walker::Row<Option<Count>>;

/// Everything that is answered about one month.
#[derive(Clone, Copy, Debug, PartialEq, Eq)]
pub struct Month {
    pub row: Row,
    /// Day of the sixty on which it begins.
    pub sixty: u64,
    /// The full moon's distance since the last node.
    pub full_moon: Option<Count>,
}

/// One year with its months.
#[derive(Clone, Debug, PartialEq, Eq)]
pub struct Year {
    pub number: u64,
    pub months_before: u64,
    /// The chapter's rest, where the calendar has a chapter; the leap month doesn't
    /// come from it.
    pub leap_remainder: Option<u64>,
    /// Place of the leap month, 0 where there is none.
    pub leap_place: u64,
    pub solstice: Count,
    pub months: Vec<Month>,
}

/// What moves from month to month.
#[derive(Clone, Copy, Debug)]
struct MoonWalk {
    calendar: &'static Calendar,
    lunation: u64,
    new_moon: Count,
    /// The new moon's day of the sixty.
    sixty: u64,
    node: Option<NodeWalk>,
}

impl MoonWalk {
    fn at_origin(calendar: &'static Calendar) -> Self {
        Self {
            calendar,
            lunation: 0,
            new_moon: Count::ZERO,
            sixty: sixty::JIAZI,
            node: calendar.nodes.map(NodeWalk::at_origin),
        }
    }

    fn next(self) -> Self {
        Self {
            calendar: self.calendar,
            lunation: self.lunation + 1,
            new_moon: self.next_new_moon(),
            sixty: sixty::days_on(self.sixty, self.length()),
            node: self.node.map(NodeWalk::next),
        }
    }

    /// The treatise's monthly addition.
    fn next_new_moon(&self) -> Count {
        let calendar = self.calendar;
        calendar.moon.plus(self.new_moon, calendar.month)
    }

    /// From the new moon's day to the one before the next new moon's.
    fn days(&self) -> Range<u64> {
        self.new_moon.whole..self.next_new_moon().whole
    }

    fn length(&self) -> u64 {
        self.days().count() as u64
    }

    fn month(&self, name: Name) -> Month {
        Month {
            row: self.row(name),
            sixty: self.sixty,
            full_moon: self.node.map(NodeWalk::full_moon),
        }
    }

    fn row(&self, name: Name) -> Row {
        Row {
            lunation: self.lunation,
            year: name.year,
            place: name.place,
            number: name.number,
            leap: name.leap,
            day: self.new_moon.whole,
            remainder: self.new_moon.remainder,
            length: self.length(),
            moon: self.node.map(NodeWalk::new_moon),
        }
    }
}

/// The walk, standing at the start of a year; yields the years in order.
#[derive(Clone, Debug)]
pub struct Walker {
    calendar: &'static Calendar,
    year: u64,
    leap_remainder: Option<u64>,
    /// The next middle term; at the start of a year its solstice.
    term: Count,
    moon: MoonWalk,
}

impl Walker {
    pub fn from_origin(calendar: &'static Calendar) -> Self {
        Self {
            calendar,
            year: calendar.first_year,
            leap_remainder: calendar.chapter.map(|_| 0),
            term: Count::ZERO,
            moon: MoonWalk::at_origin(calendar),
        }
    }

    /// The year that comes next.
    pub fn year(&self) -> u64 {
        self.year
    }

    /// The month in which that year begins.
    pub fn lunation(&self) -> u64 {
        self.moon.lunation
    }

    /// The day on which that year begins.
    pub fn day(&self) -> u64 {
        self.moon.new_moon.whole
    }

    /// Walks on to the month that holds the day of the next year's solstice.
    fn walk_months(&mut self) -> Vec<Month> {
        let terms = self.calendar.middle_terms;
        let mut months = Vec::with_capacity(13);
        let mut name = Name::first(self.year);
        let mut terms_met = 0;
        loop {
            let holds = self.month_holds_term();
            if holds && terms_met == terms.points() {
                return months;
            }
            if months.is_empty() {
                assert!(holds, "the year's first month misses its solstice");
            } else {
                name = name.next(holds);
            }
            months.push(self.moon.month(name));
            self.moon = self.moon.next();
            if holds {
                terms_met += 1;
                self.term = terms.next(self.term);
            }
        }
    }

    /// Goes through the days of the month at hand until the next middle term falls on
    /// one. It must not have fallen before them: then a month would have held two.
    fn month_holds_term(&self) -> bool {
        let mut days = self.moon.days();
        assert!(days.start <= self.term.whole);
        days.any(|day| day == self.term.whole)
    }

    /// The yearly addition to the chapter's rest; its months are counted by the walk.
    fn step_year(&mut self) {
        self.year += 1;
        let chapter = self.calendar.chapter.zip(self.leap_remainder);
        self.leap_remainder =
            chapter.map(|(chapter, rest)| carried(rest + chapter.leaps, chapter.years).1);
        assert_eq!(self.term.rest, 0, "a solstice has no rest of a part");
    }
}

impl Iterator for Walker {
    type Item = Year;

    fn next(&mut self) -> Option<Year> {
        if self.year > self.calendar.last_year {
            return None;
        }
        let start = self.clone();
        let months = self.walk_months();
        self.step_year();
        Some(Year {
            number: start.year,
            months_before: start.moon.lunation,
            leap_remainder: start.leap_remainder,
            leap_place: leap_place(months.iter().map(|month| month.row.leap)),
            solstice: start.term,
            months,
        })
    }
}
