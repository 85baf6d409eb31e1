//! The walk through the round, a year at a time.

use std::ops::Range;

use crate::anomaly::{AnomalyWalk, Correction};
use crate::counts::Count;
use crate::instants::{NewMoon, Phase, MIDDLE_TERMS};
use crate::nodes::{FullMoonNode, NewMoonNode, NodeWalk, Side};
use crate::numbers::{
    CHAPTER_LEAPS, CHAPTER_YEARS, ERAS, ERA_YEARS, LAST_DAY, LONG_FROM, ROUND_MONTHS, ROUND_YEARS,
};
use crate::planets::{Conjunctions, Planet, PlanetWalk};
use crate::sixty;
use crate::spans::{carried, Span};

/// The month row of the rules paper: eight fields that every calendar has, and what a
/// calendar has of the new moon besides.
#[derive(Clone, Copy, Debug, PartialEq, Eq)]
pub struct Row<M = Moon> {
    /// Month of the round or calendar, from 0.
    pub lunation: u64,
    pub year: u64,
    pub place: u64,
    pub number: u64,
    pub leap: bool,
    pub day: u64,
    pub remainder: u64,
    pub length: u64,
    pub moon: M,
}

/// What the Xinghe has of the new moon.
#[derive(Clone, Copy, Debug, PartialEq, Eq)]
pub struct Moon {
    /// The distance since the last node, and its side.
    pub since_node: Span,
    pub side: Side,
    /// The day of the anomaly, and the rest of it.
    pub anomaly_day: u64,
    pub anomaly_rest: u64,
}

/// Everything that is answered about one month.
#[derive(Clone, Copy, Debug, PartialEq, Eq)]
pub struct Month {
    pub row: Row,
    /// Day of the sixty on which it begins.
    pub sixty: u64,
    pub phases: [Phase; 4],
    pub new_moon_node: NewMoonNode,
    pub full_moon_node: FullMoonNode,
    pub new_moon_correction: Correction,
    pub full_moon_correction: Correction,
}

/// One year with its months.
#[derive(Clone, Debug, PartialEq, Eq)]
pub struct Year {
    pub number: u64,
    pub months_before: u64,
    /// The chapter's rest; the leap month doesn't come from it.
    pub leap_remainder: u64,
    /// Place of the leap month, 0 where there is none.
    pub leap_place: u64,
    pub solstice: Count,
    pub months: Vec<Month>,
    /// By planet, in the paper's order.
    pub conjunctions: [Conjunctions; 5],
}

/// What moves from month to month.
#[derive(Clone, Copy, Debug)]
struct MoonWalk {
    lunation: u64,
    new_moon: NewMoon,
    /// The new moon's day of the sixty.
    sixty: u64,
    phase: Phase,
    node: NodeWalk,
    anomaly: AnomalyWalk,
}

impl MoonWalk {
    const ORIGIN: Self = Self {
        lunation: 0,
        new_moon: NewMoon::ORIGIN,
        sixty: sixty::JIAZI,
        phase: Phase::ORIGIN,
        node: NodeWalk::ORIGIN,
        anomaly: AnomalyWalk::ORIGIN,
    };

    fn phases(&self) -> [Phase; 4] {
        let second = self.phase.next();
        let third = second.next();
        [self.phase, second, third, third.next()]
    }

    fn next(self) -> Self {
        let new_moon = self.new_moon.next();
        let phase = self.phases()[3].next();
        assert!(phase.is_new_moon(new_moon), "the two walks part");
        Self {
            lunation: self.lunation + 1,
            new_moon,
            sixty: sixty::days_on(self.sixty, self.length()),
            phase,
            node: self.node.next(),
            anomaly: self.anomaly.next(),
        }
    }

    /// From the new moon's day to the one before the next new moon's.
    fn days(&self) -> Range<u64> {
        self.new_moon.day..self.new_moon.next().day
    }

    /// The days are counted; the paper's rule must agree.
    fn length(&self) -> u64 {
        let length = self.days().count() as u64;
        let long = self.new_moon.remainder >= LONG_FROM;
        assert_eq!(length, if long { 30 } else { 29 });
        length
    }

    fn month(&self, name: Name) -> Month {
        let phases = self.phases();
        let new_moon_node = self.node.new_moon();
        let new_moon_correction = self.anomaly.new_moon(phases[0]);
        Month {
            row: self.row(name, &new_moon_node, &new_moon_correction),
            sixty: self.sixty,
            phases,
            new_moon_node,
            full_moon_node: self.node.full_moon(),
            new_moon_correction,
            full_moon_correction: self.anomaly.full_moon(phases[2]),
        }
    }

    /// Node and anomaly are taken from the month's other answers, so that the two
    /// cannot part.
    fn row(&self, name: Name, node: &NewMoonNode, correction: &Correction) -> Row {
        Row {
            lunation: self.lunation,
            year: name.year,
            place: name.place,
            number: name.number,
            leap: name.leap,
            day: self.new_moon.day,
            remainder: self.new_moon.remainder,
            length: self.length(),
            moon: Moon {
                since_node: node.distance,
                side: node.side,
                anomaly_day: correction.anomaly_day,
                anomaly_rest: correction.rest,
            },
        }
    }
}

/// What a month is called in its year, in this calendar and in others.
#[derive(Clone, Copy)]
pub(crate) struct Name {
    pub year: u64,
    pub place: u64,
    pub number: u64,
    pub leap: bool,
}

impl Name {
    /// The solstice's day is in the first month, so that it is never leap.
    pub fn first(year: u64) -> Self {
        Self {
            year,
            place: 0,
            number: 11,
            leap: false,
        }
    }

    /// A month without a middle term is leap and repeats the number before it.
    pub fn next(self, holds_term: bool) -> Self {
        let number = match (holds_term, self.number) {
            (false, same) => same,
            (true, 12) => 1,
            (true, before) => before + 1,
        };
        Self {
            year: self.year,
            place: self.place + 1,
            number,
            leap: !holds_term,
        }
    }
}

/// The walk, standing at the start of a year; yields the years in order.
#[derive(Clone, Debug)]
pub struct Walker {
    year: u64,
    /// Whole eras past, and years of the era at hand.
    eras_past: usize,
    era_years_past: u64,
    /// The months before the year as the chapter gives them, and the rest.
    chapter_months: u64,
    leap_remainder: u64,
    /// The next middle term; at the start of a year its solstice.
    term: Count,
    moon: MoonWalk,
    planets: [PlanetWalk; 5],
}

impl Walker {
    pub fn from_origin() -> Self {
        Self {
            year: 1,
            eras_past: 0,
            era_years_past: 0,
            chapter_months: 0,
            leap_remainder: 0,
            term: Count::ZERO,
            moon: MoonWalk::ORIGIN,
            planets: Planet::ALL.map(PlanetWalk::at_origin),
        }
    }

    /// The year that comes next.
    pub fn year(&self) -> u64 {
        self.year
    }

    /// The month of the round in which that year begins.
    pub fn lunation(&self) -> u64 {
        self.moon.lunation
    }

    /// The day on which that year begins.
    pub fn day(&self) -> u64 {
        self.moon.new_moon.day
    }

    fn enter_era(&mut self) {
        if self.era_years_past == 0 {
            self.moon.node = self.moon.node.at_era_head(self.eras_past);
        }
    }

    /// Walks on to the conjunctions of the year at hand.
    fn walk_planets(&mut self) -> [Conjunctions; 5] {
        let solstice = self.term;
        let planets = self.planets.each_mut();
        planets.map(|planet| planet.walk_to(solstice))
    }

    /// Walks on to the month that holds the day of the next year's solstice.
    fn walk_months(&mut self) -> Vec<Month> {
        let mut months = Vec::with_capacity(13);
        let mut name = Name::first(self.year);
        let mut terms_met = 0;
        loop {
            let holds = self.month_holds_term();
            if holds && terms_met == MIDDLE_TERMS.points() {
                return months;
            }
            if months.is_empty() {
                assert!(holds, "the year's first month misses its solstice");
            } else {
                name = name.next(holds);
            }
            months.push(self.moon.month(name));
            self.moon = self.moon.next();
            if holds {
                terms_met += 1;
                self.term = MIDDLE_TERMS.next(self.term);
            }
        }
    }

    /// Goes through the days of the month at hand until the next middle term
    /// falls on one. It must not have fallen before them: then a month would
    /// have held two.
    fn month_holds_term(&self) -> bool {
        let mut days = self.moon.days();
        assert!(days.start <= self.term.whole);
        days.any(|day| day == self.term.whole)
    }

    /// The count of eras, and the treatise's yearly addition to the chapter's
    /// months and rest.
    fn step_year(&mut self) {
        self.year += 1;
        self.era_years_past += 1;
        if self.era_years_past == ERA_YEARS {
            self.eras_past += 1;
            self.era_years_past = 0;
        }
        let (leap, rest) = carried(self.leap_remainder + CHAPTER_LEAPS, CHAPTER_YEARS);
        self.chapter_months += 12 + leap;
        self.leap_remainder = rest;
        self.assert_near_chapter();
        assert_eq!(self.term.rest, 0, "a solstice is whole over D");
    }

    /// The chapter counts by instants, up to the new moon last before the
    /// solstice or together with it. The walk is one month further exactly where
    /// the new moon after that falls on the solstice's day.
    fn assert_near_chapter(&self) {
        let moon = &self.moon;
        match moon.lunation - self.chapter_months {
            0 => assert_ne!(moon.new_moon.next().day, self.term.whole),
            1 => assert_eq!(moon.new_moon.day, self.term.whole),
            _ => panic!("the walk and the chapter part"),
        }
    }

    /// After the last year everything but node, anomaly and planets is as at the
    /// origin.
    fn assert_round_closes(&self) {
        let moon = &self.moon;
        assert_eq!(moon.lunation, ROUND_MONTHS);
        assert_eq!(
            (moon.new_moon.day, moon.new_moon.remainder),
            (LAST_DAY + 1, 0)
        );
        assert_eq!((self.term.whole, self.term.remainder), (LAST_DAY + 1, 0));
        assert_eq!((self.leap_remainder, self.era_years_past), (0, 0));
        assert_eq!(self.eras_past as u64, ERAS);
        assert_eq!(moon.sixty, sixty::JIAZI);
    }
}

impl Iterator for Walker {
    type Item = Year;

    fn next(&mut self) -> Option<Year> {
        if self.year > ROUND_YEARS {
            self.assert_round_closes();
            return None;
        }
        self.enter_era();
        let start = self.clone();
        let conjunctions = self.walk_planets();
        let months = self.walk_months();
        self.step_year();
        Some(Year {
            number: start.year,
            months_before: start.moon.lunation,
            leap_remainder: start.leap_remainder,
            leap_place: leap_place(months.iter().map(|month| month.row.leap)),
            solstice: start.term,
            months,
            conjunctions,
        })
    }
}

/// The place of the month found without a middle term, by the leap marks of a year's
/// months.
pub(crate) fn leap_place(marks: impl ExactSizeIterator<Item = bool>) -> u64 {
    let months = marks.len();
    let mut leaps = (0..).zip(marks).filter(|(_, leap)| *leap);
    let place = leaps.next().map_or(0, |(place, _)| place);
    assert!(leaps.next().is_none(), "two months without a middle term");
    assert_eq!(months, if place == 0 { 12 } else { 13 });
    place
}
