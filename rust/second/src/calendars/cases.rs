//! The calendars' part of the cases: whole years, then refusals and edges.

use super::ask;
use super::checkpoints::{Checkpoints, LINDE, ZHENGGUANG};
use super::fields;
use super::questions::{self, Questions};
use crate::ask::Refusal;
use crate::cases::{joined, line};
use crate::digest::Digest;

/// Of whole years: a day that only long months have, and these points of cuts.
const LONG: u64 = 30;
const POINTS: [(u64, u64); 4] = [(24, 0), (24, 23), (60, 59), (72, 71)];
/// One place more than any year has.
const PLACES: u64 = 14;

pub fn lines() -> Vec<String> {
    let mut lines = Case(&ZHENGGUANG).lines(&questions::ZHENGGUANG);
    lines.extend(Case(&LINDE).lines(&questions::LINDE));
    lines
}

/// The calendar that is asked.
#[derive(Clone, Copy)]
struct Case(&'static Checkpoints);

impl Case {
    fn lines(self, asked: &Questions) -> Vec<String> {
        let years = asked.years.iter();
        let mut lines: Vec<String> = years.flat_map(|year| self.year(*year)).collect();
        lines.extend(asked.heads.iter().map(|year| self.head(*year)));
        lines.extend(asked.rows.iter().map(|at| self.row(at.0, at.1)));
        lines.extend(asked.nodes.iter().map(|at| self.nodes(at.0, at.1)));
        lines.extend(asked.cuts.iter().map(|at| self.cut(at.0, at.1, at.2)));
        lines.extend(asked.days.iter().map(|at| self.day(at.0, at.1, at.2)));
        lines.extend(asked.dates.iter().map(|day| self.date(*day)));
        lines.extend(asked.carries.iter().map(|by| self.carry(by.0, by.1)));
        lines.extend(asked.nexts.map(|lunation| self.next(lunation)));
        lines.extend(asked.backs.map(|lunation| self.back(lunation)));
        lines.extend(self.forgeries(asked.forged));
        lines.push(self.walk(asked.walk.0, asked.walk.1));
        lines.push(self.walk_forged(asked.walk.0, asked.walk.1));
        lines.extend(asked.lists.map(|year| self.list(year)));
        lines
    }

    /// Its head, every place and one or two that it hasn't, and points of its cuts.
    fn year(self, year: u64) -> Vec<String> {
        let mut lines = vec![self.head(year)];
        for place in 0..PLACES {
            lines.push(self.row(year, place));
            if self.0.calendar.nodes.is_some() {
                lines.push(self.nodes(year, place));
            }
            lines.push(self.day(year, place, LONG));
        }
        lines.extend(POINTS.map(|(points, index)| self.cut(year, points, index)));
        lines
    }

    fn line(self, question: String, answer: Result<String, Refusal>) -> String {
        line(format!("{} {question}", self.0.calendar.word), answer)
    }

    fn head(self, year: u64) -> String {
        let answer = ask::year(self.0, year).map(|year| joined(&fields::head(&year)));
        self.line(format!("head {year}"), answer)
    }

    fn row(self, year: u64, place: u64) -> String {
        let answer = ask::month(self.0, year, place)
            .map(|month| format!("{} {}", joined(&fields::row(&month.row)), month.sixty));
        self.line(format!("row {year} {place}"), answer)
    }

    fn nodes(self, year: u64, place: u64) -> String {
        let answer = ask::month(self.0, year, place)
            .map(|month| joined(&fields::nodes(&month).expect("a calendar with nodes")));
        self.line(format!("nodes {year} {place}"), answer)
    }

    fn cut(self, year: u64, points: u64, index: u64) -> String {
        let answer = ask::cut_point(self.0, year, points, index);
        let answer = answer.map(|point| joined(&fields::point(point)));
        self.line(format!("cut {year} {points} {index}"), answer)
    }

    fn day(self, year: u64, place: u64, day_of_month: u64) -> String {
        let answer = ask::day_number(self.0, year, place, day_of_month);
        let question = format!("day {year} {place} {day_of_month}");
        self.line(question, answer.map(|numbers| joined(&numbers)))
    }

    fn date(self, number: u64) -> String {
        let answer = ask::date(self.0, number).map(|date| joined(&date));
        self.line(format!("date {number}"), answer)
    }

    fn carry(self, lunation: u64, count: i64) -> String {
        self.carried(format!("carry {lunation} {count}"), lunation, count)
    }

    fn next(self, lunation: u64) -> String {
        self.carried(format!("next {lunation}"), lunation, 1)
    }

    fn back(self, lunation: u64) -> String {
        self.carried(format!("back {lunation}"), lunation, -1)
    }

    fn carried(self, question: String, lunation: u64, count: i64) -> String {
        let answer = ask::carry(self.0, &self.genuine(lunation), count);
        self.line(question, answer.map(|row| format!("-> {}", joined(&row))))
    }

    /// Each number of a month's row one more in turn, and the row carried by 0.
    fn forgeries(self, lunation: u64) -> impl Iterator<Item = String> {
        let numbers = self.genuine(lunation).len();
        (0..numbers).map(move |index| {
            let answer = ask::carry(self.0, &self.forged(lunation, index), 0);
            let question = format!("forged {lunation} {index}");
            self.line(question, answer.map(|_| "taken".to_string()))
        })
    }

    fn walk(self, lunation: u64, counts: &[i64]) -> String {
        let answer = ask::walk(self.0, &self.genuine(lunation), counts);
        let answer = answer.map(|end| {
            let row = joined(&end.row);
            format!("-> {row} {} {}", end.sum, end.answered)
        });
        self.line(format!("walk {lunation}"), answer)
    }

    /// The same walk from a row that is not genuine.
    fn walk_forged(self, lunation: u64, counts: &[i64]) -> String {
        let answer = ask::walk(self.0, &self.forged(lunation, REMAINDER), counts);
        let answer = answer.map(|_| "taken".to_string());
        self.line("walk forged".to_string(), answer)
    }

    /// The digest of a year's head and of the rows of its list.
    fn list(self, year: u64) -> String {
        let answer = ask::year(self.0, year).map(|year| {
            let mut digest = Digest::default();
            digest.feed_all(&fields::head(&year));
            for row in fields::list(&year) {
                digest.feed_all(&row);
            }
            digest.value().to_string()
        });
        self.line(format!("list {year}"), answer)
    }

    fn genuine(self, lunation: u64) -> fields::Numbers {
        ask::genuine(self.0, lunation).expect("a month of the calendar")
    }

    fn forged(self, lunation: u64, index: usize) -> fields::Numbers {
        let mut row = self.genuine(lunation);
        row[index] = row[index].wrapping_add(1);
        row
    }
}

/// Where the small remainder stands in a row.
const REMAINDER: usize = 6;
