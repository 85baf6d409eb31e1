//! The calendars' part of the survey: counts, and a digest of all that is answered about
//! years, months and days.

use super::fields;
use super::numbers::{Calendar, LINDE, ZHENGGUANG};
use super::walker::{Month, Walker, Year};
use crate::digest::Digest;
use crate::month_counts::MonthCounts;
use crate::sixty;

/// Each line is walked when it is asked for.
pub fn lines() -> impl Iterator<Item = String> {
    [&ZHENGGUANG, &LINDE].into_iter().map(line)
}

fn line(calendar: &'static Calendar) -> String {
    let mut counts = MonthCounts::default();
    let mut digest = Digest::default();
    for year in Walker::from_origin(calendar) {
        let lengths = year.months.iter().map(|month| month.row.length);
        counts.count_year(year.leap_place, lengths);
        feed_year(&mut digest, calendar, &year);
    }
    let (word, counts) = (calendar.word, counts.text());
    format!("{word} {counts} digest {}\n", digest.value())
}

fn feed_year(digest: &mut Digest, calendar: &Calendar, year: &Year) {
    digest.feed_all(&fields::head(year));
    for cut in calendar.cuts {
        for point in cut.walk(year.solstice) {
            digest.feed_all(&fields::point(point));
        }
    }
    for month in &year.months {
        feed_month(digest, month);
    }
}

fn feed_month(digest: &mut Digest, month: &Month) {
    let row = &month.row;
    digest.feed_all(&fields::row(row));
    if let Some(nodes) = fields::nodes(month) {
        digest.feed_all(&nodes);
    }
    let (mut day, mut sixty) = (row.day, month.sixty);
    for day_of_month in 1..=row.length {
        digest.feed_all(&[row.year, row.place, day_of_month, day, sixty]);
        day += 1;
        sixty = sixty::days_on(sixty, 1);
    }
}
