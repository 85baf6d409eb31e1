//! The Zhengguang and the Linde calendar: their ends, their rules by division over all
//! their months, and what is refused.

use second::ask::Refusal;
use second::calendars::{
    ask, fields, numbers, Checkpoints, Month, Row, Walker, Year, LINDE, ZHENGGUANG,
};

/// A calendar's divisors, and the parts of a month and a year over them.
struct Divided {
    day_divisor: u64,
    degree_divisor: u64,
    month: u64,
    year: u64,
}

const ZHENGGUANG_DIVIDED: Divided = Divided {
    day_divisor: 74_952,
    degree_divisor: 6_060,
    month: 2_213_377,
    year: 2_213_377,
};

const LINDE_DIVIDED: Divided = Divided {
    day_divisor: 1_340,
    degree_divisor: 1_340,
    month: 39_571,
    year: 489_428,
};

/// Zhengguang's node half-round and its chapter.
const HALF_ROUND: u64 = 12_989_904;
const CHAPTER_YEARS: u64 = 505;
const CHAPTER_MONTHS: u64 = 6_246;

impl Divided {
    /// The day of a middle term, counted from the origin's.
    fn term(&self, index: u64) -> u64 {
        index * self.year / (12 * self.degree_divisor)
    }

    fn first_day(&self, lunation: u64) -> u64 {
        lunation * self.month / self.day_divisor
    }

    /// The index of the first middle term that does not fall before the month.
    fn next_term(&self, lunation: u64) -> u64 {
        let day = self.first_day(lunation);
        (day * 12 * self.degree_divisor).div_ceil(self.year)
    }

    /// The years past, the number and the leap mark of a month: those of the term that
    /// falls on one of its days, or else of the one before, repeated.
    fn name(&self, lunation: u64) -> (u64, u64, bool) {
        let next = self.next_term(lunation);
        let leap = self.term(next) >= self.first_day(lunation + 1);
        let term = next - u64::from(leap);
        (term / 12, (term + 10) % 12 + 1, leap)
    }

    fn compare_month(&self, first_year: u64, row: &Row) {
        let (past, number, leap) = self.name(row.lunation);
        let name = (first_year + past, number, leap);
        assert_eq!((row.year, row.number, row.leap), name, "{row:?}");
        let day = self.first_day(row.lunation);
        let remainder = row.lunation * self.month % self.day_divisor;
        let length = self.first_day(row.lunation + 1) - day;
        assert_eq!(
            (row.day, row.remainder, row.length),
            (day, remainder, length)
        );
    }

    fn compare_solstice(&self, past: u64, year: &Year) {
        let parts = past * self.year;
        let day = [parts / self.degree_divisor, parts % self.degree_divisor, 0];
        assert_eq!(fields::point(year.solstice), day);
    }
}

/// Every month of a calendar; gives how many there are and the day after the last.
fn compare_all(
    calendar: &'static numbers::Calendar,
    divided: &Divided,
    compare_more: impl Fn(u64, &Year),
) -> (u64, u64) {
    let (mut months, mut days) = (0, 0);
    for (past, year) in (0..).zip(Walker::from_origin(calendar)) {
        divided.compare_solstice(past, &year);
        compare_more(past, &year);
        for (place, Month { row, sixty, .. }) in (0..).zip(&year.months) {
            divided.compare_month(calendar.first_year, row);
            assert_eq!((row.lunation, row.place), (months, place));
            assert_eq!(*sixty, row.day % 60 + 1);
            months += 1;
            days += row.length;
        }
    }
    (months, days)
}

/// The chapter's rest, and the distances since the last node in halves of a part.
fn compare_chapter_and_nodes(past: u64, year: &Year) {
    let rest = CHAPTER_MONTHS * past % CHAPTER_YEARS;
    assert_eq!(year.leap_remainder, Some(rest));
    let (n, p) = (ZHENGGUANG_DIVIDED.day_divisor, ZHENGGUANG_DIVIDED.month);
    for month in &year.months {
        let new = 2 * month.row.lunation * p;
        let places = [new, new + p].map(|halves| {
            let halves = halves % (2 * HALF_ROUND);
            [halves / 2 / n, halves / 2 % n, halves % 2]
        });
        let nodes = fields::nodes(month).expect("the Zhengguang has nodes");
        assert_eq!(nodes, places.as_flattened());
    }
}

#[test]
fn all_months_of_the_zhengguang() {
    let walked = compare_all(
        &numbers::ZHENGGUANG,
        &ZHENGGUANG_DIVIDED,
        compare_chapter_and_nodes,
    );
    assert_eq!(walked, (4_497_120, 132_802_620));
    assert_eq!((ZHENGGUANG.months(), ZHENGGUANG.days()), walked);
}

#[test]
fn all_months_of_the_linde() {
    let walked = compare_all(&numbers::LINDE, &LINDE_DIVIDED, |_, year| {
        assert_eq!(year.leap_remainder, None);
        assert!(year
            .months
            .iter()
            .all(|month| fields::nodes(month).is_none()));
    });
    assert_eq!(walked, (3_710_517, 109_573_782));
    assert_eq!((LINDE.months(), LINDE.days()), walked);
}

/// Every point of every cut of years throughout the calendar.
fn compare_cuts(walked: &Checkpoints, divided: &Divided) {
    let first_year = walked.calendar.first_year;
    for number in (first_year..=walked.calendar.last_year).step_by(1_999) {
        for points in [24, 60, 72] {
            for index in 0..points {
                let parts = ((number - first_year) * points + index) * divided.year;
                let d = divided.degree_divisor;
                let point = [parts / points / d, parts / points % d, parts % points];
                let answer = ask::cut_point(walked, number, points, index);
                assert_eq!(answer.map(fields::point), Ok(point));
            }
            let past = ask::cut_point(walked, number, points, points);
            assert_eq!(past, Err(Refusal::Cut));
        }
    }
}

#[test]
fn cuts() {
    compare_cuts(&ZHENGGUANG, &ZHENGGUANG_DIVIDED);
    compare_cuts(&LINDE, &LINDE_DIVIDED);
}

#[test]
fn years_outside() {
    for (walked, outside) in [
        (&ZHENGGUANG, &[0, 363_601, u64::MAX][..]),
        (&LINDE, &[300_001, 1 << 32, u64::MAX]),
    ] {
        for &year in outside {
            assert_eq!(ask::year(walked, year), Err(Refusal::Year));
            assert_eq!(ask::month(walked, year, 99), Err(Refusal::Year));
            assert_eq!(ask::day_number(walked, year, 99, 99), Err(Refusal::Year));
            assert_eq!(ask::cut_point(walked, year, 25, 99), Err(Refusal::Year));
        }
    }
}

/// Places, days of a month and days of the calendar at their edges.
#[test]
fn places_and_days_outside() {
    for walked in [&ZHENGGUANG, &LINDE] {
        let first = walked.calendar.first_year;
        assert_eq!(ask::month(walked, first, 12), Err(Refusal::Place));
        assert_eq!(ask::day_number(walked, first, 12, 0), Err(Refusal::Place));
        let no_day = Err(Refusal::NoSuchDay);
        for day in [0, 30, u64::MAX] {
            assert_eq!(ask::day_number(walked, first, 0, day), no_day);
        }
        assert_eq!(ask::day_number(walked, first, 0, 29), Ok([28, 29]));
        assert_eq!(ask::date(walked, 28), Ok([first, 0, 29]));
        assert_eq!(ask::date(walked, 29), Ok([first, 1, 1]));
        let last = walked.days() - 1;
        let [year, place, day] = ask::date(walked, last).expect("the last day");
        assert_eq!(year, walked.calendar.last_year);
        let number = ask::day_number(walked, year, place, day);
        assert_eq!(number.map(|[number, _]| number), Ok(last));
        for past in [last + 1, u64::MAX] {
            assert_eq!(ask::date(walked, past), Err(Refusal::DayNumber));
        }
    }
}

/// Each number changed in turn.
#[test]
fn forged_rows() {
    for walked in [&ZHENGGUANG, &LINDE] {
        for lunation in [0, 32, walked.months() - 1] {
            let genuine = ask::genuine(walked, lunation).expect("a month");
            assert_eq!(ask::carry(walked, &genuine, 0).as_ref(), Ok(&genuine));
            for (index, value) in genuine.iter().enumerate() {
                let near = [value.wrapping_add(1), value.wrapping_sub(1)];
                for other in near.into_iter().chain([value + 2, u64::MAX]) {
                    let mut forged = genuine.clone();
                    forged[index] = other;
                    assert_eq!(ask::carry(walked, &forged, 0), Err(Refusal::ForgedRow));
                    assert_eq!(ask::walk(walked, &forged, &[]), Err(Refusal::ForgedRow));
                }
            }
        }
    }
}

/// Carries to both ends and past them, and a walk through all of that.
#[test]
fn carries_and_walks() {
    for walked in [&ZHENGGUANG, &LINDE] {
        let row = |lunation| ask::genuine(walked, lunation).expect("a month");
        let last = walked.months() - 1;
        let end = i64::try_from(last).expect("a count of months");
        assert_eq!(ask::genuine(walked, last + 1), None);
        assert_eq!(ask::carry(walked, &row(0), end), Ok(row(last)));
        assert_eq!(ask::carry(walked, &row(last), -end), Ok(row(0)));
        let outside = Err(Refusal::CarryOutside);
        for count in [-1, end + 1, i64::MIN, i64::MAX] {
            assert_eq!(ask::carry(walked, &row(0), count), outside);
        }
        let counts = [-1, end, 1, i64::MIN, -end, 7, -8, i64::MAX, -2];
        let walk = ask::walk(walked, &row(0), &counts).expect("a genuine row");
        assert_eq!((walk.row, walk.sum, walk.answered), (row(5), 5, 4));
    }
}

/// A year found from a checkpoint is the year met on the way.
#[test]
fn checkpoints_give_what_the_walk_gives() {
    for walked in [&ZHENGGUANG, &LINDE] {
        for year in Walker::from_origin(walked.calendar).skip(1_000).take(50) {
            assert_eq!(walked.year(year.number).as_ref(), Some(&year));
            for month in &year.months {
                let row = &month.row;
                let last_day = row.day + row.length - 1;
                assert_eq!(walked.month(row.lunation).as_ref(), Some(month));
                assert_eq!(walked.month_of_day(row.day).as_ref(), Some(month));
                assert_eq!(walked.month_of_day(last_day).as_ref(), Some(month));
            }
        }
    }
}

#[test]
fn lists() {
    for walked in [&ZHENGGUANG, &LINDE] {
        let first = walked.calendar.first_year;
        for (number, months) in [(first, 12), (first + 2, 13)] {
            let year = walked.year(number).expect("a year");
            assert_eq!(year.months.len(), months);
            let list = fields::list(&year);
            assert_eq!(list.len(), 13);
            for (place, row) in (0..).zip(&list) {
                let zeros = vec![0; list[0].len()];
                let month = ask::genuine(walked, year.months_before + place);
                let expected = month.filter(|_| place < months as u64);
                assert_eq!(*row, expected.unwrap_or(zeros));
            }
        }
    }
}
