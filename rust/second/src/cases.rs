//! The cases: full answers for chosen years, then refusals and edges.

use std::fmt::Display;
use std::io::{self, Write};

use crate::ask::{self, Refusal};
use crate::calendars;
use crate::fields::{self, RowNumbers, ROW};
use crate::instants::TERMS;
use crate::mending_cases;
use crate::name_cases;
use crate::numbers::CHAPTER_YEARS;
use crate::planet_cases;
use crate::reign_cases;
use crate::sixty;
use crate::volume_cases;
use crate::walker::Month;

/// Years at the seams of the round, years in which the days of the middle terms
/// decide the leap place or the count, and one that rounding gets wrong (11);
/// asked after those at even distances.
const SEAM_YEARS: [u64; 25] = [
    2, 3, 4, 6, 11, 19, 20, 28, 41, 52, 168_600, 168_601, 293_997, 294_000, 337_200, 337_201,
    505_800, 505_801, 674_400, 674_401, 843_000, 843_001, 1_011_285, 1_011_286, 1_011_600,
];

pub fn write(out: &mut impl Write) -> io::Result<()> {
    let spread = (0..=40).map(|i| 1 + 25_289 * i);
    for year in spread.chain(SEAM_YEARS) {
        write_year(out, year)?;
    }
    let lines = chapter_heads().chain(edge_lines());
    for line in lines.chain(calendars::cases::lines()) {
        out.write_all(line.as_bytes())?;
    }
    Ok(())
}

/// The heads of a whole chapter and of the year that begins the next.
fn chapter_heads() -> impl Iterator<Item = String> {
    (1..=CHAPTER_YEARS + 1).map(head)
}

fn write_year(out: &mut impl Write, year: u64) -> io::Result<()> {
    out.write_all(head(year).as_bytes())?;
    let months = ask::year(year).expect("a year of the round").months;
    for place in 0..months.len() as u64 {
        for question in [row, phases, nodes, corrections] {
            out.write_all(question(year, place).as_bytes())?;
        }
    }
    for index in 0..TERMS.points() {
        out.write_all(cut(year, TERMS.points(), index).as_bytes())?;
    }
    Ok(())
}

fn edge_lines() -> Vec<String> {
    let mut lines = vec![head(0), head(1_011_601), head(u64::MAX)];
    lines.extend([
        row(0, 0),
        row(1, 12),
        row(3, 13),
        row(1_011_601, 99),
        row(1, u64::MAX),
    ]);
    lines.extend(day_lines());
    lines.extend([0, 28, 29, 107_380_330, 369_481_019, 369_481_020, u64::MAX].map(date));
    lines.extend(carry_lines());
    lines.extend(step_lines());
    lines.extend(forged_lines());
    lines.extend(fill_lines());
    lines.extend([phases(1_011_600, 13), nodes(0, 0), corrections(1, 12)]);
    lines.extend([
        cut(1, 25, 0),
        cut(1, 24, 24),
        cut(0, 25, 99),
        cut(1, 72, 71),
        cut(1, 60, 59),
        cut(1_011_600, 24, 23),
    ]);
    lines.extend(planet_cases::lines());
    lines.extend(name_cases::lines());
    lines.extend(volume_cases::lines());
    lines.extend(reign_cases::lines());
    lines.extend(mending_cases::lines());
    lines
}

fn day_lines() -> [String; 9] {
    [
        (1, 0, 29),
        (1, 0, 30),
        (1, 0, 0),
        (1, 1, 30),
        (1, 12, 0),
        (0, 99, 99),
        (1_011_600, 12, 30),
        (1_011_600, 12, 31),
        (293_997, 0, 1),
    ]
    .map(|(year, place, day_of_month)| day(year, place, day_of_month))
}

/// To and fro within the round and about its ends, then about the two era heads
/// at which the side turns without a node, and from between them to the origin.
fn carry_lines() -> [String; 13] {
    [
        (0, 5),
        (5, -3),
        (3_636_238, 0),
        (12_511_798, 1),
        (12_511_799, -12_511_799),
        (12_511_799, 1),
        (0, -1),
        (0, i64::MAX),
        (12_511_799, i64::MIN),
        (2_085_299, 1),
        (2_085_300, -1),
        (4_170_600, 0),
        (3_636_238, -3_636_238),
    ]
    .map(|(lunation, count)| carry(lunation, count))
}

fn step_lines() -> impl Iterator<Item = String> {
    let on = [0, 36, 2_085_299, 4_170_599, 12_511_798, 12_511_799].map(next);
    let off = [0, 1, 37, 2_085_300, 4_170_600, 12_511_799].map(back);
    on.into_iter().chain(off)
}

/// Each number of a row changed in turn, the last row's leap mark to 2 and the side
/// of Xinghe 2's first to 3; then the remainder in single steps.
fn forged_lines() -> impl Iterator<Item = String> {
    let carries = [(0, 0), (12_511_799, 1), (3_636_238, 0)].into_iter();
    let carries = carries
        .flat_map(|(lunation, count)| (0..ROW).map(move |index| forged(lunation, index, count)));
    carries.chain([forged_next(5), forged_back(5)])
}

fn fill_lines() -> impl Iterator<Item = String> {
    [
        (1, 12),
        (1, 13),
        (3, 12),
        (3, 13),
        (0, 12),
        (1_011_601, 13),
        (1_011_600, 12),
        (1_011_600, 13),
    ]
    .into_iter()
    .flat_map(|(year, have)| fill(year, have))
}

fn head(number: u64) -> String {
    let answer = ask::year(number).map(|year| joined(&fields::head(&year)));
    line(format!("head {number}"), answer)
}

fn row(year: u64, place: u64) -> String {
    of_month("row", year, place, |month| {
        let row = joined(&fields::row(&month.row));
        format!("{row} {}", month.sixty)
    })
}

fn phases(year: u64, place: u64) -> String {
    of_month("phases", year, place, |month| {
        joined(fields::phases(month).as_flattened())
    })
}

fn nodes(year: u64, place: u64) -> String {
    of_month("nodes", year, place, |month| {
        let new_moon = joined(&fields::new_moon_node(month));
        new_moon + " " + &joined(&fields::full_moon_node(month))
    })
}

fn corrections(year: u64, place: u64) -> String {
    of_month("corrections", year, place, |month| {
        let new_moon = joined(&fields::new_moon_correction(month, 0));
        new_moon + " " + &joined(&fields::full_moon_correction(month, 0))
    })
}

fn cut(year: u64, points: u64, index: u64) -> String {
    let answer = ask::cut_point(year, points, index).map(|point| joined(&fields::point(point)));
    line(format!("cut {year} {points} {index}"), answer)
}

fn day(year: u64, place: u64, day_of_month: u64) -> String {
    let answer = ask::day_number(year, place, day_of_month).and_then(|(number, sixty)| {
        let name = sixty::label(sixty, &[], &sixty::GANZHI)?;
        Ok(format!(
            "{number} {sixty} {}",
            String::from_utf8_lossy(name)
        ))
    });
    line(format!("day {year} {place} {day_of_month}"), answer)
}

fn date(number: u64) -> String {
    let answer = ask::date(number)
        .map(|(row, day_of_month)| format!("{} {} {day_of_month}", row.year, row.place));
    line(format!("date {number}"), answer)
}

fn carry(lunation: u64, count: i64) -> String {
    carried(format!("carry {lunation} {count}"), lunation, count)
}

fn next(lunation: u64) -> String {
    carried(format!("next {lunation}"), lunation, 1)
}

fn back(lunation: u64) -> String {
    carried(format!("back {lunation}"), lunation, -1)
}

fn carried(question: String, lunation: u64, count: i64) -> String {
    let answer = ask::carry(&genuine_row(lunation), count);
    line(question, answer.map(|row| format!("-> {}", joined(&row))))
}

fn forged(lunation: u64, index: usize, count: i64) -> String {
    let question = format!("forged {lunation} {index} {count}");
    carried_forged(question, lunation, index, count)
}

fn forged_next(lunation: u64) -> String {
    carried_forged(format!("forged-next {lunation}"), lunation, REMAINDER, 1)
}

fn forged_back(lunation: u64) -> String {
    carried_forged(format!("forged-back {lunation}"), lunation, REMAINDER, -1)
}

/// Where the small remainder stands in a row.
const REMAINDER: usize = 6;

/// A row with one number changed, which no carry may take.
fn carried_forged(question: String, lunation: u64, index: usize, count: i64) -> String {
    let mut row = genuine_row(lunation);
    row[index] = row[index].wrapping_add(1);
    let answer = ask::carry(&row, count).map(|_| "taken".to_string());
    line(question, answer)
}

/// A list of `have` rows is lent; what is answered, then every lent row as it
/// is afterwards.
fn fill(year: u64, have: u64) -> Vec<String> {
    let mut lent: Vec<RowNumbers> = (0..have).map(lent_row).collect();
    let answer = ask::fill_year(year, &mut lent).map(|count| count.to_string());
    let mut lines = vec![line(format!("fill {year} {have}"), answer)];
    for (index, row) in lent.iter().enumerate() {
        lines.push(format!("lent {index} {}\n", joined(row)));
    }
    lines
}

/// A row that is no month's, and is told from the others that are lent.
fn lent_row(index: u64) -> RowNumbers {
    let mut row = [0; ROW];
    row[0] = 1_000 + index;
    row
}

fn genuine_row(lunation: u64) -> RowNumbers {
    ask::genuine(lunation).expect("a month of the round")
}

fn of_month(question: &str, year: u64, place: u64, answer: impl Fn(&Month) -> String) -> String {
    let answer = ask::month(year, place).map(|month| answer(&month));
    line(format!("{question} {year} {place}"), answer)
}

pub fn line(question: String, answer: Result<String, Refusal>) -> String {
    numbered_line(question, answer.map_err(|refusal| refusal as u64))
}

/// Where the refusal comes as its number.
pub fn numbered_line(question: String, answer: Result<String, u64>) -> String {
    match answer {
        Ok(values) => format!("{question} {values}\n"),
        Err(number) => format!("{question} refused {number}\n"),
    }
}

pub fn joined(values: &[impl Display]) -> String {
    let words: Vec<String> = values.iter().map(|value| value.to_string()).collect();
    words.join(" ")
}
