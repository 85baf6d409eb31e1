//! The rules paper's "Cases at the edges" and its printed year 1, with the day of
//! the sixty from 1.

use second::ask::{self, Refusal};
use second::fields::{self, RowNumbers, ROW};
use second::nodes::Side;
use second::{Checkpoints, Month, Row, Year};

fn year(number: u64) -> Year {
    ask::year(number).unwrap()
}

fn month(number: u64, place: u64) -> Month {
    ask::month(number, place).unwrap()
}

/// Months before, leap remainder, month count, leap place.
fn head(number: u64) -> (u64, u64, usize, u64) {
    let year = year(number);
    (
        year.months_before,
        year.leap_remainder,
        year.months.len(),
        year.leap_place,
    )
}

fn solstice(number: u64) -> (u64, u64) {
    let solstice = year(number).solstice;
    (solstice.whole, solstice.remainder)
}

fn begins(row: &Row) -> (u64, u64, u64) {
    (row.day, row.remainder, row.length)
}

fn numbers(month: &Month) -> RowNumbers {
    fields::row(&month.row)
}

/// Degrees, remainder, side, day of the anomaly and its rest, as a row has them.
fn moon(month: &Month) -> [u64; 5] {
    let [.., degrees, remainder, side, day, rest] = numbers(month);
    [degrees, remainder, side, day, rest]
}

#[test]
fn first_years() {
    assert_eq!(head(1), (0, 0, 12, 0));
    assert_eq!(solstice(1), (0, 0));
    assert_eq!(begins(&month(1, 0).row), (0, 0, 29));
    assert_eq!(head(2), (12, 207, 12, 0));
    assert_eq!(head(3), (24, 414, 13, 9));
    assert_eq!(head(4), (37, 59, 12, 0));
}

#[test]
fn last_year() {
    assert_eq!(head(1_011_600), (12_511_787, 355, 13, 12));
    assert_eq!(solstice(1_011_600), (369_480_654, 12_743));
    let last = month(1_011_600, 12).row;
    assert_eq!(begins(&last), (369_480_990, 97_883, 30));
    assert_eq!(last.lunation, 12_511_799);
}

#[test]
fn month_nought_at_the_node() {
    let month = month(1, 0);
    let new_moon = month.new_moon_node;
    assert_eq!(
        (new_moon.distance.whole, new_moon.distance.remainder),
        (0, 0)
    );
    assert_eq!(new_moon.side, Side::AtNode);
    assert!(new_moon.eclipse.marked);
    assert_eq!(new_moon.eclipse.size, 15);
    let full_moon = month.full_moon_node;
    let distance = full_moon.distance;
    assert_eq!(
        (distance.whole, distance.remainder, distance.half),
        (14, 159_588, 1)
    );
    assert!(full_moon.eclipse.marked);
    assert_eq!(full_moon.eclipse.size, 1);
    assert_eq!(moon(&month), [0, 0, 0, 1, 0]);
}

#[test]
fn xinghe_two() {
    let year = year(293_997);
    assert_eq!((year.leap_remainder, year.leap_place), (440, 7));
    assert_eq!(solstice(293_997), (107_380_330, 2_132));
    let first = year.months[0];
    assert_eq!(first.row.lunation, 3_636_238);
    assert_eq!(
        (first.row.day, first.sixty, first.row.remainder),
        (107_380_307, 48, 1_336)
    );
}

#[test]
fn xinghe_two_node_and_correction() {
    let month = month(293_997, 0);
    let node = month.new_moon_node;
    assert_eq!(
        (node.distance.whole, node.distance.remainder),
        (136, 125_572)
    );
    assert_eq!(node.side, Side::Inside);
    assert!(!node.eclipse.marked);
    let corrected = month.new_moon_correction;
    assert_eq!(
        (corrected.anomaly_day, corrected.rest, corrected.correction),
        (14, 188_982, 2_124)
    );
    let moved = (corrected.day, corrected.remainder);
    assert_eq!(moved, (month.row.day - 1, 207_742));
    assert_eq!(moon(&month), [136, 125_572, 2, 14, 188_982]);
}

#[test]
fn refusals() {
    assert_eq!(ask::year(0).unwrap_err(), Refusal::Year);
    assert_eq!(ask::year(1_011_601).unwrap_err(), Refusal::Year);
    assert_eq!(month(1, 0).row.length, 29);
    assert_eq!(ask::day_number(1, 0, 30), Err(Refusal::NoSuchDay));
    let last = numbers(&month(1_011_600, 12));
    assert_eq!(ask::carry(&last, 1), Err(Refusal::CarryOutside));
}

/// Each number changed in turn. A row has no room for a third leap mark or a
/// fourth side, its numbers have.
#[test]
fn forged_rows() {
    for genuine in [(1, 0), (293_997, 7), (1_011_600, 12)].map(|at| month(at.0, at.1)) {
        let genuine = numbers(&genuine);
        assert_eq!(ask::carry(&genuine, 0), Ok(genuine));
        for index in 0..ROW {
            let value = genuine[index];
            let near = [value.wrapping_add(1), value.wrapping_sub(1)];
            for other in near.into_iter().chain([value + 2, value + 3, u64::MAX]) {
                let mut forged = genuine;
                forged[index] = other;
                assert_eq!(ask::carry(&forged, 0), Err(Refusal::ForgedRow));
            }
        }
    }
}

/// Rows past the year's count stay, and refused, all of them do.
#[test]
fn years_in_lent_lists() {
    let lent = [numbers(&month(1, 5)); 14];
    for (number, length) in [(1, 12), (1, 14), (3, 13), (1_011_600, 13)] {
        let mut list = lent;
        let count = ask::fill_year(number, &mut list[..length]).unwrap();
        let rows: Vec<_> = year(number).months.iter().map(numbers).collect();
        assert_eq!(list[..count], rows);
        assert_eq!(list[count..], lent[count..]);
    }
    let too_short = Err(Refusal::ListTooShort);
    let no_year = Err(Refusal::Year);
    for (number, length, refused) in [(1, 11, too_short), (3, 12, too_short), (0, 0, no_year)] {
        let mut list = lent;
        assert_eq!(ask::fill_year(number, &mut list[..length]), refused);
        assert_eq!(list, lent);
    }
}

#[test]
fn printed_year_one() {
    let printed = [
        (11, 1, 0, 29),
        (12, 30, 110_647, 30),
        (1, 60, 12_764, 29),
        (2, 29, 123_411, 30),
        (3, 59, 25_528, 29),
        (4, 28, 136_175, 30),
        (5, 58, 38_292, 29),
        (6, 27, 148_939, 30),
        (7, 57, 51_056, 29),
        (8, 26, 161_703, 30),
        (9, 56, 63_820, 29),
        (10, 25, 174_467, 30),
    ];
    let months = year(1).months;
    assert!(months.iter().all(|month| !month.row.leap));
    let walked: Vec<_> = months
        .iter()
        .map(|month| (month, &month.row))
        .map(|(month, row)| (row.number, month.sixty, row.remainder, row.length))
        .collect();
    assert_eq!(walked, printed);
}

/// A year found from a checkpoint is the year met on the way; the last years
/// before and the first ones after an era's head cross both seams.
#[test]
fn checkpoints_give_what_the_walk_gives() {
    let round = Checkpoints::shared();
    let walk = second::Walker::from_origin().skip(168_500);
    for year in walk.take(250) {
        assert_eq!(round.year(year.number).as_ref(), Some(&year));
        for month in &year.months {
            let lunation = month.row.lunation;
            assert_eq!(round.month(lunation).as_ref(), Some(month));
            let last_day = month.row.day + month.row.length - 1;
            assert_eq!(round.month_of_day(month.row.day).as_ref(), Some(month));
            assert_eq!(round.month_of_day(last_day).as_ref(), Some(month));
        }
    }
}
