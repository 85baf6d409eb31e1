//! Whole years in lent lists of every length.

use second::ask;
use xinghe::ROW;

use crate::expected::{self, LAST_YEAR, MONTHS};
use crate::random::Random;
use crate::tally::Tally;

const SENTINEL: u64 = 0x5a5a_a5a5_5a5a_a5a5;
/// The rows of the longest year and twenty numbers more.
const LONGEST: usize = MONTHS * ROW + 20;

#[test]
fn years_in_lists_of_every_length() {
    let mut random = Random::new(11);
    let mut tally = Tally::new("year lists");
    let edges = [1, 2, 3, 4, 19, 20, LAST_YEAR - 1, LAST_YEAR];
    let drawn = (0..500).map(|_| 1 + random.below(LAST_YEAR));
    for number in edges.into_iter().chain(drawn) {
        let year = ask::year(number).expect("a year of the round");
        let rows: Vec<u64> = year.months.iter().flat_map(expected::row).collect();
        for length in 0..=LONGEST {
            compare_list(&mut tally, number, length, &rows);
        }
    }
    tally.end(90_000);
}

/// A row's numbers stand before and behind the lent part too, to show that
/// nothing is written outside it.
fn compare_list(tally: &mut Tally, year: u64, length: usize, rows: &[u64]) {
    let mut memory = [SENTINEL; ROW + LONGEST + ROW];
    let answered = xinghe::fill_year(year, &mut memory[ROW..ROW + length]);
    let mut expected = [SENTINEL; ROW + LONGEST + ROW];
    if rows.len() <= length {
        expected[ROW..ROW + rows.len()].copy_from_slice(rows);
        tally.same(answered, Ok(()));
    } else {
        tally.same(answered, Err(6));
    }
    assert_eq!(memory, expected, "year {year} in {length} numbers");
}

#[test]
fn refused_years_leave_every_list() {
    let mut tally = Tally::new("refused year lists");
    for year in [0, LAST_YEAR + 1, 1 << 32, i64::MAX as u64, u64::MAX] {
        for length in 0..=LONGEST {
            let mut list = vec![SENTINEL; length];
            tally.same(xinghe::fill_year(year, &mut list), Err(1));
            assert!(list.iter().all(|number| *number == SENTINEL));
        }
    }
    tally.end(900);
}

/// An empty list of its own, whose pointer comes from no memory at all.
#[test]
fn empty_lists() {
    assert_eq!(xinghe::fill_year(1, &mut []), Err(6));
    assert_eq!(xinghe::fill_year(0, &mut []), Err(1));
    let first = xinghe::month_row(1, 0).expect("the first month");
    let end = xinghe::walk(&first, &[]).expect("a walk of no counts");
    assert_eq!((end.row, end.sum, end.answered), (first, 0, 0));
}
