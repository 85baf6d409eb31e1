//! Walks, against the paper's walk done on the month alone.

use second::ask;
use xinghe::{Row, Walk};

use crate::carries::some_rows;
use crate::expected::LAST_MONTH;
use crate::random::Random;
use crate::tally::Tally;

/// The paper's walk: the month moves where the sum is a month of the round,
/// in numbers wide enough for any sum; the row is the second program's.
fn walked(start: &Row, counts: &[i64]) -> Walk {
    let (mut month, mut sum, mut answered) = (i128::from(start[0]), 0, 0);
    for count in counts {
        let next = month + i128::from(*count);
        if (0..=i128::from(LAST_MONTH)).contains(&next) {
            month = next;
            sum += i128::from(*count);
            answered += 1;
        }
    }
    Walk {
        row: ask::genuine(month as u64).expect("a month of the round"),
        sum: i64::try_from(sum).expect("a sum within the round"),
        answered,
    }
}

#[test]
fn random_lists() {
    let mut random = Random::new(8);
    let mut tally = Tally::new("walks");
    let rows = some_rows(&mut random, 200);
    for _ in 0..6_000 {
        let row = random.pick(&rows);
        let length = if random.below(50) == 0 { 2_000 } else { 40 };
        let length = random.below(length);
        let counts: Vec<_> = (0..length).map(|_| random.count()).collect();
        let answered = xinghe::walk(&row, &counts);
        tally.same(answered, Ok(walked(&row, &counts)));
    }
    tally.end(6_000);
}

#[test]
fn edge_lists() {
    let mut random = Random::new(9);
    let mut tally = Tally::new("walks at the edges");
    let rows = some_rows(&mut random, 40);
    compare_edge_lists(&rows, LAST_MONTH, |row, counts| {
        tally.same(xinghe::walk(row, counts), Ok(walked(row, counts)));
    });
    tally.end(300);
}

/// From each row by lists that are empty, refused throughout, or go to and fro.
pub fn compare_edge_lists<R>(rows: &[R], last_month: u64, mut compare: impl FnMut(&R, &[i64])) {
    let length = last_month as i64;
    let lists: [&[i64]; 7] = [
        &[],
        &[0],
        &[i64::MIN, i64::MAX, i64::MIN, i64::MAX],
        &[length, -length, length + 1, -length - 1],
        &[-length, length, 1, -1],
        &[i64::MAX, 1, i64::MIN, -1, 0, 1, 1, -2],
        &[1; 100],
    ];
    for row in rows {
        for counts in lists {
            compare(row, counts);
        }
    }
}

/// A walk is the carries one after another.
#[test]
fn walk_and_carries() {
    let mut random = Random::new(10);
    let mut tally = Tally::new("walks and carries");
    let rows = some_rows(&mut random, 200);
    for _ in 0..10_000 {
        let start = random.pick(&rows);
        let counts: [i64; 20] = std::array::from_fn(|_| random.count());
        let mut row = start;
        for count in counts {
            match xinghe::carry(&row, count) {
                Ok(next) => row = next,
                refused => tally.same(refused, Err(5)),
            }
        }
        let end = xinghe::walk(&start, &counts);
        tally.same(end.map(|end| end.row), Ok(row));
    }
    tally.end(10_000);
}
