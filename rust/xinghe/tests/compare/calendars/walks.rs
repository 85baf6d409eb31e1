//! Walks, of which some counts lead outside.

use second::calendars::ask;

use super::library::{number, Library, Linde, Zhengguang};
use super::some::some_rows;
use crate::random::Random;
use crate::tally::Tally;
use crate::walks::compare_edge_lists;

#[track_caller]
fn compare<L: Library>(tally: &mut Tally, row: &[u64], counts: &[i64]) {
    let walked = number(ask::walk(L::walked(), row, counts));
    tally.same(L::walk(row, counts), walked);
}

#[test]
fn random_lists() {
    let mut tally = Tally::new("walks in the calendars");
    compare_random_lists::<Zhengguang>(&mut tally);
    compare_random_lists::<Linde>(&mut tally);
    tally.end(12_000);
}

fn compare_random_lists<L: Library>(tally: &mut Tally) {
    let mut random = Random::new(28);
    let rows = some_rows::<L>(&mut random, 200);
    for _ in 0..6_000 {
        let row = &rows[random.below(rows.len() as u64) as usize];
        let most = if random.below(50) == 0 { 2_000 } else { 40 };
        let length = random.below(most);
        let counts: Vec<_> = (0..length).map(|_| random.count()).collect();
        compare::<L>(tally, row, &counts);
    }
}

#[test]
fn edge_lists() {
    let mut tally = Tally::new("walks at the calendars' edges");
    compare_edges::<Zhengguang>(&mut tally);
    compare_edges::<Linde>(&mut tally);
    tally.end(600);
}

fn compare_edges<L: Library>(tally: &mut Tally) {
    let mut random = Random::new(29);
    let rows = some_rows::<L>(&mut random, 40);
    compare_edge_lists(&rows, L::walked().months() - 1, |row, counts| {
        compare::<L>(tally, row, counts);
    });
}

/// A walk is the carries one after another.
#[test]
fn walk_and_carries() {
    let mut tally = Tally::new("walks and carries in the calendars");
    compare_with_carries::<Zhengguang>(&mut tally);
    compare_with_carries::<Linde>(&mut tally);
    tally.end(20_000);
}

fn compare_with_carries<L: Library>(tally: &mut Tally) {
    let mut random = Random::new(30);
    for start in some_rows::<L>(&mut random, 10_000) {
        let counts: [i64; 20] = std::array::from_fn(|_| random.count());
        let mut row = start.clone();
        for count in counts {
            match L::carry(&row, count) {
                Ok(next) => row = next,
                refused => tally.same(refused, Err(5)),
            }
        }
        let end = L::walk(&start, &counts);
        tally.same(end.map(|end| end.row), Ok(row));
    }
}
