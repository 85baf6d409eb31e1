//! Carries of genuine and of forged rows.

use second::calendars::ask;
use second::calendars::fields::Numbers;

use super::library::{number, Library, Linde, Zhengguang};
use super::some::some_rows;
use crate::random::Random;
use crate::tally::Tally;

#[test]
fn genuine_rows() {
    let mut tally = Tally::new("carries in the calendars");
    compare_carries::<Zhengguang>(&mut tally);
    compare_carries::<Linde>(&mut tally);
    tally.end(30_000);
}

fn compare_carries<L: Library>(tally: &mut Tally) {
    let mut random = Random::new(25);
    let last = L::walked().months() - 1;
    for row in some_rows::<L>(&mut random, 500) {
        let to_first = -(row[0] as i64);
        let to_last = (last - row[0]) as i64;
        let edges = [to_first, to_first - 1, to_last, to_last + 1, 1, -1];
        let drawn: Vec<_> = (0..16).map(|_| random.count()).collect();
        for count in edges.into_iter().chain(drawn) {
            let carried = number(ask::carry(L::walked(), &row, count));
            tally.same(L::carry(&row, count), carried.clone());
            if let Ok(there) = carried {
                tally.same(L::carry(&there, -count), Ok(row.clone()));
            }
        }
    }
}

/// Each of the numbers changed in turn.
#[test]
fn forged_rows() {
    let mut tally = Tally::new("forged rows of the calendars");
    compare_forgeries::<Zhengguang>(&mut tally);
    compare_forgeries::<Linde>(&mut tally);
    tally.end(140_000);
}

fn compare_forgeries<L: Library>(tally: &mut Tally) {
    let mut random = Random::new(26);
    for genuine in some_rows::<L>(&mut random, 150) {
        for index in 0..genuine.len() {
            for value in changes::<L>(&mut random, genuine[index]) {
                let mut forged = genuine.clone();
                forged[index] = value;
                compare_forged::<L>(tally, &mut random, &forged);
            }
        }
    }
}

/// Other values for a number: its neighbours, another bit, edges, and numbers that are
/// no leap mark (2) and name no month.
fn changes<L: Library>(random: &mut Random, value: u64) -> Vec<u64> {
    let flipped = value ^ (1 << random.below(64));
    let near = [value.wrapping_add(1), value.wrapping_sub(1), flipped];
    let far = [0, 2, 3, 1 << 32 | 1, L::walked().months(), u64::MAX];
    let all = near.into_iter().chain(far);
    all.filter(|other| *other != value).collect()
}

fn compare_forged<L: Library>(tally: &mut Tally, random: &mut Random, forged: &Numbers) {
    let walked = number(ask::carry(L::walked(), forged, 0));
    assert_eq!(walked, Err(4), "the second program takes it");
    for count in [0, 1, i64::MIN, random.count()] {
        tally.same(L::carry(forged, count), Err(4));
    }
    let counts = [random.count(), random.count()];
    tally.same(L::walk(forged, &counts), Err(4));
    tally.same(L::walk(forged, &[]), Err(4));
}

/// A row of random numbers, and the front of one month's row with the rest of
/// another's.
#[test]
fn rows_of_no_month() {
    let mut tally = Tally::new("rows of no month of the calendars");
    compare_no_months::<Zhengguang>(&mut tally);
    compare_no_months::<Linde>(&mut tally);
    tally.end(20_000);
}

fn compare_no_months<L: Library>(tally: &mut Tally) {
    let mut random = Random::new(27);
    let rows = some_rows::<L>(&mut random, 100);
    for _ in 0..10_000 {
        let drawn: Numbers = rows[0].iter().map(|_| random.number()).collect();
        tally.same(L::carry(&drawn, random.count()), Err(4));
    }
    for (one, other) in rows.iter().zip(&rows[1..]) {
        for front in 1..one.len() {
            let mixed = [&one[..front], &other[front..]].concat();
            if mixed != *one && mixed != *other {
                tally.same(L::carry(&mixed, 0), Err(4));
            }
        }
    }
}
