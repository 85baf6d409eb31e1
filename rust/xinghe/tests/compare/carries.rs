//! Carries of genuine and of forged rows.

use second::ask;
use second::numbers::{ERAS, ROUND_MONTHS};
use xinghe::{Row, ROW};

use crate::expected::{self, LAST_MONTH};
use crate::random::Random;
use crate::tally::Tally;

/// Rows at the edges of the round and of its eras, and others at random.
pub fn some_rows(random: &mut Random, drawn: usize) -> Vec<Row> {
    let ends = [0, 1, LAST_MONTH - 1, LAST_MONTH];
    let heads = (1..ERAS).map(|era| era * (ROUND_MONTHS / ERAS));
    let edges = heads.flat_map(|head| [head - 1, head]).chain(ends);
    let drawn = (0..drawn).map(|_| random.below(ROUND_MONTHS));
    let rows = edges.chain(drawn).map(ask::genuine);
    rows.map(|row| row.expect("a month of the round")).collect()
}

#[test]
fn genuine_rows() {
    let mut random = Random::new(5);
    let mut tally = Tally::new("carries");
    for row in some_rows(&mut random, 500) {
        let to_first = -(row[0] as i64);
        let to_last = (LAST_MONTH - row[0]) as i64;
        let edges = [to_first, to_first - 1, to_last, to_last + 1, 1, -1];
        let drawn: Vec<_> = (0..16).map(|_| random.count()).collect();
        for count in edges.into_iter().chain(drawn) {
            let carried = expected::number(ask::carry(&row, count));
            tally.same(xinghe::carry(&row, count), carried);
            if let Ok(there) = carried {
                tally.same(xinghe::carry(&there, -count), Ok(row));
            }
        }
    }
    tally.end(16_000);
}

/// Each of the fields changed in turn.
#[test]
fn forged_rows() {
    let mut random = Random::new(6);
    let mut tally = Tally::new("forged rows");
    for genuine in some_rows(&mut random, 150) {
        for field in 0..ROW {
            for value in changes(&mut random, genuine[field]) {
                let mut forged = genuine;
                forged[field] = value;
                compare_forged(&mut tally, &mut random, &forged);
            }
        }
    }
    tally.end(100_000);
}

/// Other values for a field: its neighbours, another bit, edges, and numbers that
/// are no leap mark (2) and no side (3, 4, a side with something above 32 bits).
fn changes(random: &mut Random, value: u64) -> Vec<u64> {
    let flipped = value ^ (1 << random.below(64));
    let near = [value.wrapping_add(1), value.wrapping_sub(1), flipped];
    let far = [0, 2, 3, 4, 1 << 32 | 1, ROUND_MONTHS, u64::MAX];
    let all = near.into_iter().chain(far);
    all.filter(|other| *other != value).collect()
}

fn compare_forged(tally: &mut Tally, random: &mut Random, forged: &Row) {
    assert_eq!(ask::carry(forged, 0), Err(ask::Refusal::ForgedRow));
    for count in [0, 1, i64::MIN, random.count()] {
        tally.same(xinghe::carry(forged, count), Err(4));
    }
    let counts = [random.count(), random.count()];
    tally.same(xinghe::walk(forged, &counts[..]), Err(4));
    tally.same(xinghe::walk(forged, &[]), Err(4));
}

/// A row of random numbers, and a genuine row with two fields exchanged.
#[test]
fn rows_of_no_month() {
    let mut random = Random::new(7);
    let mut tally = Tally::new("rows of no month");
    for _ in 0..20_000 {
        let drawn = std::array::from_fn(|_| random.number());
        tally.same(xinghe::carry(&drawn, random.count()), Err(4));
    }
    for genuine in some_rows(&mut random, 100) {
        for (a, b) in (0..ROW).flat_map(|a| (0..a).map(move |b| (a, b))) {
            let mut exchanged = genuine;
            exchanged.swap(a, b);
            if exchanged != genuine {
                tally.same(xinghe::carry(&exchanged, 0), Err(4));
            }
        }
    }
    tally.end(27_000);
}

/// The front of one month's row and the rest of another's.
#[test]
fn rows_of_two_months() {
    let mut random = Random::new(18);
    let mut tally = Tally::new("rows of two months");
    let rows = some_rows(&mut random, 100);
    for (one, other) in rows.iter().zip(&rows[1..]) {
        for front in 1..ROW {
            let mut mixed = *other;
            mixed[..front].copy_from_slice(&one[..front]);
            if mixed != *one {
                tally.same(xinghe::carry(&mixed, 0), Err(4));
            }
        }
    }
    tally.end(1_300);
}
