//! Node and anomaly in the rows: the era heads, the pages and the division.

use second::nodes::Side;
use second::numbers::{M, N, P, T};
use second::spans::Span;
use second::{ask, fields, Month, Row, Walker};

const ERA_MONTHS: u64 = 2_085_300;

/// Degrees, remainder and side, as the paper prints them for eras 1 to 5.
const PRINTED: [[u64; 3]; 5] = [
    [127, 39_339, 1],
    [81, 11_561, 2],
    [34, 192_313, 2],
    [162, 23_122, 1],
    [115, 203_874, 1],
];

#[test]
fn heads_are_the_printed_ones() {
    for (era, printed) in (1..).zip(PRINTED) {
        let head = ask::genuine(ERA_MONTHS * era).unwrap();
        assert_eq!(head[2], 0, "a head begins a year");
        assert_eq!(head[8..=10], printed);
    }
}

/// The side that the month before gives: turned where a node is passed on the
/// way, which is where the distance falls. At the node it is read as outside.
fn stepped(before: &Row, since_node: Span) -> Side {
    let passed = since_node < before.moon.since_node;
    match (before.moon.side, passed) {
        (Side::Inside, true) | (Side::Outside | Side::AtNode, false) => Side::Outside,
        (Side::Inside, false) | (Side::Outside | Side::AtNode, true) => Side::Inside,
    }
}

/// Over every month of the round.
#[test]
fn steps_of_the_side_fail_at_two_heads() {
    let mut rows = Walker::from_origin().flat_map(|year| year.months);
    let mut before = rows.next().unwrap().row;
    let mut failing = Vec::new();
    for row in rows.map(|month| month.row) {
        if row.moon.side != stepped(&before, row.moon.since_node) {
            failing.push(row.lunation);
        }
        before = row;
    }
    assert_eq!(before.lunation, 12_511_799);
    assert_eq!(failing, [ERA_MONTHS, 2 * ERA_MONTHS]);
}

/// Distance, day of the anomaly and rest by division from the origin.
fn divided(lunation: u64) -> [u64; 4] {
    let (node, anomaly) = (lunation * P % M, lunation * P % T);
    [node / N, node % N, anomaly / N + 1, anomaly % N]
}

fn compare(month: &Month) {
    let row = fields::row(&month.row);
    assert_eq!([row[8], row[9], row[11], row[12]], divided(row[0]));
    assert_eq!(row[8..=10], fields::new_moon_node(month)[..3]);
    let page = fields::new_moon_correction(month, 0);
    assert_eq!(row[11..], [page[0], page[1]].map(i64::unsigned_abs));
}

/// Over every month of the round, too.
#[test]
fn rows_pages_and_division() {
    for year in Walker::from_origin() {
        year.months.iter().for_each(compare);
    }
}
