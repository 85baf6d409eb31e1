//! The sixty days and their names.

use second::ask::Refusal;
use second::sixty::{days_on, label, GANZHI, JIAZI};

fn name(day: u64) -> String {
    let name = label(day, &[], &GANZHI).expect("a day of the sixty");
    String::from_utf8(name.to_vec()).expect("a name in UTF-8")
}

#[test]
fn round_of_sixty() {
    let days: Vec<u64> = (0..121).map(|later| days_on(JIAZI, later)).collect();
    assert_eq!(days[..60], Vec::from_iter(1..=60));
    assert_eq!(days[60..120], days[..60]);
    assert_eq!(days[120], JIAZI);
}

/// Names as any table of the sixty has them, and no two alike.
#[test]
fn names_of_the_sixty() {
    let known = [
        (1, "甲子"),
        (2, "乙丑"),
        (11, "甲戌"),
        (13, "丙子"),
        (37, "庚子"),
        (48, "辛亥"),
        (60, "癸亥"),
    ];
    for (day, written) in known {
        assert_eq!(name(day), written);
    }
    let mut names: Vec<String> = (1..=60).map(name).collect();
    names.sort();
    names.dedup();
    assert_eq!(names.len(), 60);
}

#[test]
fn lists_and_refusals() {
    let (theirs, house) = ([1; 361], [2; 361]);
    let of = |day, t: usize, h: usize| label(day, &theirs[..t], &house[..h]).map(|name| name[0]);
    assert_eq!(of(1, 360, 360), Ok(1));
    assert_eq!(of(60, 360, 0), Ok(1));
    assert_eq!(of(60, 361, 360), Ok(2));
    assert_eq!(of(1, 359, 360), Ok(2));
    assert_eq!(of(1, 359, 361), Err(Refusal::NoNames));
    assert_eq!(of(0, 0, 0), Err(Refusal::NoSuchDay));
    assert_eq!(of(61, 360, 360), Err(Refusal::NoSuchDay));
}
