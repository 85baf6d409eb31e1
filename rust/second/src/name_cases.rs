//! The day names' part of the cases: every day from either list, then lists of
//! lengths at the edge and what is refused.

use crate::cases::line;
use crate::sixty;

/// One byte more than a list of sixty names has.
const LENT: usize = 361;

pub fn lines() -> Vec<String> {
    let mut lines: Vec<String> = (0..=61).map(|day| label(day, 360, 360)).collect();
    lines.extend((0..=61).map(|day| label(day, 0, 360)));
    for (theirs, house) in [(360, 0), (360, 361), (359, 360), (361, 360)] {
        lines.extend([1, 60].map(|day| label(day, theirs, house)));
    }
    for (theirs, house) in [(0, 0), (359, 361), (361, 359)] {
        lines.extend([0, 1, 60, 61, u64::MAX].map(|day| label(day, theirs, house)));
    }
    lines.push(label(u64::MAX, 360, 360));
    lines
}

/// From the first so many bytes of both lists.
fn label(day: u64, theirs: usize, house: usize) -> String {
    let (all_theirs, all_house) = (their_names(), house_names());
    let answer = sixty::label(day, &all_theirs[..theirs], &all_house[..house])
        .map(|name| String::from_utf8(name.to_vec()).expect("a name in UTF-8"));
    line(format!("label {day} {theirs} {house}"), answer)
}

/// Signs that go round by 89, so that no name is like another.
fn their_names() -> Vec<u8> {
    (b'!'..=b'y').cycle().take(LENT).collect()
}

/// The stem and branch names, and what stands after them.
fn house_names() -> Vec<u8> {
    let mut names = sixty::GANZHI.clone();
    names.resize(LENT, b'.');
    names
}
