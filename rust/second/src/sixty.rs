//! The round of sixty days: numbers from 1 that are counted on day by day, and
//! names that are told off a list one after the other.

use std::sync::LazyLock;

use crate::ask::Refusal;
use crate::numbers::SIXTY;

/// Day 0 is jiazi, which is numbered 1.
pub const JIAZI: u64 = 1;

const NAME_BYTES: usize = 6;
const STEMS: &str = "甲乙丙丁戊己庚辛壬癸";
const BRANCHES: &str = "子丑寅卯辰巳午未申酉戌亥";

/// The day of the sixty so many days later.
pub fn days_on(sixty: u64, days: u64) -> u64 {
    (0..days).fold(sixty, |day, _| if day == SIXTY { JIAZI } else { day + 1 })
}

/// The sixty stem and branch names in UTF-8.
pub static GANZHI: LazyLock<Vec<u8>> = LazyLock::new(ganzhi);

/// Stems and branches go round side by side.
fn ganzhi() -> Vec<u8> {
    let mut stems = STEMS.chars().cycle();
    let mut branches = BRANCHES.chars().cycle();
    let mut names = String::new();
    for _ in 0..SIXTY {
        names.extend(stems.next());
        names.extend(branches.next());
    }
    names.into_bytes()
}

/// The name of a day of the sixty, from the first of the two lists that holds
/// sixty names.
pub fn label<'a>(day: u64, theirs: &'a [u8], house: &'a [u8]) -> Result<&'a [u8], Refusal> {
    if !(JIAZI..=SIXTY).contains(&day) {
        return Err(Refusal::NoSuchDay);
    }
    let holds_sixty = |list: &&[u8]| {
        let mut names = list.chunks(NAME_BYTES);
        names.len() as u64 == SIXTY && names.all(|name| name.len() == NAME_BYTES)
    };
    let mut lists = [theirs, house].into_iter();
    let mut rest = lists.find(holds_sixty).ok_or(Refusal::NoNames)?;
    for _ in JIAZI..day {
        rest = &rest[NAME_BYTES..];
    }
    Ok(&rest[..NAME_BYTES])
}
