//! Day names from lists of every kind of length, by their bytes and by where
//! they lie.

use second::sixty;

use crate::expected;
use crate::random::Random;
use crate::single::EDGES;
use crate::tally::Tally;

const LENGTHS: [usize; 11] = [0, 1, 6, 7, 60, 359, 360, 361, 366, 720, 1 << 16];

/// A part by its bytes and its place in memory: two parts of the same bytes are
/// told from one another.
fn part(name: &[u8]) -> (Vec<u8>, *const u8) {
    (name.to_vec(), name.as_ptr())
}

#[track_caller]
fn compare(tally: &mut Tally, day: u64, theirs: &[u8], house: &[u8]) {
    let told_off = expected::number(sixty::label(day, theirs, house));
    let answered = xinghe::label(day, theirs, house);
    tally.same(answered.map(part), told_off.map(part));
}

/// All bytes are alike, so that only where it lies tells one name from another.
/// The two lists lie in two buffers, or in one, where they overlap.
#[test]
fn lengths_and_days() {
    let mut tally = Tally::new("labels");
    let buffers = [vec![7; 1 << 17], vec![7; 1 << 16]];
    for day in (0..=62).chain(EDGES) {
        for their_length in LENGTHS {
            for house_length in LENGTHS {
                let theirs = &buffers[0][..their_length];
                compare(&mut tally, day, theirs, &buffers[1][..house_length]);
                let overlapping = &buffers[0][6..][..house_length];
                compare(&mut tally, day, theirs, overlapping);
            }
        }
    }
    tally.end(16_000);
}

#[test]
fn lists_at_random() {
    let mut random = Random::new(17);
    let mut tally = Tally::new("labels at random");
    let bytes: Vec<u8> = (0..2_000).map(|_| random.number() as u8).collect();
    for _ in 0..200_000 {
        let day = match random.below(8) {
            0 => random.number(),
            _ => random.below(62),
        };
        let mut list = || {
            let from = random.below(1_000) as usize;
            let length = match random.below(4) {
                0 => random.below(800) as usize,
                _ => 360,
            };
            &bytes[from..from + length]
        };
        let (theirs, house) = (list(), list());
        compare(&mut tally, day, theirs, house);
    }
    tally.end(200_000);
}

/// Every day of two rounds of sixty, from the stems and branches.
#[test]
fn stems_and_branches() {
    let mut tally = Tally::new("stems and branches");
    let ganzhi = xinghe::ganzhi_names();
    tally.same(&ganzhi[..], &sixty::GANZHI[..]);
    for later in 0..120 {
        let day = sixty::days_on(sixty::JIAZI, later);
        compare(&mut tally, day, &[], &ganzhi);
        compare(&mut tally, day, &ganzhi, &[]);
    }
    tally.end(240);
}
