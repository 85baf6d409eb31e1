//! Volumes written and read: every byte as the second program walks it, and what
//! stands about the lent part as it was.

use second::numbers::{M, P};
use second::volumes;
use xinghe::{Answer, BLOCK};

use crate::expected::{LAST_DAY, LAST_MONTH, LAST_YEAR};
use crate::random::Random;
use crate::raw;
use crate::tally::Tally;

pub const SENTINEL: u8 = 0xa5;
/// Bytes before and behind the lent part, which so begins at an odd place.
pub const MARGIN: usize = 61;
pub const OTHER: u64 = 0x1234_5678_9abc_def1;

/// First and last years: both ends of the round, heads of eras, a chapter, and
/// 1,024 years at either end and about a head.
const SPANS: [(u64, u64); 14] = [
    (1, 1),
    (2, 3),
    (1, 20),
    (1, 562),
    (1, 1_024),
    (293_996, 293_998),
    (168_600, 168_600),
    (168_601, 168_601),
    (168_595, 168_605),
    (168_090, 169_113),
    (337_200, 337_201),
    (LAST_YEAR, LAST_YEAR),
    (LAST_YEAR - 19, LAST_YEAR),
    (LAST_YEAR - 1_023, LAST_YEAR),
];

/// As the second program writes it.
pub fn volume(first: u64, last: u64) -> Vec<u8> {
    let blocks = volumes::blocks(first, last).expect("years of the round");
    blocks.flatten().collect()
}

/// As the library answers it.
pub fn walked(volume: &[u8]) -> Answer<[u64; 2]> {
    volumes::read(volume).map(|(first, last)| [first, last])
}

/// Both programs are lent the same; the raw call's count is another number before,
/// and is nought where it is refused.
#[track_caller]
fn compare_writing(tally: &mut Tally, first: u64, last: u64, room: usize) {
    let mut expected = vec![SENTINEL; MARGIN + room + MARGIN];
    let lent = MARGIN..MARGIN + room;
    let walked = volumes::write(first, last, &mut expected[lent.clone()]);
    let mut memory = vec![SENTINEL; expected.len()];
    let out = &mut memory[lent.clone()];
    let mut count = [OTHER];
    // SAFETY: pointer and length are those of a slice.
    let number =
        unsafe { raw::xinghe_write_volume(first, last, out.as_mut_ptr(), out.len(), &mut count) };
    let told = walked.map_or_else(|number| (number, 0), |count| (0, count));
    tally.same((number, count[0]), told);
    assert!(memory == expected, "{first} to {last} in {room} bytes");
    memory.fill(SENTINEL);
    let answered = xinghe::write_volume(first, last, &mut memory[lent]);
    tally.same(answered, walked.map(|count| count as usize));
    assert!(memory == expected, "{first} to {last} in {room} bytes");
}

#[test]
fn spans_in_buffers() {
    let mut tally = Tally::new("volumes written");
    for (first, last) in SPANS {
        let bytes = (last - first + 1) as usize * BLOCK;
        for room in [0, 1, bytes / 2, bytes - BLOCK, bytes - 1] {
            compare_writing(&mut tally, first, last, room);
        }
        for more in [0, 1, 2, 511, 512, 513, 5_000] {
            compare_writing(&mut tally, first, last, bytes + more);
        }
    }
    tally.end(300);
}

#[test]
fn random_spans() {
    let mut random = Random::new(18);
    let mut tally = Tally::new("volumes at random");
    for _ in 0..3_000 {
        let first = 1 + random.below(LAST_YEAR);
        let last = (first + random.below(24)).min(LAST_YEAR);
        let room = random.below(26) as usize * BLOCK;
        let room = room + random.pick(&[0, 0, 1, 255, 511]);
        compare_writing(&mut tally, first, last, room);
    }
    tally.end(6_000);
}

/// The year before the order, the order before the room.
#[test]
fn refused_spans() {
    let mut tally = Tally::new("refused volumes");
    let years = [0, 1, 2, LAST_YEAR, LAST_YEAR + 1, 1 << 32 | 1, u64::MAX];
    for first in years {
        for last in years {
            for room in [0, 1, 511, 512, 1_023, 1_024, 1_536] {
                compare_writing(&mut tally, first, last, room);
            }
        }
    }
    tally.end(600);
}

/// A buffer of its own, whose pointer comes from no memory at all.
#[test]
fn empty_buffers() {
    assert_eq!(xinghe::write_volume(1, 1, &mut []), Err(6));
    assert_eq!(xinghe::write_volume(2, 1, &mut []), Err(2));
    assert_eq!(xinghe::write_volume(0, 1, &mut []), Err(1));
    assert_eq!(xinghe::read_volume(&[]), Err(11));
}

/// The raw call's years are other numbers before, and noughts where it is refused.
#[track_caller]
fn compare_reading(tally: &mut Tally, volume: &[u8], expected: Answer<[u64; 2]>) {
    let mut years = [OTHER; 2];
    // SAFETY: pointer and length are those of a slice.
    let number = unsafe { raw::xinghe_read_volume(volume.as_ptr(), volume.len(), &mut years) };
    let told = expected.map_or_else(|number| (number, [0; 2]), |years| (0, years));
    tally.same((number, years), told);
    tally.same(xinghe::read_volume(volume), expected);
}

/// What is written is read back, whole and cut after any block.
#[test]
fn spans_read_back() {
    let mut tally = Tally::new("volumes read");
    for (first, last) in SPANS {
        let volume = volume(first, last);
        assert_eq!(walked(&volume), Ok([first, last]));
        for (last, _) in (first..).zip(volume.chunks(BLOCK)) {
            let cut = &volume[..(last - first + 1) as usize * BLOCK];
            compare_reading(&mut tally, cut, Ok([first, last]));
        }
    }
    tally.end(7_000);
}

#[test]
fn lengths() {
    let mut tally = Tally::new("lengths of volumes");
    let bytes = [vec![SENTINEL], volume(168_599, 168_602)].concat();
    let volume = &bytes[1..];
    for length in 0..=volume.len() {
        let cut = &volume[..length];
        compare_reading(&mut tally, cut, walked(cut));
    }
    tally.end(4_000);
}

/// Years of the first block and runs outside the round, over right checks and
/// wrong ones: a block of zeros has a right one.
#[test]
fn outside_the_round() {
    let mut tally = Tally::new("volumes outside the round");
    for blocks in 1..=3 {
        compare_reading(&mut tally, &vec![0; blocks * BLOCK], Err(12));
        compare_reading(&mut tally, &vec![0xff; blocks * BLOCK], Err(12));
    }
    let mut block = volume(LAST_YEAR, LAST_YEAR);
    compare_reading(&mut tally, &[&block[..], &block].concat(), Err(12));
    for year in [0, LAST_YEAR as u32 + 1, 1 << 31, u32::MAX] {
        block[..4].copy_from_slice(&year.to_le_bytes());
        compare_reading(&mut tally, &block, Err(12));
        make_check_right(&mut block);
        compare_reading(&mut tally, &block, Err(12));
    }
    tally.end(30);
}

fn add(bytes: &mut [u8], at: usize, number: u64) {
    let four = &mut bytes[at..at + 4];
    let sum = u32::from_le_bytes(four.try_into().expect("four bytes")) + number as u32;
    four.copy_from_slice(&sum.to_le_bytes());
}

/// How many of the first year's months, a round later, have their new moon within
/// half a month's way of a node, and how many their full moon; in halves of a part.
fn marks_a_round_later() -> [u64; 2] {
    [0, 1].map(|full| {
        let halves = (LAST_MONTH + 1..=LAST_MONTH + 12).map(|month| (2 * month + full) * P);
        let since_node = halves.map(|halves| halves % (2 * M));
        since_node
            .filter(|since| *since.min(&(2 * M - since)) <= P)
            .count() as u64
    })
}

/// What the same rules would give for the year after the last: days and months go
/// on as from the origin, the nodes do not. Its totals have those of the block
/// before it, where there is one.
fn block_past_the_round(before: &[u8]) -> Vec<u8> {
    let mut block = volume(1, 1);
    add(&mut block, 0, LAST_YEAR);
    for record in (8..200).step_by(16) {
        add(&mut block, record, LAST_MONTH + 1);
        add(&mut block, record + 4, LAST_DAY + 1);
    }
    let [new_moons, full_moons] = marks_a_round_later();
    block[216..228].copy_from_slice(before.get(216..228).unwrap_or(&[0; 12]));
    add(&mut block, 220, new_moons);
    add(&mut block, 224, full_moons);
    make_check_right(&mut block);
    block
}

/// The blocks are right in all but that there is no such year.
#[test]
fn year_after_the_last() {
    let mut tally = Tally::new("year after the last");
    let last = volume(LAST_YEAR, LAST_YEAR);
    let both = [&last[..], &block_past_the_round(&last)].concat();
    compare_reading(&mut tally, &both, walked(&both));
    compare_reading(&mut tally, &both, Err(12));
    compare_reading(&mut tally, &block_past_the_round(&[]), Err(12));
    tally.end(6);
}

/// The request's sum over a block that was altered.
pub fn make_check_right(block: &mut [u8]) {
    let bytes = (1..=510).zip(&*block);
    let sum: u64 = bytes.map(|(weight, &byte)| weight * u64::from(byte)).sum();
    let check = (sum % 65_521) as u16;
    block[510..].copy_from_slice(&check.to_le_bytes());
}
