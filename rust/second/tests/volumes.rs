//! Volumes: the request's layout byte by byte, its check by multiplication, the
//! totals of the round, and what is refused.

use second::numbers::{M, N, P, ROUND_YEARS};
use second::{ask, volumes, Month, Year};

const BLOCK: usize = 512;

fn volume(first: u64, last: u64) -> Vec<u8> {
    let blocks = volumes::blocks(first, last).unwrap();
    blocks.flatten().collect()
}

fn four(bytes: &[u8], at: usize) -> u64 {
    u64::from(u32::from_le_bytes(bytes[at..at + 4].try_into().unwrap()))
}

/// As the request has it, by multiplication and division.
fn multiplied(block: &[u8]) -> u16 {
    let bytes = (1..=510).zip(block);
    let sum: u64 = bytes.map(|(weight, &byte)| weight * u64::from(byte)).sum();
    (sum % 65_521) as u16
}

fn mend_check(block: &mut [u8]) {
    let check = multiplied(block);
    block[510..].copy_from_slice(&check.to_le_bytes());
}

/// Whether new and full moon stand within half a month's way of a node, by
/// division; in halves of a part.
fn marks(lunation: u64) -> [u64; 2] {
    [2 * lunation * P, (2 * lunation + 1) * P].map(|halves| {
        let since = halves % (2 * M);
        u64::from(since.min(2 * M - since) <= P)
    })
}

fn compare_record(record: &[u8], month: &Month) {
    let row = &month.row;
    let parts = row.lunation * P;
    assert_eq!(four(record, 0), row.lunation);
    assert_eq!(four(record, 4), parts / N);
    assert_eq!(four(record, 8), parts % N);
    let leap = u64::from(row.leap);
    let bytes = [row.length, row.number, leap, 0].map(|number| number as u8);
    assert_eq!(record[12..], bytes);
}

fn compare_block(block: &[u8], year: &Year, totals: [u64; 3]) {
    assert_eq!(four(block, 0), year.number);
    let count = year.months.len();
    assert_eq!(block[4..8], [count as u8, year.leap_place as u8, 0, 0]);
    let (records, unused) = block[8..216].split_at(16 * count);
    for (record, month) in records.chunks(16).zip(&year.months) {
        compare_record(record, month);
    }
    assert!(unused.iter().all(|&byte| byte == 0));
    assert_eq!([216, 220, 224].map(|at| four(block, at)), totals);
    assert!(block[228..510].iter().all(|&byte| byte == 0));
    assert_eq!(block[510..], multiplied(block).to_le_bytes());
}

/// About both ends of the round and an era's head, and more than a chapter.
#[test]
fn blocks_as_requested() {
    for (first, last) in [(1, 600), (168_590, 168_610), (1_011_500, ROUND_YEARS)] {
        let mut totals = [0; 3];
        let volume = volume(first, last);
        for (number, block) in (first..).zip(volume.chunks(BLOCK)) {
            let year = ask::year(number).unwrap();
            totals[0] += u64::from(year.leap_place > 0);
            for lunation in year.months.iter().map(|month| month.row.lunation) {
                let [new_moon, full_moon] = marks(lunation);
                totals[1] += new_moon;
                totals[2] += full_moon;
            }
            compare_block(block, &year, totals);
        }
        assert_eq!(volume.len() as u64, (last - first + 1) * BLOCK as u64);
        assert_eq!(volumes::read(&volume), Ok((first, last)));
    }
}

/// 207 leap months in each of the round's 1,800 chapters; the marked moons are as
/// many as the nodes from the origin to the round's end, one of each at a node.
#[test]
fn totals_of_the_round() {
    let blocks = volumes::blocks(1, ROUND_YEARS).unwrap();
    let last = blocks.last().unwrap();
    let nodes = second::numbers::ROUND_MONTHS * P / M + 1;
    let totals = [216, 220, 224].map(|at| four(&last, at));
    assert_eq!(totals, [207 * 1_800, nodes, nodes]);
}

#[test]
fn buffers() {
    let written = volume(2, 3);
    for room in 0..=1_600 {
        let mut buffer = vec![7; room];
        let answer = volumes::write(2, 3, &mut buffer);
        if room < 1_024 {
            assert_eq!(answer, Err(6));
            assert!(buffer.iter().all(|&byte| byte == 7));
        } else {
            assert_eq!(answer, Ok(1_024));
            assert_eq!(buffer[..1_024], written);
            assert!(buffer[1_024..].iter().all(|&byte| byte == 7));
        }
    }
}

/// The year before the order, and the order before the room.
#[test]
fn refused_spans() {
    for outside in [0, ROUND_YEARS + 1, 1 << 32 | 1, u64::MAX] {
        for other in [0, 1, ROUND_YEARS, u64::MAX] {
            assert_eq!(volumes::write(outside, other, &mut []), Err(1));
            assert_eq!(volumes::write(other, outside, &mut []), Err(1));
        }
    }
    assert_eq!(volumes::write(2, 1, &mut []), Err(2));
    assert_eq!(volumes::write(ROUND_YEARS, 1, &mut [0; BLOCK]), Err(2));
    assert_eq!(volumes::write(1, 1, &mut []), Err(6));
}

#[test]
fn lengths() {
    let volume = volume(1, 3);
    for length in 0..=volume.len() {
        let expected = match length {
            512 | 1_024 | 1_536 => Ok((1, length as u64 / 512)),
            _ => Err(11),
        };
        assert_eq!(volumes::read(&volume[..length]), expected);
    }
}

/// Every byte to every other value. Year 3 has thirteen months and stands second in
/// one volume, first in the other.
#[test]
fn one_altered_byte() {
    for first in [2, 3] {
        let mut volume = volume(first, first + 1);
        for at in 0..volume.len() {
            let genuine = volume[at];
            for change in 1..=255 {
                volume[at] = genuine ^ change;
                assert_eq!(volumes::read(&volume), Err(12));
            }
            volume[at] = genuine;
        }
        assert_eq!(volumes::read(&volume), Ok((first, first + 1)));
    }
}

/// With the check made right again the fields alone tell; a block of zeros has a
/// right check, and so has one that stands elsewhere.
#[test]
fn right_checks_over_wrong_blocks() {
    let genuine = volume(293_997, 293_998);
    for at in (0..510).chain(512..1_022) {
        let mut altered = genuine.clone();
        altered[at] ^= 1;
        altered.chunks_mut(BLOCK).for_each(mend_check);
        assert_eq!(volumes::read(&altered), Err(12));
    }
    assert_eq!(volumes::read(&[0; BLOCK]), Err(12));
    assert_eq!(volumes::read(&[0; 2 * BLOCK]), Err(12));
    let exchanged = [&genuine[BLOCK..], &genuine[..BLOCK]].concat();
    assert_eq!(volumes::read(&exchanged), Err(12));
    // The totals are those of a volume that begins a year before.
    assert_eq!(volumes::read(&genuine[BLOCK..]), Err(12));
}

/// The check is compared as a number: with the prime more it is not the same.
#[test]
fn check_past_the_prime() {
    let small = (1..=ROUND_YEARS).step_by(7).find_map(|year| {
        let block = volume(year, year);
        (multiplied(&block) < 15).then_some(block)
    });
    let mut block = small.expect("a year with a small check");
    let more = multiplied(&block) + 65_521;
    block[510..].copy_from_slice(&more.to_le_bytes());
    assert_eq!(volumes::read(&block), Err(12));
}

/// Years that no volume begins with, and runs that leave the round.
#[test]
fn runs_outside_the_round() {
    let mut block = volume(ROUND_YEARS, ROUND_YEARS);
    let twice = [&block[..], &block].concat();
    assert_eq!(volumes::read(&twice), Err(12));
    for year in [0, ROUND_YEARS as u32 + 1, 1 << 31, u32::MAX] {
        block[..4].copy_from_slice(&year.to_le_bytes());
        mend_check(&mut block);
        assert_eq!(volumes::read(&block), Err(12));
    }
}
