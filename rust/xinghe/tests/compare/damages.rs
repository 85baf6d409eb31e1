//! Volumes that were altered: one byte in every way, and several at random.

use xinghe::{Answer, BLOCK};

use crate::expected::LAST_YEAR;
use crate::random::Random;
use crate::tally::Tally;
use crate::volumes::{make_check_right, volume, walked};

/// Every byte to every other value: of a block alone, and of one that stands
/// second; year 3 has thirteen months, year 4 twelve.
#[test]
fn every_byte_to_every_value() {
    let mut tally = Tally::new("one altered byte");
    for (first, last) in [(3, 3), (4, 4), (2, 3), (3, 4), (LAST_YEAR - 1, LAST_YEAR)] {
        let mut altered = volume(first, last);
        for at in altered.len() - BLOCK..altered.len() {
            let genuine = altered[at];
            for change in 1..=u8::MAX {
                altered[at] = genuine ^ change;
                tally.same(xinghe::read_volume(&altered), Err(12));
            }
            altered[at] = genuine;
        }
        tally.same(xinghe::read_volume(&altered), Ok([first, last]));
    }
    tally.end(5 * 512 * 255);
}

/// A volume as it was written, and its years.
struct Genuine {
    years: [u64; 2],
    bytes: Vec<u8>,
}

impl Genuine {
    fn new(first: u64, last: u64) -> Self {
        Self {
            years: [first, last],
            bytes: volume(first, last),
        }
    }

    /// No other volume begins with the same year and is as long. Any other run of
    /// bytes is read by the second program.
    fn expected(&self, altered: &[u8]) -> Answer<[u64; 2]> {
        if altered == self.bytes {
            Ok(self.years)
        } else if altered.len() == self.bytes.len() && altered[..4] == self.bytes[..4] {
            Err(12)
        } else {
            walked(altered)
        }
    }
}

fn some_volumes(random: &mut Random) -> Vec<Genuine> {
    let mut volumes = vec![
        Genuine::new(1, 1),
        Genuine::new(1, 12),
        Genuine::new(168_597, 168_604),
        Genuine::new(LAST_YEAR, LAST_YEAR),
        Genuine::new(LAST_YEAR - 8, LAST_YEAR),
    ];
    for _ in 0..60 {
        let first = 1 + random.below(LAST_YEAR - 12);
        volumes.push(Genuine::new(first, first + random.below(12)));
    }
    volumes
}

/// Bytes at random, often in the fields, the totals or the check.
pub fn alter_bytes(random: &mut Random, bytes: &mut [u8], count: u64) {
    for _ in 0..count {
        let block = random.below((bytes.len() / BLOCK) as u64) as usize;
        let within = match random.below(4) {
            0 => random.below(8),
            1 => 216 + random.below(12),
            2 => 510 + random.below(2),
            _ => random.below(BLOCK as u64),
        };
        bytes[block * BLOCK + within as usize] = random.number() as u8;
    }
}

pub fn exchange_blocks(random: &mut Random, bytes: &mut [u8]) {
    let count = (bytes.len() / BLOCK) as u64;
    let mut place = || random.below(count) as usize * BLOCK;
    let (one, other) = (place(), place());
    for at in 0..BLOCK {
        bytes.swap(one + at, other + at);
    }
}

/// Between blocks one time in eight, where what is left may be a volume; at the
/// front one time in fifty, as then the second program has to walk.
fn cut(random: &mut Random, bytes: &mut Vec<u8>) {
    let length = random.below(bytes.len() as u64 + 1) as usize;
    match random.below(50) {
        0 => drop(bytes.drain(..length / BLOCK * BLOCK)),
        1..=6 => bytes.truncate(length / BLOCK * BLOCK),
        _ => bytes.truncate(length),
    }
}

fn damage(random: &mut Random, bytes: &mut Vec<u8>) {
    match random.below(8) {
        0..=2 => alter_bytes(random, bytes, 1),
        3 | 4 => {
            let count = 2 + random.below(6);
            alter_bytes(random, bytes, count);
        }
        // With right checks only the fields can tell.
        5 => {
            alter_bytes(random, bytes, 2);
            bytes.chunks_mut(BLOCK).for_each(make_check_right);
        }
        6 => exchange_blocks(random, bytes),
        _ => cut(random, bytes),
    }
}

#[test]
fn million_damages() {
    let mut random = Random::new(19);
    let mut tally = Tally::new("damaged volumes");
    let volumes = some_volumes(&mut random);
    let mut numbers = [0_u64; 13];
    for genuine in volumes.iter().cycle().take(1_000_000) {
        let mut altered = genuine.bytes.clone();
        damage(&mut random, &mut altered);
        let expected = genuine.expected(&altered);
        numbers[expected.err().unwrap_or(0) as usize] += 1;
        tally.same(xinghe::read_volume(&altered), expected);
    }
    println!(
        "answered, 11, 12: {} {} {}",
        numbers[0], numbers[11], numbers[12]
    );
    assert!([0, 11, 12].iter().all(|&number| numbers[number] > 10_000));
    tally.end(1_000_000);
}

/// Byte 2i + 1 counts twice as often as byte i: one more there and two less here
/// leave the check right, and the fields alone tell.
#[test]
fn two_bytes_that_cancel() {
    let mut tally = Tally::new("bytes that cancel");
    let genuine = volume(293_997, 293_997);
    for at in 0..255 {
        let (less, more) = (
            genuine[at].checked_sub(2),
            genuine[2 * at + 1].checked_add(1),
        );
        if let (Some(less), Some(more)) = (less, more) {
            let mut altered = genuine.clone();
            (altered[at], altered[2 * at + 1]) = (less, more);
            let as_it_is = altered.clone();
            make_check_right(&mut altered);
            assert_eq!(altered, as_it_is);
            tally.same(xinghe::read_volume(&altered), Err(12));
        }
    }
    tally.end(100);
}
