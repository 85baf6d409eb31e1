//! The volumes' part of the cases: what is written to a lent buffer, then what is
//! read from one.

use crate::cases::numbered_line;
use crate::digest::Digest;
use crate::volumes;

/// The bytes of the buffer, room for four years.
pub const BUFFER: usize = 2_048;
/// Every byte of the buffer before it is lent to the writer.
const LENT: u8 = 165;
/// A place at which no byte is altered.
pub const WHOLE: usize = BUFFER;

/// First year, last year, bytes lent.
type Writing = (u64, u64, usize);

/// First year, last year, the byte altered, what it is altered to, bytes read.
type Reading = (u64, u64, usize, u8, usize);

/// Both ends of the round, an era's head, years of twelve and thirteen months, as
/// many as there is room for; too little room; then what is refused for its years,
/// of which the lowest number counts.
const WRITINGS: [Writing; 24] = [
    (1, 1, 512),
    (1, 1, 2_048),
    (3, 3, 513),
    (1, 4, 2_048),
    (2, 3, 1_535),
    (293_996, 293_998, 1_536),
    (168_600, 168_600, 512),
    (168_600, 168_602, 2_048),
    (1_011_600, 1_011_600, 512),
    (1_011_597, 1_011_600, 2_048),
    (1, 1, 0),
    (1, 1, 511),
    (1, 4, 2_047),
    (1, 5, 2_048),
    (1, 1_011_600, 2_048),
    (2, 1, 2_048),
    (1_011_600, 1, 0),
    (0, 0, 2_048),
    (0, 1, 0),
    (1, 0, 2_048),
    (1_011_600, 1_011_601, 2_048),
    (1_011_601, 1_011_600, 0),
    (1, u64::MAX, 2_048),
    (u64::MAX, 1, 0),
];

/// Whole volumes, a cut between blocks, lengths that are none, blocks that are
/// missing or past the round; then one altered byte: of the year, the count, the
/// leap place, the zeros, the records, the totals and the check. The last volumes
/// are altered in their second block: three times it is refused, then it is
/// not read, and then the byte is what it was.
const READINGS: [Reading; 36] = [
    (1, 1, WHOLE, 0, 512),
    (1, 4, WHOLE, 0, 2_048),
    (1, 4, WHOLE, 0, 1_536),
    (293_996, 293_998, WHOLE, 0, 1_536),
    (168_600, 168_602, WHOLE, 0, 1_536),
    (1_011_600, 1_011_600, WHOLE, 0, 512),
    (1_011_597, 1_011_600, WHOLE, 0, 2_048),
    (1, 1, WHOLE, 0, 0),
    (1, 1, WHOLE, 0, 511),
    (1, 1, WHOLE, 0, 513),
    (1, 4, 0, 9, 2_047),
    (1, 1, WHOLE, 0, 1_024),
    (1_011_600, 1_011_600, WHOLE, 0, 1_024),
    (1, 1, 0, 0, 512),
    (1, 1, 0, 2, 512),
    (1_011_600, 1_011_600, 0, 145, 512),
    (1, 1, 3, 1, 512),
    (3, 3, 4, 12, 512),
    (3, 3, 5, 8, 512),
    (1, 1, 6, 1, 512),
    (1, 1, 8, 1, 512),
    (3, 3, 20, 31, 512),
    (3, 3, 22, 1, 512),
    (3, 3, 23, 1, 512),
    (3, 3, 216, 0, 512),
    (3, 3, 220, 0, 512),
    (3, 3, 224, 0, 512),
    (3, 3, 228, 1, 512),
    (3, 3, 509, 1, 512),
    (3, 3, 510, 0, 512),
    (3, 3, 511, 0, 512),
    (2, 3, 512, 4, 1_024),
    (2, 3, 728, 0, 1_024),
    (2, 3, 1_023, 255, 1_024),
    (2, 3, 1_023, 255, 512),
    (2, 3, 512, 3, 1_024),
];

pub fn lines() -> Vec<String> {
    let written = WRITINGS.into_iter().map(write);
    written.chain(READINGS.into_iter().map(read)).collect()
}

/// How many bytes are written, and the digest of the whole buffer afterwards.
fn write((first, last, room): Writing) -> String {
    let mut buffer = [LENT; BUFFER];
    let answer = volumes::write(first, last, &mut buffer[..room]);
    let answer = answer.map(|written| {
        let mut digest = Digest::default();
        digest.feed_bytes(&buffer);
        format!("{written} {}", digest.value())
    });
    numbered_line(format!("write {first} {last} {room}"), answer)
}

/// A buffer of zeros, and the volume at its front, where the writer gives one.
pub fn written(first: u64, last: u64) -> [u8; BUFFER] {
    let mut buffer = [0; BUFFER];
    // Refused, the buffer stays as it was.
    let _ = volumes::write(first, last, &mut buffer);
    buffer
}

/// Alters one byte, if there is one at that place.
pub fn alter(buffer: &mut [u8; BUFFER], at: usize, byte: u8) {
    if let Some(altered) = buffer.get_mut(at) {
        *altered = byte;
    }
}

/// The volume in its buffer, with one byte altered.
pub fn altered(first: u64, last: u64, at: usize, byte: u8) -> [u8; BUFFER] {
    let mut buffer = written(first, last);
    alter(&mut buffer, at, byte);
    buffer
}

/// The years of the first so many bytes, after one byte was altered.
fn read((first, last, at, byte, length): Reading) -> String {
    let buffer = altered(first, last, at, byte);
    let answer = volumes::read(&buffer[..length]);
    let answer = answer.map(|(first, last)| format!("{first} {last}"));
    let question = format!("read {first} {last} {at} {byte} {length}");
    numbered_line(question, answer)
}
