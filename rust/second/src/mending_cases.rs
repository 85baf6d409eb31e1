//! The mending's part of the cases: blocks of a buffer that holds a volume, altered and
//! mended.

use crate::blocks::BLOCK;
use crate::cases::{joined, numbered_line};
use crate::digest::Digest;
use crate::mending::{self, MOST_BLOCKS};
use crate::volume_cases::{alter, written, BUFFER, WHOLE};

/// Every number of the list before it is lent.
const LENT: u64 = 9;
/// How many numbers of the list are written out, one for each block of the buffer.
const LISTED: usize = BUFFER / BLOCK;

/// First year, last year, the block copied, the one that it is copied to, the byte
/// altered, what it is altered to, the block from which on is mended, bytes of the
/// volume.
type Question = (u64, u64, usize, usize, usize, u8, usize, usize);

/// At both ends of the round, and of one year.
const WHOLES: [Question; 4] = [
    (1, 1, 0, 0, WHOLE, 0, 0, 512),
    (1, 4, 0, 0, WHOLE, 0, 0, 2_048),
    (293_996, 293_998, 0, 0, WHOLE, 0, 0, 1_536),
    (1_011_597, 1_011_600, 0, 0, WHOLE, 0, 0, 2_048),
];

/// Lengths that are none, before what the blocks hold: in the last of them no block is
/// sound.
const LENGTHS: [Question; 4] = [
    (1, 4, 0, 0, WHOLE, 0, 0, 0),
    (1, 4, 0, 0, WHOLE, 0, 0, 511),
    (1, 4, 0, 0, WHOLE, 0, 0, 2_047),
    (0, 0, 0, 0, WHOLE, 0, 0, 513),
];

/// One byte: in a block of the middle, in the first block's year, in the last block's
/// check, beside an era's head, and once to the byte that stood there.
const ALTERED: [Question; 5] = [
    (1, 4, 0, 0, 740, 1, 0, 2_048),
    (1, 4, 0, 0, 0, 9, 0, 2_048),
    (1, 4, 0, 0, 2_047, 255, 0, 2_048),
    (168_600, 168_602, 0, 0, 1_030, 1, 0, 1_536),
    (2, 3, 0, 0, 512, 3, 0, 1_024),
];

/// Blocks of zeros, which have right checks but no year of the round: in place of the
/// first year, of the last, and behind the volume, which goes on through them.
const ZEROS: [Question; 4] = [
    (293_996, 293_998, 3, 0, WHOLE, 0, 0, 1_536),
    (293_996, 293_998, 3, 2, WHOLE, 0, 0, 1_536),
    (293_996, 293_998, 0, 0, WHOLE, 0, 0, 2_048),
    (1, 1, 0, 0, WHOLE, 0, 0, 2_048),
];

/// Zeros alone, a year with a wrong check, and the zeros behind a year.
const NONE_SOUND: [Question; 4] = [
    (0, 0, 0, 0, WHOLE, 0, 0, 512),
    (0, 0, 0, 0, WHOLE, 0, 0, 2_048),
    (1, 1, 0, 0, 0, 9, 0, 512),
    (1, 1, 0, 0, WHOLE, 0, 1, 512),
];

/// A year stands twice, so that the sound blocks imply different first years, however
/// many of them agree; damage in the block that was copied does not settle it.
const TWICE: [Question; 4] = [
    (1, 4, 0, 1, WHOLE, 0, 0, 2_048),
    (1, 4, 3, 0, WHOLE, 0, 0, 2_048),
    (5, 8, 1, 2, WHOLE, 0, 0, 2_048),
    (5, 8, 1, 2, 520, 1, 0, 2_048),
];

/// One sound block behind a damaged one: the first year would be 0, then it is 1. Then
/// the run goes on past the round twice, and the last just stays in it.
const ENDS: [Question; 5] = [
    (1, 1, 0, 1, 0, 9, 0, 1_024),
    (2, 2, 0, 1, 0, 9, 0, 1_024),
    (1_011_600, 1_011_600, 0, 0, WHOLE, 0, 0, 1_024),
    (1_011_598, 1_011_600, 0, 0, WHOLE, 0, 0, 2_048),
    (1_011_600, 1_011_600, 0, 3, 0, 9, 0, 2_048),
];

/// Cut at the front, so that the totals are another volume's.
const CUT: [Question; 3] = [
    (1, 4, 0, 0, WHOLE, 0, 1, 1_536),
    (293_996, 293_998, 0, 0, WHOLE, 0, 1, 1_024),
    (1_011_597, 1_011_600, 0, 0, WHOLE, 0, 3, 512),
];

pub fn lines() -> Vec<String> {
    let questions = [
        &WHOLES[..],
        &LENGTHS,
        &ALTERED,
        &ZEROS,
        &NONE_SOUND,
        &TWICE,
        &ENDS,
        &CUT,
    ];
    questions.concat().into_iter().map(mended).collect()
}

/// How many blocks are written afresh, the list's front, and the digest of the whole
/// buffer afterwards.
fn mended((first, last, from, to, at, byte, start, length): Question) -> String {
    let mut buffer = written(first, last);
    buffer.copy_within(from * BLOCK..(from + 1) * BLOCK, to * BLOCK);
    alter(&mut buffer, at, byte);
    let answer = mending::mend(&mut buffer[start * BLOCK..][..length]);
    let answer = answer.map(|damaged| {
        let mut list = [LENT; MOST_BLOCKS];
        list[..damaged.len()].copy_from_slice(&damaged);
        let mut digest = Digest::default();
        digest.feed_bytes(&buffer);
        let listed = joined(&list[..LISTED]);
        format!("{} {listed} {}", damaged.len(), digest.value())
    });
    let question = format!("mend {first} {last} {from} {to} {at} {byte} {start} {length}");
    numbered_line(question, answer)
}
