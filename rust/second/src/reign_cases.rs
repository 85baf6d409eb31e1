//! The reigns' part of the cases: the marked moons of a span, told from a buffer that
//! holds a volume.

use crate::cases::numbered_line;
use crate::reigns;
use crate::volume_cases::{altered, WHOLE};

/// First year, last year, the byte altered, what it is altered to, bytes of the
/// volume, the span's first year, its last.
type Question = (u64, u64, usize, u8, usize, u64, u64);

/// Spans that start the volume and spans that do not, of one year and of more; about
/// an era's head and both ends of the round, and in a volume that is cut after a block.
const WHOLES: [Question; 11] = [
    (1, 1, WHOLE, 0, 512, 1, 1),
    (1, 4, WHOLE, 0, 2_048, 1, 4),
    (1, 4, WHOLE, 0, 2_048, 1, 2),
    (1, 4, WHOLE, 0, 2_048, 2, 4),
    (1, 4, WHOLE, 0, 2_048, 4, 4),
    (1, 4, WHOLE, 0, 1_536, 2, 3),
    (293_996, 293_998, WHOLE, 0, 1_536, 293_996, 293_998),
    (293_996, 293_998, WHOLE, 0, 1_536, 293_997, 293_997),
    (168_600, 168_602, WHOLE, 0, 1_536, 168_601, 168_602),
    (1_011_600, 1_011_600, WHOLE, 0, 512, 1_011_600, 1_011_600),
    (1_011_597, 1_011_600, WHOLE, 0, 2_048, 1_011_598, 1_011_600),
];

/// Lengths that are none, before years that are not in the volume; then such years,
/// below it, above it, or in it but in the wrong order, before altered blocks. Of some
/// only the lower 32 bits are a year of the volume.
const REFUSED: [Question; 16] = [
    (1, 1, WHOLE, 0, 0, 1, 1),
    (1, 1, WHOLE, 0, 511, 1, 1),
    (1, 4, WHOLE, 0, 513, 1, 1),
    (1, 4, WHOLE, 0, 2_047, 4, 1),
    (1, 4, 0, 9, 1_000, u64::MAX, 0),
    (1, 4, WHOLE, 0, 2_048, 3, 2),
    (1, 4, WHOLE, 0, 2_048, 0, 4),
    (2, 3, WHOLE, 0, 1_024, 1, 3),
    (1, 4, WHOLE, 0, 2_048, 2, 5),
    (1, 4, WHOLE, 0, 1_536, 4, 4),
    (1, 4, WHOLE, 0, 2_048, 5, 5),
    (1, 4, WHOLE, 0, 2_048, 1, u64::MAX),
    (1, 4, WHOLE, 0, 2_048, u64::MAX, u64::MAX),
    (1, 4, WHOLE, 0, 2_048, 4_294_967_298, 4_294_967_299),
    (1, 4, 1_030, 1, 2_048, 4, 3),
    (1, 4, 1_030, 1, 2_048, 3, 5),
];

/// Altered in the second of four blocks: asked for as the one before the span and as
/// its last, then not at all; in the totals, the check and the year of a last block, and
/// once to the byte that stood there. Then in the first four bytes, so that the years
/// are others: the first block is asked for, then not.
const ALTERED: [Question; 14] = [
    (1, 4, 740, 1, 2_048, 3, 4),
    (1, 4, 740, 1, 2_048, 1, 2),
    (1, 4, 740, 1, 2_048, 4, 4),
    (1, 4, 740, 1, 2_048, 1, 3),
    (2, 3, 732, 99, 1_024, 2, 3),
    (2, 3, 1_023, 255, 1_024, 3, 3),
    (2, 3, 512, 4, 1_024, 2, 3),
    (2, 3, 512, 3, 1_024, 2, 3),
    (1, 4, 0, 9, 2_048, 2, 3),
    (1, 4, 0, 9, 2_048, 9, 9),
    (1, 4, 0, 9, 2_048, 10, 11),
    (1, 4, 0, 9, 2_048, 11, 12),
    (1, 4, 0, 9, 2_048, 9, 11),
    (1, 4, 3, 255, 2_048, 4_278_190_083, 4_278_190_084),
];

/// Blocks of zeros have right checks: alone, where the first year is 0; then behind a
/// year, below whose totals theirs are.
const ZEROS: [Question; 8] = [
    (0, 0, WHOLE, 0, 512, 0, 0),
    (0, 0, WHOLE, 0, 1_024, 1, 1),
    (0, 0, WHOLE, 0, 512, 0, 1),
    (0, 0, 510, 1, 512, 0, 0),
    (1, 1, WHOLE, 0, 1_024, 2, 2),
    (3, 3, WHOLE, 0, 1_024, 4, 4),
    (3, 3, WHOLE, 0, 1_024, 3, 4),
    (3, 3, WHOLE, 0, 1_536, 5, 5),
];

pub fn lines() -> Vec<String> {
    let questions = [&WHOLES[..], &REFUSED, &ALTERED, &ZEROS].concat();
    questions.into_iter().map(marked).collect()
}

/// Of the first so many bytes, after one byte was altered.
fn marked((first, last, at, byte, length, from, to): Question) -> String {
    let buffer = altered(first, last, at, byte);
    let answer = reigns::marked(&buffer[..length], from, to);
    let answer = answer.map(|(new_moons, full_moons)| format!("{new_moons} {full_moons}"));
    let question = format!("marked {first} {last} {at} {byte} {length} {from} {to}");
    numbered_line(question, answer)
}
