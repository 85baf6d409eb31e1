//! The volume reader: volumes whole, cut and altered, at once and piece by piece.

use std::io::{self, Write};
use std::process::ChildStdin;
use std::thread;
use std::time::Duration;

use second::blocks::BLOCK;
use second::numbers::ROUND_YEARS;
use second::volume_programs::years_line;
use second::volumes;

use crate::random::Random;
use crate::run::{self, READER};

pub fn volume(first: u64, last: u64) -> Vec<u8> {
    let blocks = volumes::blocks(first, last).expect("years of the round");
    blocks.flatten().collect()
}

fn text(printed: Vec<u8>) -> String {
    String::from_utf8(printed).expect("plain text")
}

#[track_caller]
fn compare(input: &[u8]) {
    let printed = text(run::printed(READER, input));
    assert_eq!(printed, years_line(input), "{} bytes", input.len());
}

#[test]
fn whole_volumes() {
    let spans = [
        (1, 1),
        (3, 3),
        (1, 20),
        (168_595, 168_605),
        (1, 562),
        (1, 1_024),
        (ROUND_YEARS, ROUND_YEARS),
        (ROUND_YEARS - 1_023, ROUND_YEARS),
    ];
    for (first, last) in spans {
        let volume = volume(first, last);
        assert_eq!(years_line(&volume), format!("{first} {last}\n"));
        compare(&volume);
    }
}

/// Lengths about whole blocks, the empty input among them.
#[test]
fn cut_volumes() {
    let volume = volume(168_599, 168_603);
    for whole in (0..=volume.len()).step_by(BLOCK) {
        for length in [whole.saturating_sub(1), whole, whole + 1, whole + 255] {
            compare(&volume[..length.min(volume.len())]);
        }
    }
}

/// The length comes before the blocks, and is known only where the input ends.
#[test]
fn altered_and_cut() {
    let mut volume = volume(1, 4);
    volume[0] = 9;
    assert_eq!(text(run::printed(READER, &volume)), "refused 12\n");
    let cut = &volume[..2_047];
    assert_eq!(text(run::printed(READER, cut)), "refused 11\n");
    volume.push(0);
    assert_eq!(text(run::printed(READER, &volume)), "refused 11\n");
}

#[test]
fn one_altered_byte() {
    let mut random = Random::new(21);
    let mut altered = volume(293_996, 293_997);
    for at in (0..altered.len())
        .step_by(7)
        .chain([509, 510, 511, 1_022, 1_023])
    {
        let change = 1 + random.below(255) as u8;
        altered[at] ^= change;
        assert_eq!(text(run::printed(READER, &altered)), "refused 12\n");
        altered[at] ^= change;
    }
    compare(&altered);
}

#[test]
fn what_is_no_volume() {
    compare(&[0; BLOCK]);
    compare(&[0xff; 3 * BLOCK]);
    let last = volume(ROUND_YEARS, ROUND_YEARS);
    compare(&[&last[..], &last].concat());
    let two = volume(5, 6);
    compare(&two[BLOCK..]);
    compare(&[&two[BLOCK..], &two[..BLOCK]].concat());
    compare(&[&two[..], b"\n"].concat());
    compare(b"1 1\n");
}

/// Pieces of odd lengths, each sent off by itself.
pub fn feed_pieces(stdin: &mut ChildStdin, bytes: &[u8]) -> io::Result<()> {
    let mut rest = bytes;
    for length in [1, 3, 508, 511, 1, 513, 700, 1_025, 7].into_iter().cycle() {
        let (piece, behind) = rest.split_at(length.min(rest.len()));
        stdin.write_all(piece)?;
        if behind.is_empty() {
            break;
        }
        thread::sleep(Duration::from_millis(5));
        rest = behind;
    }
    Ok(())
}

#[test]
fn slow_pipes() {
    let genuine = volume(168_580, 168_620);
    for (length, line) in [
        (41 * BLOCK, "168580 168620\n"),
        (40 * BLOCK, "168580 168619\n"),
        (41 * BLOCK - 1, "refused 11\n"),
    ] {
        let bytes = genuine[..length].to_vec();
        let printed = run::fed(READER, move |stdin| feed_pieces(stdin, &bytes));
        assert_eq!(text(printed), line);
    }
}

/// The round's volume, made as it is fed; `added` is added to its last byte.
fn feed_round(stdin: &mut ChildStdin, added: u8) -> io::Result<()> {
    let mut blocks = volumes::blocks(1, ROUND_YEARS).expect("the whole round");
    let last_year = (ROUND_YEARS as u32).to_le_bytes();
    let mut pipe = io::BufWriter::with_capacity(1 << 16, stdin);
    blocks.try_for_each(|mut block| {
        if block[..4] == last_year {
            block[BLOCK - 1] = block[BLOCK - 1].wrapping_add(added);
        }
        pipe.write_all(&block)
    })?;
    pipe.flush()
}

#[test]
fn whole_round() {
    let printed = run::fed(READER, |stdin| feed_round(stdin, 0));
    assert_eq!(text(printed), "1 1011600\n");
    let printed = run::fed(READER, |stdin| feed_round(stdin, 1));
    assert_eq!(text(printed), "refused 12\n");
}
