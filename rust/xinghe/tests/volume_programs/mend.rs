//! The mending program: volumes whole, scratched and none at all, as many bytes as it
//! takes and more, and inputs and outputs that fail.

use std::fs::File;
use std::io::{self, ErrorKind, Write};
use std::os::fd::OwnedFd;
use std::os::unix::net::UnixStream;
use std::os::unix::process::ExitStatusExt;
use std::process::{ChildStdin, Stdio};
use std::sync::mpsc;
use std::thread;
use std::time::Duration;

use second::blocks::BLOCK;
use second::mending::{self, MOST_BLOCKS};
use second::numbers::ROUND_YEARS;
use second::scratched;

use crate::random::Random;
use crate::reader::{feed_pieces, volume};
use crate::run::{self, MENDER};

const MOST: usize = MOST_BLOCKS * BLOCK;
const REFUSED: &[u8] = b"refused 11\n";

#[track_caller]
fn compare(input: &[u8]) {
    let printed = run::printed(MENDER, input);
    assert!(printed == mending::printed(input), "{} bytes", input.len());
}

#[track_caller]
fn refused(input: &[u8], line: &[u8]) {
    assert_eq!(mending::printed(input), line);
    compare(input);
}

#[test]
fn stored_run() {
    compare(&scratched::volume());
}

#[test]
fn whole_volumes() {
    for (first, last) in [
        (1, 1),
        (1, 20),
        (168_595, 168_605),
        (1, 1_023),
        (ROUND_YEARS, ROUND_YEARS),
        (ROUND_YEARS - 19, ROUND_YEARS),
    ] {
        let volume = volume(first, last);
        assert_eq!(mending::printed(&volume), [b"0\n", &volume[..]].concat());
        compare(&volume);
    }
}

/// Lengths about whole blocks, the empty input among them.
#[test]
fn cut_volumes() {
    let volume = volume(168_599, 168_603);
    for whole in (0..=volume.len()).step_by(BLOCK) {
        for length in [whole.saturating_sub(1), whole, whole + 1, whole + 255] {
            compare(&volume[..length.min(volume.len())]);
        }
        compare(&volume[whole..]);
    }
}

/// Blocks filled and bytes altered at random, in volumes of up to 120 years, so that
/// there are indices of one, two and three digits.
#[test]
fn scratched_volumes() {
    let mut random = Random::new(27);
    for _ in 0..200 {
        let years = 1 + random.below(120);
        let first = 1 + random.below(ROUND_YEARS - years + 1);
        let mut bytes = volume(first, first + years - 1);
        let one_in = random.pick(&[1, 2, 10, 100]);
        for block in bytes.chunks_mut(BLOCK) {
            match random.below(2 * one_in) {
                0 => block.fill_with(|| random.number() as u8),
                1 => block[random.below(512) as usize] ^= 1 + random.below(255) as u8,
                _ => {}
            }
        }
        compare(&bytes);
    }
}

#[test]
fn refused_volumes() {
    refused(&[0; BLOCK], b"refused 13\n");
    refused(&[255; 3 * BLOCK], b"refused 13\n");
    let last = volume(ROUND_YEARS, ROUND_YEARS);
    refused(&[&last[..], &[0; BLOCK]].concat(), b"refused 13\n");
    refused(&[&last[..], &last].concat(), b"refused 13\n");
    let first = volume(1, 1);
    refused(&[&[0; BLOCK], &first[..]].concat(), b"refused 13\n");
    refused(b"", REFUSED);
    refused(b"1 1\n", REFUSED);
    refused(&[&first[..], b"\n"].concat(), REFUSED);
}

/// 524,288 bytes, whole, scratched everywhere but in one block, and none of a volume.
#[test]
fn most_bytes() {
    let whole = volume(168_000, 169_023);
    assert_eq!(whole.len(), MOST);
    compare(&whole);
    let mut scratched = vec![7; MOST];
    scratched[MOST - BLOCK..].copy_from_slice(&whole[MOST - BLOCK..]);
    assert!(mending::printed(&scratched).ends_with(&whole));
    compare(&scratched);
    refused(&[0; MOST], b"refused 13\n");
    refused(&whole[..MOST - 1], REFUSED);
}

#[test]
fn more_bytes() {
    let longer = volume(168_000, 169_100);
    for length in [MOST + 1, MOST + 2, MOST + BLOCK - 1, MOST + BLOCK] {
        refused(&longer[..length], REFUSED);
    }
    refused(&longer, REFUSED);
    refused(&[0; 5 * MOST], REFUSED);
}

/// The byte after the last that may be there settles it: the input stays open until
/// the answer is there.
#[test]
fn reading_stops() {
    let (answered, waiting) = mpsc::channel();
    let printed = run::taken(
        MENDER,
        move |stdin| {
            stdin.write_all(&volume(168_000, 169_023))?;
            stdin.write_all(&[0])?;
            let patience = Duration::from_secs(60);
            let answer = waiting.recv_timeout(patience);
            answer.map_err(|_| io::Error::from(ErrorKind::TimedOut))
        },
        move |stdout| {
            let bytes = run::all(stdout);
            // The feeder may have lost its patience.
            let _ = answered.send(());
            bytes
        },
    );
    assert_eq!(printed, REFUSED);
}

/// Bytes come until nobody reads any more.
#[test]
fn endless_input() {
    let printed = run::fed(MENDER, |stdin| {
        let volume = volume(1, 128);
        loop {
            stdin.write_all(&volume)?;
        }
    });
    assert_eq!(printed, REFUSED);
}

#[test]
fn input_that_cannot_be_read() {
    let folder = File::open("/").expect("a folder");
    assert_eq!(run::printed_from(MENDER, folder), REFUSED);
    assert_eq!(run::printed_from(MENDER, Stdio::null()), REFUSED);
    let mut closed = run::shell("exec \"$0\" <&-", MENDER);
    assert_eq!(run::printed_by(&mut closed), REFUSED);
}

/// Reading fails as long as nothing is there: the volume's end is not known, also
/// where whole blocks came before.
#[test]
fn failure_behind_a_volume() {
    for bytes in [&volume(5, 7)[..], &volume(5, 7)[..700], b""] {
        let (mut ours, theirs) = UnixStream::pair().expect("two ends");
        // This is a mark of the open end itself, so that the child has it too.
        theirs.set_nonblocking(true).expect("an end to mark");
        ours.write_all(bytes).expect("an end to write to");
        let printed = run::printed_from(MENDER, OwnedFd::from(theirs));
        assert_eq!(printed, REFUSED);
    }
}

#[test]
fn slow_pipes() {
    let mut bytes = volume(168_580, 168_620);
    bytes[..BLOCK].fill(0);
    bytes[30 * BLOCK + 8] ^= 1;
    for length in [bytes.len(), bytes.len() - BLOCK, bytes.len() - 1] {
        let input = bytes[..length].to_vec();
        let expected = mending::printed(&input);
        let printed = run::fed(MENDER, move |stdin| feed_pieces(stdin, &input));
        assert!(printed == expected);
    }
}

/// More than a pipe holds, which nobody takes. The signal of that may end the program;
/// where it is ignored, the program ends by itself.
#[test]
fn output_that_nobody_takes() {
    const BROKEN_PIPE: i32 = 13;
    let (itself, by_signal) = (None, Some(BROKEN_PIPE));
    for (line, endings) in [
        ("exec \"$0\"", &[itself, by_signal][..]),
        ("trap '' PIPE; exec \"$0\"", &[itself]),
    ] {
        let ((), status) = run::ended(
            &mut run::shell(line, MENDER),
            |stdin| {
                // By then the output is closed.
                thread::sleep(Duration::from_millis(300));
                stdin.write_all(&volume(1, 1_024))
            },
            |_| (),
        );
        assert!(endings.contains(&status.signal()), "{status}");
    }
}

/// To a device that is full.
#[test]
fn output_that_fails() {
    let mut full = run::shell("\"$0\" >/dev/full; echo $?", MENDER);
    let feed = |stdin: &mut ChildStdin| stdin.write_all(&volume(1, 1_024));
    let (code, _) = run::ended(&mut full, feed, run::all);
    let code = String::from_utf8(code).expect("plain text");
    // Past 128 it is a signal's.
    assert!(code.trim().parse::<u8>().expect("a code") < 128);
}
