//! The volume writer: lines that ask for volumes, and lines that do not.

use std::io::{Read, Write};
use std::process::ChildStdout;
use std::thread;
use std::time::Duration;

use second::blocks::BLOCK;
use second::numbers::ROUND_YEARS;
use second::volume_programs;

use crate::random::Random;
use crate::run::{self, WRITER};

fn expected(input: &[u8]) -> Vec<u8> {
    let mut bytes = Vec::new();
    volume_programs::write(&mut bytes, volume_programs::asked(input)).expect("room in memory");
    bytes
}

#[track_caller]
fn compare(input: &[u8]) {
    let printed = run::printed(WRITER, input);
    let shown = input.escape_ascii();
    assert!(printed == expected(input), "input '{shown}'");
}

#[test]
fn spans() {
    let inputs: [&[u8]; 11] = [
        b"1 1\n",
        b"3 3\n",
        b"1 20\n",
        b"293996 293998\n",
        b"168595 168605\n",
        b"337200 337201\n",
        b"1 562\n",
        b"1 1024\n",
        b"1011600 1011600\n",
        b"1011581 1011600\n",
        b"1010577 1011600\n",
    ];
    for input in inputs {
        assert!(expected(input).len().is_multiple_of(BLOCK));
        compare(input);
    }
}

/// By one year or another, then in the wrong order.
#[test]
fn refused_spans() {
    let lines: [(&[u8], &[u8]); 12] = [
        (b"0 0\n", b"refused 1\n"),
        (b"0 5\n", b"refused 1\n"),
        (b"5 0\n", b"refused 1\n"),
        (b"1 1011601\n", b"refused 1\n"),
        (b"1011601 1\n", b"refused 1\n"),
        (b"1011601 1011601\n", b"refused 1\n"),
        (b"4294967297 4294967298\n", b"refused 1\n"),
        // 2^64 less 1, and with a year more
        (b"1 18446744073709551615\n", b"refused 1\n"),
        (
            b"18446744073709551617 18446744073709551618\n",
            b"refused 1\n",
        ),
        (b"2 1\n", b"refused 2\n"),
        (b"1011600 1\n", b"refused 2\n"),
        (b"10 9", b"refused 2\n"),
    ];
    for (input, refusal) in lines {
        assert_eq!(expected(input), refusal);
        compare(input);
    }
}

/// Two numbers with one blank between them, and nothing else.
#[test]
fn lines() {
    let inputs: [&[u8]; 26] = [
        b"",
        b"\n",
        b" ",
        b" \n",
        b"1\n",
        b"1",
        b"1 \n",
        b" 1\n",
        b"1 2",
        b"1 2\n3 4\n",
        b"1\n2\n",
        b"1  2\n",
        b" 1 2\n",
        b"1 2 \n",
        b"1 2 3\n",
        b"1\t2\n",
        b"1 2\r\n",
        b"+1 2\n",
        b"1 +2\n",
        b"-1 2\n",
        b"1,2\n",
        b"x 2\n",
        b"1 x\n",
        b"1 2x\n",
        b"1 2\0\n",
        b"007 0009\n",
    ];
    inputs.into_iter().for_each(compare);
    let zeros = [b'0'; 400];
    compare(&[&zeros[..], b"7 ", &zeros, b"9\n"].concat());
    compare(&[b'9'; 400]);
    compare(&[&[b'9'; 400][..], b" 1\n"].concat());
}

#[test]
fn random_lines() {
    let mut random = Random::new(20);
    for _ in 0..300 {
        let first = 1 + random.below(ROUND_YEARS);
        let last = first + random.below(9) - random.below(2);
        let mut line = format!("{first} {last}\n").into_bytes();
        if random.below(3) == 0 {
            let at = random.below(line.len() as u64) as usize;
            line[at] = random.pick(b"0123456789 +-\t\r\nx");
        }
        // A line that asks for half the round is left to `whole_round`.
        if expected_blocks(&line) <= 2_000 {
            compare(&line);
        }
    }
}

/// How long the volume is that a line asks for, without making it.
fn expected_blocks(line: &[u8]) -> usize {
    volume_programs::asked(line).map_or(0, |blocks| blocks.take(2_001).count())
}

#[test]
fn line_that_comes_byte_by_byte() {
    let printed = run::fed(WRITER, |stdin| {
        b"1011581 1011600\n".iter().try_for_each(|byte| {
            thread::sleep(Duration::from_millis(20));
            stdin.write_all(&[*byte])
        })
    });
    assert!(printed == expected(b"1011581 1011600\n"));
}

/// The block in which the output first parts from the round's volume.
fn parting_block(stdout: &mut ChildStdout) -> Option<usize> {
    let blocks = volume_programs::asked(b"1 1011600").expect("the whole round");
    for (index, expected) in blocks.enumerate() {
        let mut block = [0; BLOCK];
        match stdout.read_exact(&mut block) {
            Ok(()) if block == expected => {}
            _ => return Some(index),
        }
    }
    let more = stdout.read(&mut [0]).expect("output to read");
    (more > 0).then_some(ROUND_YEARS as usize)
}

/// Half a gigabyte, of which no more than a block is held.
#[test]
fn whole_round() {
    let parting = run::taken(
        WRITER,
        |stdin| stdin.write_all(b"1 1011600\n"),
        parting_block,
    );
    assert_eq!(parting, None);
}
