//! Inputs that are there from the start.

use second::numbers::ROUND_YEARS;
use second::printer::answer;

use crate::random::Random;
use crate::run;

#[track_caller]
fn compare(input: &[u8]) {
    let shown = input.escape_ascii();
    assert_eq!(run::printed(input), answer(input), "input '{shown}'");
}

#[test]
fn ends_of_a_line() {
    let inputs: [&[u8]; 12] = [
        b"", b"\n", b"\n\n", b"\n3\n", b"3", b"3\n", b"3\n4\n", b"3\n4", b"3\nx\n", b"3\r\n",
        b"3\r", b"\r\n3\n",
    ];
    inputs.into_iter().for_each(compare);
}

#[test]
fn years_at_the_edges() {
    let inputs: [&[u8]; 17] = [
        b"0\n",
        b"1\n",
        b"2\n",
        b"3\n",
        b"4\n",
        b"293997\n",
        b"1011599\n",
        b"1011600\n",
        b"1011601\n",
        b"1011610\n",
        b"10116000\n",
        // 2^64 less 1, itself, and with a year more
        b"18446744073709551615\n",
        b"18446744073709551616\n",
        b"18446744073709551617\n",
        b"18446744073709845613\n",
        // 2^32 and 2^128 with a year more
        b"4294967297\n",
        b"340282366920938463463374607431768505453\n",
    ];
    inputs.into_iter().for_each(compare);
}

#[test]
fn leading_zeros_and_long_lines() {
    let zeros = [b'0'; 400];
    compare(b"00\n");
    compare(b"007\n");
    compare(b"00000000000000000000293997\n");
    compare(&zeros);
    compare(&[&zeros[..], b"\n"].concat());
    compare(&[&zeros[..], b"293997\n"].concat());
    compare(&[&zeros[..], b"1011600"].concat());
    compare(&[&zeros[..], b"1011601\n"].concat());
    compare(&[&zeros[..], b"293997x\n"].concat());
    compare(&[b'9'; 400]);
    compare(&[&[b'1'; 400][..], b"\n3\n"].concat());
    compare(&[b'0'; 100_000]);
}

#[test]
fn bytes_that_are_no_digits() {
    for byte in (0..=u8::MAX).filter(|byte| !byte.is_ascii_digit()) {
        compare(&[byte]);
        compare(&[byte, b'3', b'\n']);
        compare(&[b'3', byte, b'\n']);
        compare(&[b'3', byte, b'4', b'\n']);
    }
}

#[test]
fn random_years() {
    let mut random = Random::new(14);
    for _ in 0..300 {
        let year = 1 + random.below(ROUND_YEARS);
        compare(format!("{year}\n").as_bytes());
    }
    for _ in 0..50 {
        let bits = random.below(64);
        compare(format!("{}\n", random.number() >> bits).as_bytes());
    }
}

/// Digits alone, digits with one other byte among them, and any bytes.
#[test]
fn random_lines() {
    let mut random = Random::new(15);
    for _ in 0..300 {
        let length = random.below(9) as usize;
        let kind = random.below(3);
        let mut line: Vec<u8> = (0..length)
            .map(|_| match kind {
                0 | 1 => random.pick(b"0123456789"),
                _ => random.below(256) as u8,
            })
            .collect();
        if kind == 1 {
            let at = random.below(length as u64 + 1) as usize;
            line.insert(at, random.pick(b"+- \t\0\r\n,._x/:\x80\xff"));
        }
        compare(&line);
    }
}
