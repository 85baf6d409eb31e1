//! The year printer: what it answers to an input, and its runs at the edges.

use std::io::{self, Write};

use crate::ask;
use crate::walker::Month;

/// The answer to an input, of which only the first line counts.
pub fn answer(input: &[u8]) -> String {
    let line = input
        .split(|&byte| byte == b'\n')
        .next()
        .unwrap_or_default();
    match year_of(line).and_then(|year| ask::year(year).ok()) {
        None => "refused 1\n".to_owned(),
        Some(year) => {
            let mut text = format!(
                "year {} months {} leap {}\n",
                year.number,
                year.months.len(),
                year.leap_place
            );
            for month in &year.months {
                text.push_str(&month_line(month));
            }
            text
        }
    }
}

/// A line of digits as a number, unless it is too long to be a year.
pub fn year_of(line: &[u8]) -> Option<u64> {
    if line.is_empty() || !line.iter().all(u8::is_ascii_digit) {
        return None;
    }
    let digits = std::str::from_utf8(line).ok()?.trim_start_matches('0');
    if digits.len() > 7 {
        None
    } else {
        digits.parse().ok()
    }
}

fn month_line(month: &Month) -> String {
    let row = &month.row;
    let mark = if row.leap { 'L' } else { '-' };
    format!(
        "{} {} {mark} {} {} {}\n",
        row.place, row.number, month.sixty, row.remainder, row.length
    )
}

/// The inputs of the program `year_runs`, in its order.
pub fn write_runs(out: &mut impl Write) -> io::Result<()> {
    let zeros = [&[b'0'; 400][..], b"2007"].concat();
    let runs: [&[u8]; 19] = [
        b"293997\n",
        b"1011600\n",
        b"0\n",
        b"1011601\n",
        b"\n",
        b"",
        b"12a\n",
        b"00000000000000000000293997\n",
        &[b'9'; 400],
        &zeros,
        b"3",
        b"3\n4\n",
        b"3\r\n",
        b"+3\n",
        b"-3\n",
        b" 3\n",
        b"3 \n",
        b"3\0\n",
        b"18446744073709551617\n",
    ];
    for input in runs {
        out.write_all(answer(input).as_bytes())?;
    }
    Ok(())
}
