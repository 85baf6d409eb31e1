//! The volume programs: what the writer answers to an input, and the reader to a
//! volume.

use std::io::{self, Write};

use crate::ask::Refusal;
use crate::printer::year_of;
use crate::volumes::{self, Blocks};

/// The volume that an input asks for, of which only the first line counts: two
/// numbers with one blank between them.
pub fn asked(input: &[u8]) -> Result<Blocks, u64> {
    let lines = &mut input.split(|&byte| byte == b'\n');
    let mut words = lines.next().unwrap_or_default().split(|&byte| byte == b' ');
    match (words.next(), words.next(), words.next()) {
        (Some(first), Some(last), None) => span(first, last),
        _ => Err(Refusal::Year as u64),
    }
}

/// What is no number is no year either.
pub fn span(first: &[u8], last: &[u8]) -> Result<Blocks, u64> {
    let no_year = Refusal::Year as u64;
    let first = year_of(first).ok_or(no_year)?;
    let last = year_of(last).ok_or(no_year)?;
    volumes::blocks(first, last)
}

/// The volume block by block, or the refusal's line.
pub fn write(out: &mut impl Write, blocks: Result<Blocks, u64>) -> io::Result<()> {
    match blocks {
        Ok(mut blocks) => blocks.try_for_each(|block| out.write_all(&block)),
        Err(number) => out.write_all(refused(number).as_bytes()),
    }
}

/// The reader's line.
pub fn years_line(volume: &[u8]) -> String {
    match volumes::read(volume) {
        Ok((first, last)) => format!("{first} {last}\n"),
        Err(number) => refused(number),
    }
}

/// The line of every program that refuses.
pub fn refused(number: u64) -> String {
    format!("refused {number}\n")
}
