//! Prints the head of a year, as examples/head.c does. From the project's
//! directory, after `tools/build xinghe`:
//!
//!     cargo run --release --offline --manifest-path rust/Cargo.toml --package xinghe --example head -- 293997

use std::ffi::OsString;
use std::process::ExitCode;

const NAMES: [&str; 6] = [
    "months before",
    "leap remainder",
    "months",
    "leap place",
    "solstice day",
    "solstice remainder",
];

/// The one argument as a number, where it is nothing but decimal digits.
fn year_asked(arguments: &[OsString]) -> Option<u64> {
    let [argument] = arguments else {
        return None;
    };
    // `parse` alone would take a plus sign too.
    let digits = argument.to_str()?;
    if digits.is_empty() || !digits.bytes().all(|byte| byte.is_ascii_digit()) {
        return None;
    }
    // Digits fail to parse past 64 bits alone; the largest number is no year
    // either.
    Some(digits.parse().unwrap_or(u64::MAX))
}

fn main() -> ExitCode {
    let arguments: Vec<OsString> = std::env::args_os().skip(1).collect();
    let Some(year) = year_asked(&arguments) else {
        eprintln!("usage: head YEAR, in decimal digits");
        return ExitCode::from(2);
    };
    match xinghe::year_head(year) {
        Ok(head) => {
            for (name, value) in NAMES.iter().zip(head) {
                println!("{name} {value}");
            }
            ExitCode::SUCCESS
        }
        Err(number) => {
            eprintln!("refused {number}: the years are 1 to 1011600");
            ExitCode::from(1)
        }
    }
}
