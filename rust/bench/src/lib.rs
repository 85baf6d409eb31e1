//! The calendar's jobs in plain Rust, to measure the library against.

pub mod fast;
