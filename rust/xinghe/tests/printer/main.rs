//! The year printer is run on many inputs and compared with the independent
//! second program. `tools/build year_printer` makes it.

// No counts of months are drawn here.
#[allow(dead_code)]
#[path = "../compare/random.rs"]
mod random;

mod lines;
mod run;
mod streams;
