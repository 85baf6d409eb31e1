//! The library is compared with the independent second program. What is
//! expected are that program's walked answers; nothing here works out a row, a
//! node, a correction, a conjunction, a name, a block, a count of marked moons or a
//! mended volume.

// The crate keeps its declarations to itself; `sentinels` needs them to see
// what is written where a call is refused.
#[path = "../../src/raw.rs"]
mod raw;

mod calendars;
mod carries;
mod damages;
mod expected;
mod labels;
mod lists;
mod mending;
mod mending_damages;
mod mending_outcomes;
mod planets;
mod random;
mod reign_damages;
mod reign_outcomes;
mod reigns;
mod round;
mod sentinels;
mod single;
mod tally;
mod volumes;
mod walks;
