//! The volume writer, the volume reader and the mending program are run and compared
//! with the independent second program. `tools/build volume_writer volume_reader mend`
//! makes them.

// No counts of months are drawn here.
#[allow(dead_code)]
#[path = "../compare/random.rs"]
mod random;

mod mend;
mod reader;
mod run;
mod writer;
