//! Comparisons, counted.

use std::fmt::Debug;

pub struct Tally {
    name: &'static str,
    calls: u64,
}

impl Tally {
    pub fn new(name: &'static str) -> Self {
        Self { name, calls: 0 }
    }

    /// One call of the library against what is expected of it.
    #[track_caller]
    pub fn same<T: PartialEq + Debug>(&mut self, answered: T, expected: T) {
        assert_eq!(answered, expected);
        self.calls += 1;
    }

    /// Guards against a loop that has come to compare next to nothing.
    #[track_caller]
    pub fn end(self, least: u64) {
        println!("{}: {} calls compared", self.name, self.calls);
        assert!(self.calls >= least, "only {} calls", self.calls);
    }
}
