//! One job, checked and then timed in both programs.

use std::fmt::Debug;
use std::hint::black_box;
use std::time::Instant;

/// The best of so many repetitions is taken: what else runs on the machine can
/// only make one slower. They are many, so that a disturbance of a few tenths of
/// a second does not cover them all.
pub const REPETITIONS: usize = 201;

pub struct Line {
    pub name: &'static str,
    /// Nanoseconds per call.
    pub library: f64,
    pub rust: f64,
}

impl Line {
    pub fn print(&self) {
        let ratio = self.library / self.rust;
        let (name, library, rust) = (self.name, self.library, self.rust);
        println!("| {name} | {library:.1} | {rust:.1} | {ratio:.2} |");
    }
}

/// Both programs are given every input; an answer that differs ends the run.
fn check<I, O: Clone + PartialEq + Debug>(
    inputs: &[I],
    blank: &O,
    library: &impl Fn(&I, &mut O) -> u64,
    rust: &impl Fn(&I, &mut O) -> u64,
) {
    for input in inputs {
        let (mut one, mut other) = (blank.clone(), blank.clone());
        let number = library(input, &mut one);
        assert_eq!((number, one), (rust(input, &mut other), other.clone()));
        assert_eq!(number, 0, "a refused input");
    }
}

/// Nanoseconds per input of one pass over them all.
fn pass<I, O>(inputs: &[I], out: &mut O, job: &impl Fn(&I, &mut O) -> u64) -> f64 {
    let start = Instant::now();
    for input in inputs {
        black_box(job(black_box(input), out));
        black_box(&mut *out);
    }
    start.elapsed().as_nanos() as f64 / inputs.len() as f64
}

/// Checks, then times the two by turns.
pub fn measure<I, O: Clone + PartialEq + Debug>(
    name: &'static str,
    inputs: &[I],
    blank: O,
    library: impl Fn(&I, &mut O) -> u64,
    rust: impl Fn(&I, &mut O) -> u64,
) -> Line {
    check(inputs, &blank, &library, &rust);
    let mut out = blank;
    let mut line = Line {
        name,
        library: f64::INFINITY,
        rust: f64::INFINITY,
    };
    for _ in 0..REPETITIONS {
        line.library = line.library.min(pass(inputs, &mut out, &library));
        line.rust = line.rust.min(pass(inputs, &mut out, &rust));
    }
    line
}
