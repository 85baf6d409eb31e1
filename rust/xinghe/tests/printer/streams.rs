//! Inputs that come late, fail, never end, or go on for another reader.

use std::fs::File;
use std::io::{self, Write};
use std::os::fd::OwnedFd;
use std::os::unix::net::UnixStream;
use std::process::ChildStdin;
use std::thread;
use std::time::Duration;

use second::printer::answer;

use crate::run;

const REFUSED: &str = "refused 1\n";

#[test]
fn input_that_comes_late() {
    let printed = run::fed(run::printer(), |stdin| {
        stdin.write_all(b"29")?;
        thread::sleep(Duration::from_millis(300));
        stdin.write_all(b"3997\n")
    });
    assert_eq!(printed, answer(b"293997\n"));
}

#[test]
fn input_that_comes_byte_by_byte() {
    let printed = run::fed(run::printer(), |stdin| {
        b"293997\n".iter().try_for_each(|byte| {
            thread::sleep(Duration::from_millis(20));
            stdin.write_all(&[*byte])
        })
    });
    assert_eq!(printed, answer(b"293997\n"));
}

/// What is written where reading fails as long as nothing is there: `first` is
/// there from the start, `late` comes long after the program has looked.
#[track_caller]
fn printed_without_waiting(first: &[u8], late: &'static [u8]) -> String {
    let (mut ours, theirs) = UnixStream::pair().expect("two ends");
    // This is a mark of the open end itself, so that the child has it too.
    theirs.set_nonblocking(true).expect("an end to mark");
    ours.write_all(first).expect("an end to write to");
    let child = run::started(run::printer().stdin(OwnedFd::from(theirs)));
    thread::spawn(move || {
        thread::sleep(Duration::from_secs(2));
        // By then the program may have ended, and its end be closed.
        ours.write_all(late)
    });
    run::output(child)
}

/// The line is not known where its end could not be read.
#[test]
fn line_that_breaks_off_in_a_failure() {
    assert_eq!(printed_without_waiting(b"29", b"3997\n"), REFUSED);
}

#[test]
fn failure_before_the_first_byte() {
    assert_eq!(printed_without_waiting(b"", b"293997\n"), REFUSED);
}

#[test]
fn line_that_ends_before_the_failure() {
    let printed = printed_without_waiting(b"293997\n", b"1\n");
    assert_eq!(printed, answer(b"293997\n"));
}

#[test]
fn input_that_cannot_be_read() {
    let closed = run::started(&mut run::shell("exec \"$0\" <&-"));
    assert_eq!(run::output(closed), REFUSED);
    let folder = File::open("/").expect("a folder");
    let child = run::started(run::printer().stdin(folder));
    assert_eq!(run::output(child), REFUSED);
}

/// Writes until nobody reads any more.
fn feed_endless(stdin: &mut ChildStdin, digit: u8) -> io::Result<()> {
    let digits = [digit; 1 << 16];
    loop {
        stdin.write_all(&digits)?;
    }
}

/// No later byte can make a year of a line that holds another byte than digits.
#[test]
fn endless_line_that_is_no_number() {
    let printed = run::fed(run::printer(), |stdin| {
        stdin.write_all(b"x")?;
        feed_endless(stdin, b'1')
    });
    assert_eq!(printed, REFUSED);
}

/// Nor of a number that has grown past the round.
#[test]
fn endless_number() {
    let printed = run::fed(run::printer(), |stdin| feed_endless(stdin, b'9'));
    assert_eq!(printed, REFUSED);
}

#[test]
fn rest_is_left_for_the_next_reader() {
    let inputs: [(&[u8], &str); 5] = [
        (b"1\nrest\n", "rest\n"),
        (b"293997\n3\n\nrest", "3\n\nrest"),
        (b"0\nrest\n", "rest\n"),
        (b"\nrest\n", "rest\n"),
        (b"1", ""),
    ];
    for (input, rest) in inputs {
        let both = run::fed(run::shell("\"$0\"; cat"), |stdin| stdin.write_all(input));
        assert_eq!(both, answer(input) + rest);
    }
}
