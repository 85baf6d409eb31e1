//! One run of the year printer: how it is fed, and what it writes.

use std::io::{self, ErrorKind, Read, Write};
use std::path::Path;
use std::process::{Child, ChildStdin, Command, ExitStatus, Stdio};
use std::thread;
use std::time::{Duration, Instant};

/// A run that takes longer is ended and has failed.
const PATIENCE: Duration = Duration::from_secs(10);

/// The program itself.
pub fn printer() -> Command {
    Command::new(path())
}

/// A line of shell in which `"$0"` is the program.
pub fn shell(line: &str) -> Command {
    let mut command = Command::new("sh");
    command.args(["-c", line, &path()]);
    command
}

fn path() -> String {
    let top = Path::new(env!("CARGO_MANIFEST_DIR")).join("../..");
    let path = top.join("target/bin/year_printer");
    let shown = path.display().to_string();
    assert!(
        path.is_file(),
        "{shown} is missing; run: tools/build year_printer"
    );
    shown
}

/// What is written where the whole input is there from the start.
#[track_caller]
pub fn printed(input: &[u8]) -> String {
    let input = input.to_vec();
    fed(printer(), move |stdin| stdin.write_all(&input))
}

/// What is written by a command that is fed while it runs.
#[track_caller]
pub fn fed(
    mut command: Command,
    feed: impl FnOnce(&mut ChildStdin) -> io::Result<()> + Send + 'static,
) -> String {
    let mut child = started(command.stdin(Stdio::piped()));
    let mut stdin = child.stdin.take().expect("a piped input");
    let feeder = thread::spawn(move || feed(&mut stdin));
    let text = output(child);
    let fed = feeder.join().expect("a feeder that ends");
    match fed.map_err(|error| error.kind()) {
        // A program that knows its answer may end before it has read all.
        Ok(()) | Err(ErrorKind::BrokenPipe) => text,
        Err(kind) => panic!("the input breaks off: {kind}"),
    }
}

pub fn started(command: &mut Command) -> Child {
    let command = command.stdout(Stdio::piped());
    command.spawn().expect("a program that starts")
}

/// What the child has written when it ends. A year's text is far shorter than
/// a pipe holds, so that it may be read afterwards.
#[track_caller]
pub fn output(mut child: Child) -> String {
    let status = ended(&mut child);
    assert!(status.code().is_some(), "ended by a signal: {status}");
    let mut text = String::new();
    let mut stdout = child.stdout.take().expect("a piped output");
    stdout.read_to_string(&mut text).expect("plain text");
    text
}

#[track_caller]
fn ended(child: &mut Child) -> ExitStatus {
    let start = Instant::now();
    loop {
        if let Some(status) = child.try_wait().expect("a child to wait for") {
            return status;
        }
        if start.elapsed() > PATIENCE {
            child.kill().expect("a child to end");
            child.wait().expect("a child to wait for");
            panic!("still running after {PATIENCE:?}");
        }
        thread::sleep(Duration::from_millis(1));
    }
}
