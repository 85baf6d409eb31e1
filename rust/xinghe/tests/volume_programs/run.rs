//! One run of a program: how it is fed, and who takes what it writes.

use std::io::{self, ErrorKind, Read, Write};
use std::path::{Path, PathBuf};
use std::process::{Child, ChildStdin, ChildStdout, Command, ExitStatus, Stdio};
use std::sync::mpsc::{self, Receiver};
use std::thread;
use std::time::Duration;

/// A run that takes longer is ended and has failed. The whole round is half a
/// gigabyte, walked by the second program meanwhile.
const PATIENCE: Duration = Duration::from_secs(300);

pub const WRITER: &str = "volume_writer";
pub const READER: &str = "volume_reader";
pub const MENDER: &str = "mend";

fn path(program: &str) -> PathBuf {
    let top = Path::new(env!("CARGO_MANIFEST_DIR")).join("../..");
    let path = top.join("target/bin").join(program);
    let shown = path.display();
    assert!(
        path.is_file(),
        "{shown} is missing; run: tools/build {program}"
    );
    path
}

/// A line of shell in which `"$0"` is the program.
pub fn shell(line: &str, program: &str) -> Command {
    let mut command = Command::new("sh");
    command.args(["-c", line]).arg(path(program));
    command
}

/// What is written where the whole input is there from the start.
#[track_caller]
pub fn printed(program: &str, input: &[u8]) -> Vec<u8> {
    let input = input.to_vec();
    fed(program, move |stdin| stdin.write_all(&input))
}

/// What is written by a program that is fed while it runs.
#[track_caller]
pub fn fed(
    program: &str,
    feed: impl FnOnce(&mut ChildStdin) -> io::Result<()> + Send + 'static,
) -> Vec<u8> {
    taken(program, feed, all)
}

pub fn all(stdout: &mut ChildStdout) -> Vec<u8> {
    let mut bytes = Vec::new();
    stdout.read_to_end(&mut bytes).expect("output to read");
    bytes
}

/// What is written where the input is no pipe of ours.
#[track_caller]
pub fn printed_from(program: &str, input: impl Into<Stdio>) -> Vec<u8> {
    let mut command = Command::new(path(program));
    printed_by(command.stdin(input))
}

/// What a command writes that has its input.
#[track_caller]
pub fn printed_by(command: &mut Command) -> Vec<u8> {
    let (made, status) = made(started(command), all);
    assert!(status.code().is_some(), "ended by a signal: {status}");
    made
}

/// What is made of the output, which is taken while the program runs: it may be
/// longer than a pipe holds.
#[track_caller]
pub fn taken<T: Send + 'static>(
    program: &str,
    feed: impl FnOnce(&mut ChildStdin) -> io::Result<()> + Send + 'static,
    take: impl FnOnce(&mut ChildStdout) -> T + Send + 'static,
) -> T {
    let (made, status) = ended(&mut Command::new(path(program)), feed, take);
    assert!(status.code().is_some(), "ended by a signal: {status}");
    made
}

/// The same of a command that is fed, and how it ended.
#[track_caller]
pub fn ended<T: Send + 'static>(
    command: &mut Command,
    feed: impl FnOnce(&mut ChildStdin) -> io::Result<()> + Send + 'static,
    take: impl FnOnce(&mut ChildStdout) -> T + Send + 'static,
) -> (T, ExitStatus) {
    let mut child = started(command.stdin(Stdio::piped()));
    let mut stdin = child.stdin.take().expect("a piped input");
    let feeder = thread::spawn(move || feed(&mut stdin));
    let ended = made(child, take);
    let fed = feeder.join().expect("a feeder that ends");
    match fed.map_err(|error| error.kind()) {
        // A program that knows its answer may end before it has read all.
        Ok(()) | Err(ErrorKind::BrokenPipe) => ended,
        Err(kind) => panic!("the input breaks off: {kind}"),
    }
}

fn started(command: &mut Command) -> Child {
    let command = command.stdout(Stdio::piped());
    command.spawn().expect("a program that starts")
}

#[track_caller]
fn made<T: Send + 'static>(
    mut child: Child,
    take: impl FnOnce(&mut ChildStdout) -> T + Send + 'static,
) -> (T, ExitStatus) {
    let mut stdout = child.stdout.take().expect("a piped output");
    let (sender, receiver) = mpsc::channel();
    let taker = thread::spawn(move || sender.send(take(&mut stdout)));
    let made = waited(&mut child, &receiver);
    taker
        .join()
        .expect("a taker that ends")
        .expect("a receiver");
    let status = child.wait().expect("a child to wait for");
    (made, status)
}

#[track_caller]
fn waited<T>(child: &mut Child, receiver: &Receiver<T>) -> T {
    receiver.recv_timeout(PATIENCE).unwrap_or_else(|error| {
        child.kill().expect("a child to end");
        child.wait().expect("a child to wait for");
        panic!("nothing to compare after {PATIENCE:?}: {error}");
    })
}
