//! The built program as the tests run it, with any standard input and output. A program that shows nothing for too long
//! fails its test and is ended.

use std::fs::File;
use std::io::{self, pipe, BufRead, BufReader, PipeReader, PipeWriter, Read, Seek, Write};
use std::os::fd::AsRawFd;
use std::path::PathBuf;
use std::process::{Child, ChildStdin, Command, ExitStatus, Stdio};
use std::sync::atomic::{AtomicU64, Ordering};
use std::sync::mpsc::{channel, Receiver, RecvTimeoutError};
use std::thread;
use std::time::Duration;

use support::Random;

use crate::calls::{guard, Style};
use crate::lines::{output, LINK_BYTES, ORDER_BYTES};
use crate::sessions::orders_file;

/// The bytes of orders that the program reads at a time, and of lines that it holds.
pub const BLOCK_BYTES: usize = 65_536;
/// A program that shows nothing for so long is taken to hang.
const LIMIT: Duration = Duration::from_secs(30);
/// How long a program is watched that is to show nothing.
const SILENCE: Duration = Duration::from_millis(300);
/// The bytes that a narrow pipe holds.
const NARROW_BYTES: i32 = 4_096;

pub fn root() -> PathBuf {
    PathBuf::from(env!("CARGO_MANIFEST_DIR")).join("../..")
}

/// The program, started as it is.
pub fn program() -> Command {
    Command::new(root().join("target/bin/run_orders"))
}

/// The program, started by the shell with these words, in which it is `"$0"`.
pub fn through_shell(words: &str) -> Command {
    let mut command = Command::new("sh");
    command.args(["-c", words]).arg(program().get_program());
    command
}

/// A started program. Its standard input stays open until `close`, unless it was given another one.
pub struct Run {
    child: Child,
    stdin: Option<ChildStdin>,
    lines: Receiver<Vec<u8>>,
    errors: Receiver<Vec<u8>>,
    complaint: Vec<u8>,
}

/// What a program that has ended leaves.
pub struct Ended {
    /// What its reader got and the test has not taken.
    pub output: String,
    pub errors: String,
    pub status: ExitStatus,
}

impl Run {
    /// Starts the program; its standard output is read through `reader`, to its end.
    pub fn start(
        mut command: Command,
        stdin: impl Into<Stdio>,
        stdout: impl Into<Stdio>,
        reader: impl Read + Send + 'static,
    ) -> Run {
        let started = command.stdin(stdin).stdout(stdout).stderr(Stdio::piped()).spawn();
        let mut child =
            started.unwrap_or_else(|why| panic!("{command:?}: {why}: run `bash tools/build run_orders` first"));
        let stdin = child.stdin.take();
        let errors = taken_up(child.stderr.take().expect("standard error"));
        Run { child, stdin, lines: taken_up(reader), errors, complaint: Vec::new() }
    }

    /// Starts the program with a pipe at its standard output.
    pub fn to_pipe(stdin: impl Into<Stdio>) -> Run {
        let (reader, writer) = pipe().expect("a pipe");
        Run::start(program(), stdin, writer, reader)
    }

    /// Starts the program with pipes at both ends.
    pub fn piped() -> Run {
        Run::to_pipe(Stdio::piped())
    }

    /// Sends bytes. A program that has stopped reading gets none.
    pub fn send(&mut self, bytes: &[u8]) {
        let _ = self.stdin.as_mut().expect("an open standard input").write_all(bytes);
    }

    pub fn close(&mut self) {
        self.stdin = None;
    }

    /// Feeds the pieces to the end of the input, from beside and with a pause behind each.
    pub fn feed(&mut self, pieces: Vec<Vec<u8>>, pause: Duration) {
        let mut stdin = self.stdin.take().expect("an open standard input");
        thread::spawn(move || {
            for piece in pieces {
                if stdin.write_all(&piece).is_err() {
                    return;
                }
                thread::sleep(pause);
            }
        });
    }

    /// The next line; none at the end of the output.
    pub fn line(&self) -> Option<String> {
        next(&self.lines).map(text)
    }

    /// Checks that no line comes and the output doesn't end.
    pub fn is_silent(&self) {
        let came = self.lines.recv_timeout(SILENCE).map(text);
        assert_eq!(came, Err(RecvTimeoutError::Timeout), "more than silence");
    }

    /// Waits for a line on standard error, or its end.
    pub fn complains(&mut self) {
        self.complaint.extend(next(&self.errors).unwrap_or_default());
    }

    /// Waits for the end of the program, whose standard input may still be open.
    pub fn end(mut self) -> Ended {
        let output = text(rest(&self.lines).collect());
        let errors = text(self.complaint.drain(..).chain(rest(&self.errors)).collect());
        let status = self.child.wait().expect("the program ends");
        Ended { output, errors, status }
    }
}

impl Drop for Run {
    fn drop(&mut self) {
        let _ = self.child.kill();
        let _ = self.child.wait();
    }
}

impl Ended {
    /// What was written by a program that met no failure.
    pub fn well(self) -> String {
        assert!(self.status.success(), "the program ends with {}: {}", self.status, self.errors);
        assert_eq!(self.errors, "", "standard error");
        self.output
    }

    /// What was written by a program that a failure ended, which it told.
    pub fn failed(self) -> String {
        assert_eq!(self.status.code(), Some(1), "the program ends with {}: {}", self.status, self.errors);
        assert!(self.errors.trim() != "" && self.errors.ends_with('\n'), "no message: {:?}", self.errors);
        self.output
    }
}

/// Each line that comes, and what is behind the last one. The reader is gone when they end.
fn taken_up(reader: impl Read + Send + 'static) -> Receiver<Vec<u8>> {
    let (sender, receiver) = channel();
    thread::spawn(move || {
        let mut reader = BufReader::new(reader);
        loop {
            let mut line = Vec::new();
            let read = reader.read_until(b'\n', &mut line);
            if read.is_err() || line.is_empty() {
                break;
            }
            let _ = sender.send(line);
        }
        drop(reader);
        drop(sender);
    });
    receiver
}

/// The next piece; none at the end.
fn next(pieces: &Receiver<Vec<u8>>) -> Option<Vec<u8>> {
    match pieces.recv_timeout(LIMIT) {
        Ok(piece) => Some(piece),
        Err(RecvTimeoutError::Disconnected) => None,
        Err(RecvTimeoutError::Timeout) => panic!("the program shows nothing for {LIMIT:?}"),
    }
}

/// All bytes up to the end.
fn rest(pieces: &Receiver<Vec<u8>>) -> impl Iterator<Item = u8> + '_ {
    std::iter::from_fn(|| next(pieces)).flatten()
}

fn text(bytes: Vec<u8>) -> String {
    String::from_utf8(bytes).expect("plain text")
}

/// What the program writes for this input from a pipe.
pub fn written(input: &[u8]) -> String {
    written_in_pieces(vec![input.to_vec()], Duration::ZERO)
}

/// What the program writes for an input that comes in pieces, with a pause behind each.
pub fn written_in_pieces(pieces: Vec<Vec<u8>>, pause: Duration) -> String {
    let mut run = Run::piped();
    run.feed(pieces, pause);
    run.end().well()
}

/// What the program writes for this input from a file.
pub fn written_from_file(input: &[u8]) -> String {
    Run::to_pipe(file(input)).end().well()
}

/// A file that holds these bytes, at its start. It has no name any more.
pub fn file(bytes: &[u8]) -> File {
    static FILES: AtomicU64 = AtomicU64::new(0);
    let name = format!("desk_tests_{}_{}", std::process::id(), FILES.fetch_add(1, Ordering::Relaxed));
    let path = std::env::temp_dir().join(name);
    let made = || -> io::Result<File> {
        let mut file = File::options().read(true).write(true).create_new(true).open(&path)?;
        std::fs::remove_file(&path)?;
        file.write_all(bytes)?;
        file.rewind()?;
        Ok(file)
    };
    made().unwrap_or_else(|why| panic!("{}: {why}", path.display()))
}

/// All that a file holds.
pub fn content(mut file: File) -> String {
    let mut text = String::new();
    file.rewind().and_then(|()| file.read_to_string(&mut text)).expect("plain text");
    text
}

/// A pipe that is soon full.
pub fn narrow_pipe() -> (PipeReader, PipeWriter) {
    const F_SETPIPE_SZ: i32 = 1031;
    let (reader, writer) = pipe().expect("a pipe");
    let size = unsafe { fcntl(writer.as_raw_fd(), F_SETPIPE_SZ, NARROW_BYTES) };
    assert_eq!(size, NARROW_BYTES, "a narrow pipe");
    (reader, writer)
}

/// A pipe that is soon full, and then lets a write fail.
pub fn impatient_pipe() -> (PipeReader, PipeWriter) {
    const F_SETFL: i32 = 4;
    const O_NONBLOCK: i32 = 0o4000;
    let (reader, writer) = narrow_pipe();
    let set = unsafe { fcntl(writer.as_raw_fd(), F_SETFL, O_NONBLOCK) };
    assert_eq!(set, 0, "a pipe whose writes don't wait");
    (reader, writer)
}

extern "C" {
    fn fcntl(file: i32, command: i32, ...) -> i32;
}

/// The input of a session under any guard with so many orders of one style, and its lines.
pub fn told(seed: u64, style: Style, orders: u64) -> (Vec<u8>, String) {
    let random = &mut Random::new(seed);
    let guard = guard(random);
    let input = orders_file(random, style, guard, orders);
    let lines = output(&input);
    (input, lines)
}

/// How many bytes stand before the orders of a session.
pub fn first_bytes(input: &[u8]) -> usize {
    2 + LINK_BYTES * input[0] as usize
}

/// Whether the lines of a block's orders are more than the program holds.
pub fn overflows(lines: &str) -> bool {
    let lines: Vec<&str> = lines.lines().skip(1).collect();
    let bytes = |block: &[&str]| block.iter().map(|line| line.len() + 1).sum::<usize>();
    lines.chunks(BLOCK_BYTES / ORDER_BYTES).any(|block| BLOCK_BYTES < bytes(block))
}

/// Checks that the lines are those that are due; tells the first that differs.
pub fn same(ours: &str, due: &str) {
    if ours != due {
        let place = ours.lines().zip(due.lines()).position(|(a, b)| a != b);
        let place = place.unwrap_or(ours.lines().count().min(due.lines().count()));
        panic!("line {}: {:?} for {:?}", place + 1, ours.lines().nth(place), due.lines().nth(place));
    }
}
