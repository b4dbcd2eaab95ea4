//! The program with an input that fails, and with an output that fails.

use std::fs::File;
use std::io::{pipe, PipeReader, Read, Write};
use std::os::fd::OwnedFd;
use std::os::unix::net::UnixStream;
use std::process::Stdio;
use std::sync::mpsc::{channel, Receiver};
use std::sync::LazyLock;

use desk_tests::calls::Style;
use desk_tests::lines::ORDER_BYTES;
use desk_tests::program::{
    content, file, first_bytes, impatient_pipe, program, same, through_shell, told, Run, BLOCK_BYTES,
};

const SEED: u64 = 0xDE5_6000;

/// A session of four blocks, and its lines.
static LONG: LazyLock<(Vec<u8>, String)> = LazyLock::new(|| told(SEED, Style::Chain, 12_500));
/// A session of a few orders, and its lines.
static SHORT: LazyLock<(Vec<u8>, String)> = LazyLock::new(|| told(SEED, Style::Dense, 8));

fn full_device() -> File {
    File::options().write(true).open("/dev/full").expect("a device that is full")
}

#[test]
fn a_full_device() {
    for input in [&LONG.0[..], &SHORT.0, &[0], &[]] {
        println!("{} bytes", input.len());
        Run::start(program(), file(input), full_device(), std::io::empty()).end().failed();
    }
}

#[test]
fn a_full_device_ends_the_program_before_its_input() {
    for input in [&SHORT.0[..first_bytes(&SHORT.0)], &[0]] {
        let mut run = Run::start(program(), Stdio::piped(), full_device(), std::io::empty());
        run.send(input);
        run.end().failed();
    }
}

#[test]
fn a_closed_output() {
    for input in [&LONG.0[..], &SHORT.0, &[0], &[]] {
        println!("{} bytes", input.len());
        let command = through_shell("exec \"$0\" >&-");
        Run::start(command, file(input), Stdio::null(), std::io::empty()).end().failed();
    }
}

/// A file that may hold a few kilobytes: the lines up to there stand in it.
#[test]
fn a_file_that_may_not_grow() {
    let (input, lines) = &*LONG;
    let output = file(b"");
    let stdout = output.try_clone().expect("the same file");
    let command = through_shell("trap '' XFSZ; ulimit -f 9; exec \"$0\"");
    Run::start(command, file(input), stdout, std::io::empty()).end().failed();
    is_begun(&content(output), lines);
}

/// Checks that this is a beginning of the lines and neither nothing nor all.
fn is_begun(ours: &str, lines: &str) {
    assert!(!ours.is_empty() && ours.len() < lines.len(), "{} bytes of {}", ours.len(), lines.len());
    same(ours, &lines[..ours.len()]);
}

/// A reader that does nothing until it is told to go on.
struct Resting(PipeReader, Receiver<()>);

impl Read for Resting {
    fn read(&mut self, buffer: &mut [u8]) -> std::io::Result<usize> {
        let _ = self.1.recv();
        self.0.read(buffer)
    }
}

/// A write fails while the reader rests. Then others would succeed, but there is none, and the program ends though its input
/// is open.
#[test]
fn nothing_is_written_after_a_failure() {
    let (input, lines) = &*LONG;
    let (open, mut sender) = pipe().expect("a pipe");
    // Less than the pipe holds, and its lines are more than a narrow one does.
    sender.write_all(&input[..BLOCK_BYTES / 2]).expect("the input's beginning");
    for stdin in [open.into(), Stdio::from(file(input))] {
        let (reader, writer) = impatient_pipe();
        let (go_on, rests) = channel();
        let mut run = Run::start(program(), stdin, writer, Resting(reader, rests));
        run.complains();
        drop(go_on);
        is_begun(&run.end().failed(), lines);
    }
}

#[test]
fn an_input_that_cannot_be_read() {
    let folder = File::open("/").expect("a folder");
    assert_eq!(Run::to_pipe(folder).end().failed(), "");
    let (reader, writer) = pipe().expect("a pipe");
    let closed = Run::start(through_shell("exec \"$0\" <&-"), Stdio::null(), writer, reader);
    assert_eq!(closed.end().failed(), "");
}

/// An input whose reads fail behind these bytes: its other end goes away and leaves a byte unread.
fn failing_behind(bytes: &[u8]) -> Stdio {
    let (mut ours, mut theirs) = UnixStream::pair().expect("a pair");
    theirs.write_all(&[0]).expect("a byte that stays unread");
    ours.write_all(bytes).expect("the bytes of the input");
    OwnedFd::from(theirs).into()
}

#[test]
fn a_read_that_fails_between_orders() {
    let (input, lines) = &*SHORT;
    let first = first_bytes(input);
    for orders in [0, 1, 5] {
        for more in [0, 1, 15] {
            println!("behind {orders} orders and {more} bytes");
            let due: String = lines.split_inclusive('\n').take(1 + orders).collect();
            let stdin = failing_behind(&input[..first + orders * ORDER_BYTES + more]);
            assert_eq!(Run::to_pipe(stdin).end().failed(), due);
        }
    }
}

#[test]
fn a_read_that_fails_in_the_first_bytes() {
    let (input, _) = &*SHORT;
    for size in [0, 1, 2, 3, first_bytes(input) - 1] {
        println!("behind {size} bytes");
        assert_eq!(Run::to_pipe(failing_behind(&input[..size])).end().failed(), "");
    }
}
