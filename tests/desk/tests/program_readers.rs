//! The program with a reader that goes away.

use std::io::{empty, pipe, Read};
use std::process::{Command, Stdio};
use std::sync::{Mutex, MutexGuard, PoisonError};

use desk_tests::calls::Style;
use desk_tests::lines::ORDER_BYTES;
use desk_tests::program::{file, first_bytes, program, same, through_shell, told, Run, BLOCK_BYTES};

const SEED: u64 = 0xDE5_7000;

/// A program of the kit ignores the signal that its reader is gone, whether that has its default action at the start or is
/// ignored there too.
const WAYS: [fn() -> Command; 2] = [program, || through_shell("trap '' PIPE; exec \"$0\"")];

/// Held by each test. A program that another test starts would hold the pipe open for a moment, as if it had a reader.
fn alone() -> MutexGuard<'static, ()> {
    static ALONE: Mutex<()> = Mutex::new(());
    ALONE.lock().unwrap_or_else(PoisonError::into_inner)
}

#[test]
fn the_reader_goes_away() {
    let _alone = alone();
    let (input, lines) = told(SEED, Style::Chain, 12_500);
    for start in WAYS {
        for read in [0, 1, 11, 4_096, BLOCK_BYTES, BLOCK_BYTES + 1, 150_000] {
            println!("{read} bytes are read");
            // More is due than the reader's pipe and the program hold.
            assert!(read + 2 * BLOCK_BYTES < lines.len(), "{} bytes are due", lines.len());
            let (reader, writer) = pipe().expect("a pipe");
            let run = Run::start(start(), file(&input), writer, reader.take(read as u64));
            same(&run.end().failed(), &lines[..read]);
        }
    }
}

#[test]
fn the_reader_is_gone_before() {
    let _alone = alone();
    let [long, short] = [12_500, 8].map(|orders| told(SEED, Style::Dense, orders).0);
    for input in [&long[..], &short, &[0], &[]] {
        for start in WAYS {
            println!("{} bytes", input.len());
            let (reader, writer) = pipe().expect("a pipe");
            drop(reader);
            Run::start(start(), file(input), writer, empty()).end().failed();
        }
    }
}

/// The program ends with the order whose line finds no reader, though its input is open.
#[test]
fn the_reader_goes_away_between_orders() {
    let _alone = alone();
    let (input, lines) = told(SEED, Style::Dense, 8);
    let first = first_bytes(&input);
    for start in WAYS {
        for orders in [0, 1, 4] {
            println!("behind {orders} orders");
            let due: String = lines.split_inclusive('\n').take(1 + orders).collect();
            let (reader, writer) = pipe().expect("a pipe");
            let mut run = Run::start(start(), Stdio::piped(), writer, reader.take(due.len() as u64));
            run.send(&input[..first + orders * ORDER_BYTES]);
            let came: String = std::iter::from_fn(|| run.line()).collect();
            assert_eq!(came, due);
            run.send(&input[first + orders * ORDER_BYTES..][..ORDER_BYTES]);
            assert_eq!(run.end().failed(), "");
        }
    }
}
