//! Nanoseconds of processor time an order of the proved program on files of 100,000 mixed orders, under no guard, beside the programs over both
//! unverified desks (`fast_orders`, `sets_orders`), turn by turn in one run. All must write the same lines.

use std::fs::{self, File};
use std::path::{Path, PathBuf};
use std::process::{Command, Stdio};

use desk_tests::calls::Style;
use desk_tests::sessions::orders_file;
use support::Random;
use timing::{print_heading, print_ratios};

const ORDERS: u64 = 100_000;
const TURNS: u32 = 10;

/// What `getrusage` fills in: user and system time in seconds and microseconds, and 14 other figures.
#[repr(C)]
#[derive(Default)]
struct Usage {
    user: [i64; 2],
    system: [i64; 2],
    others: [i64; 14],
}

extern "C" {
    fn getrusage(whose: i32, usage: *mut Usage) -> i32;
}

/// The seconds of processor time that the programs that have ended took, which other work on the machine does not lengthen as
/// it does those that pass.
fn processor_seconds() -> f64 {
    const CHILDREN: i32 = -1;
    let mut usage = Usage::default();
    assert_eq!(unsafe { getrusage(CHILDREN, &mut usage) }, 0, "no processor times");
    [usage.user, usage.system].iter().map(|time| time[0] as f64 + time[1] as f64 / 1e6).sum()
}

/// The seconds of processor time that a program needs for a file; its lines go to another.
fn seconds(program: &Path, input: &Path, output: &Path) -> f64 {
    let before = processor_seconds();
    let status = Command::new(program)
        .stdin(Stdio::from(File::open(input).expect("the input")))
        .stdout(Stdio::from(File::create(output).expect("the output")))
        .status()
        .unwrap_or_else(|why| panic!("{}: {why}", program.display()));
    assert!(status.success(), "{} failed", program.display());
    processor_seconds() - before
}

fn main() {
    let proved = PathBuf::from(env!("CARGO_MANIFEST_DIR")).join("../../target/bin/run_orders");
    let beside = |name: &str| std::env::current_exe().expect("this program").with_file_name(name);
    let programs = [proved, beside("fast_orders"), beside("sets_orders")];
    let folder = std::env::temp_dir().join(format!("orders_bench_{}", std::process::id()));
    fs::create_dir(&folder).expect("a folder");
    let input = folder.join("orders");
    let outputs = ["proved", "fast", "sets"].map(|name| folder.join(name));
    print_heading("nanoseconds of processor time an order");
    for (what, style) in [("small desk", Style::Dense), ("wide desk", Style::Wide), ("full book", Style::Spread)] {
        fs::write(&input, orders_file(&mut Random::new(1), style, 0, ORDERS)).expect("the orders");
        let mut best = [f64::MAX; 3];
        for _ in 0..TURNS {
            for ((best, program), output) in best.iter_mut().zip(&programs).zip(&outputs) {
                *best = best.min(seconds(program, &input, output));
            }
        }
        let lines = outputs.each_ref().map(|output| fs::read(output).expect("the lines"));
        assert!(lines[0] == lines[1] && lines[0] == lines[2], "{what}: the lines differ");
        print_ratios(what, best.map(|seconds| seconds * 1e9 / ORDERS as f64));
    }
    fs::remove_dir_all(&folder).expect("the folder");
}
