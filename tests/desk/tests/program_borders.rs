//! The program on files and pipes that end near the borders of its blocks.

use std::sync::LazyLock;

use desk_tests::calls::Style;
use desk_tests::lines::ORDER_BYTES;
use desk_tests::program::{
    content, file, first_bytes, overflows, program, same, told, written, written_from_file, Run,
};

const SEED: u64 = 0xDE5_3000;
/// Orders of the inputs. A block has 4,096.
const ORDERS: [usize; 6] = [4_095, 4_096, 4_097, 8_192, 12_500, 100_000];
/// Bytes of one more order, at the end of an input.
const MORE: [usize; 3] = [0, 1, 15];

/// A session of more orders than any of the inputs has, and its lines.
static SESSION: LazyLock<(Vec<u8>, String)> = LazyLock::new(|| told(SEED, Style::Chain, 100_001));

/// The input of the session up to so many orders and some bytes of the next, and its lines.
fn cut(orders: usize, more: usize) -> (&'static [u8], String) {
    let (input, lines) = &*SESSION;
    let size = first_bytes(input) + orders * ORDER_BYTES + more;
    let mut due: String = lines.split_inclusive('\n').take(1 + orders).collect();
    if 0 < more {
        due += &format!("{} refused 12\n", orders + 1);
    }
    (&input[..size], due)
}

/// Compares what is written for each input.
fn compare(written: fn(&[u8]) -> String) {
    for orders in ORDERS {
        for more in MORE {
            println!("{orders} orders and {more} bytes");
            let (input, due) = cut(orders, more);
            assert!(overflows(&due), "no block's lines overflow their buffer");
            same(&written(input), &due);
        }
    }
}

#[test]
fn files_that_end_at_borders() {
    compare(written_from_file);
}

#[test]
fn pipes_that_end_at_borders() {
    compare(written);
}

#[test]
fn a_file_to_a_file() {
    let (input, due) = cut(100_000, 15);
    let output = file(b"");
    let stdout = output.try_clone().expect("the same file");
    assert_eq!(Run::start(program(), file(input), stdout, std::io::empty()).end().well(), "");
    same(&content(output), &due);
}
