//! The program on input that comes in pieces, and with a reader that is slow: the lines are those of the whole at once.

use std::io::{PipeReader, Read};
use std::thread::sleep;
use std::time::Duration;

use desk_tests::calls::{pick, Style};
use desk_tests::lines::{output, ORDER_BYTES};
use desk_tests::program::{file, first_bytes, narrow_pipe, program, same, told, written_in_pieces, Run, BLOCK_BYTES};
use desk_tests::sessions::session;
use support::{Random, Seed};

const SEED: u64 = 0xDE5_4000;
const SESSIONS: u64 = 200;
/// Long enough that the program mostly reads a piece alone.
const PAUSE: Duration = Duration::from_micros(200);
const LONG_PAUSE: Duration = Duration::from_millis(20);

fn pieces(input: &[u8], size: usize) -> Vec<Vec<u8>> {
    input.chunks(size).map(<[u8]>::to_vec).collect()
}

#[test]
fn one_byte_at_a_time() {
    let (mut input, _) = told(SEED, Style::Wide, 300);
    input.extend([0x10; ORDER_BYTES - 1]);
    same(&written_in_pieces(pieces(&input, 1), PAUSE), &output(&input));
}

#[test]
fn pieces_of_every_size() {
    let (input, due) = told(SEED, Style::Dense, 100);
    for size in 2..=100 {
        println!("pieces of {size}");
        same(&written_in_pieces(pieces(&input, size), PAUSE), &due);
    }
}

#[test]
fn pieces_of_about_a_block() {
    let (input, due) = told(SEED, Style::Chain, 8_500);
    for size in [4_095, 4_096, 4_097, BLOCK_BYTES - 1, BLOCK_BYTES, BLOCK_BYTES + 1] {
        println!("pieces of {size}");
        same(&written_in_pieces(pieces(&input, size), LONG_PAUSE), &due);
    }
}

/// The input in pieces of any sizes, some of which are whole orders.
fn random_pieces(random: &mut Random, input: &[u8]) -> Vec<Vec<u8>> {
    let most = *pick(random, &[20, 100, 1_000]);
    let mut rest = input;
    let mut pieces = Vec::new();
    while !rest.is_empty() {
        let size = if random.once_in(4) { ORDER_BYTES } else { random.within(1, most) as usize };
        let (piece, behind) = rest.split_at(size.min(rest.len()));
        pieces.push(piece.to_vec());
        rest = behind;
    }
    pieces
}

#[test]
fn random_sessions_in_random_pieces() {
    for seed in SEED..SEED + SESSIONS {
        let _seed = Seed(seed);
        let input = session(seed);
        let pieces = random_pieces(&mut Random::new(seed), &input);
        same(&written_in_pieces(pieces, PAUSE), &output(&input));
    }
}

/// Each input comes in two pieces, cut near the end of the guard, of the first bytes, of the first order or of a block,
/// which may be counted from the first byte or from the first order.
#[test]
fn two_pieces_cut_at_a_border() {
    let (input, due) = told(SEED, Style::Chain, 8_300);
    let first = first_bytes(&input);
    let blocks = [BLOCK_BYTES, 2 * BLOCK_BYTES, first + BLOCK_BYTES, first + 2 * BLOCK_BYTES];
    for border in [2, first, first + ORDER_BYTES].into_iter().chain(blocks) {
        for behind in [-17, -16, -15, -1, 0, 1, 15, 16, 17] {
            let cut = border.saturating_add_signed(behind);
            println!("cut at {cut}");
            let pieces = vec![input[..cut].to_vec(), input[cut..].to_vec()];
            same(&written_in_pieces(pieces, LONG_PAUSE), &due);
        }
    }
}

/// Reads a few hundred bytes at a time and rests before each.
struct Slow(PipeReader);

impl Read for Slow {
    fn read(&mut self, buffer: &mut [u8]) -> std::io::Result<usize> {
        sleep(Duration::from_millis(1));
        let most = buffer.len().min(700);
        self.0.read(&mut buffer[..most])
    }
}

#[test]
fn a_slow_reader() {
    let (input, due) = told(SEED, Style::Chain, 12_500);
    let (reader, writer) = narrow_pipe();
    let run = Run::start(program(), file(&input), writer, Slow(reader));
    same(&run.end().well(), &due);
}

#[test]
fn a_slow_reader_of_input_in_pieces() {
    let (input, due) = told(SEED, Style::Chain, 8_300);
    let (reader, writer) = narrow_pipe();
    let mut run = Run::start(program(), std::process::Stdio::piped(), writer, Slow(reader));
    run.feed(pieces(&input, 1_000), PAUSE);
    same(&run.end().well(), &due);
}
