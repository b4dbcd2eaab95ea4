//! The program on a pipe that stays open: each line comes as soon as its bytes have come, and none before.

use desk_tests::calls::{guard, style, Style};
use desk_tests::lines::{link_bytes, output, ORDER_BYTES};
use desk_tests::program::{first_bytes, same, told, Run};
use desk_tests::sessions::orders_file;
use desk_tests::Link;
use support::{Random, Seed};

const SEED: u64 = 0xDE5_5000;
const SESSIONS: u64 = 40;
/// Less than a pipe holds.
const BURST_BYTES: u64 = 60_000;

/// A session that is being sent, and its lines.
struct Sent<'a> {
    run: Run,
    rest: &'a [u8],
    due: std::str::SplitInclusive<'a, char>,
}

impl<'a> Sent<'a> {
    fn new(input: &'a [u8], lines: &'a str) -> Sent<'a> {
        Sent { run: Run::piped(), rest: input, due: lines.split_inclusive('\n') }
    }

    /// Sends the next bytes, which end so many lines, and checks them.
    fn send(&mut self, bytes: usize, lines: usize) {
        let (piece, rest) = self.rest.split_at(bytes);
        self.rest = rest;
        self.run.send(piece);
        for _ in 0..lines {
            assert_eq!(self.run.line().as_deref(), self.due.next());
        }
    }

    /// Checks that no line comes without more bytes.
    fn is_silent(&self) {
        self.run.is_silent();
    }

    /// Ends the input, and checks what is then still due.
    fn close(mut self) {
        self.run.close();
        same(&self.run.end().well(), &self.due.collect::<String>());
    }
}

#[test]
fn an_order_alone_is_answered() {
    for seed in SEED..SEED + SESSIONS {
        let _seed = Seed(seed);
        let random = &mut Random::new(seed);
        let (style, guard) = (style(random), guard(random));
        let input = orders_file(random, style, guard, 30);
        let lines = output(&input);
        let mut sent = Sent::new(&input, &lines);
        sent.send(first_bytes(&input), 1);
        while !sent.rest.is_empty() {
            sent.send(ORDER_BYTES, 1);
        }
        sent.close();
    }
}

#[test]
fn the_desk_is_answered_with_its_last_byte() {
    let (input, lines) = told(SEED, Style::Wide, 1);
    let mut sent = Sent::new(&input, &lines);
    sent.is_silent();
    sent.send(1, 0);
    sent.is_silent();
    sent.send(1, 0);
    sent.is_silent();
    sent.send(first_bytes(&input) - 3, 0);
    sent.is_silent();
    sent.send(1, 1);
    sent.is_silent();
    sent.send(ORDER_BYTES, 1);
    sent.close();
}

#[test]
fn fifteen_bytes_are_not_answered() {
    let (input, lines) = told(SEED, Style::Dense, 5);
    let mut sent = Sent::new(&input, &lines);
    sent.send(first_bytes(&input), 1);
    for _ in 0..4 {
        sent.send(ORDER_BYTES - 1, 0);
        sent.is_silent();
        sent.send(1, 1);
    }
    sent.send(1, 0);
    sent.is_silent();
    sent.send(ORDER_BYTES - 2, 0);
    sent.is_silent();
    sent.send(1, 1);
    sent.close();
}

#[test]
fn two_and_a_half_orders_are_two_lines() {
    let (input, lines) = told(SEED, Style::Chain, 8);
    let half = ORDER_BYTES / 2;
    let mut sent = Sent::new(&input, &lines);
    sent.send(first_bytes(&input) + half, 1);
    sent.is_silent();
    sent.send(2 * ORDER_BYTES, 2);
    sent.is_silent();
    sent.send(half, 1);
    sent.send(2 * ORDER_BYTES + half, 2);
    sent.is_silent();
    sent.send(2 * ORDER_BYTES + half, 3);
    sent.is_silent();
    sent.close();
}

/// The first bytes, a piece of an order, and then the end: `refused 12` is the answer to the end.
#[test]
fn a_cut_order_is_answered_at_the_end() {
    for more in [1, ORDER_BYTES - 1] {
        let (mut input, _) = told(SEED, Style::Dense, 1);
        input.truncate(first_bytes(&input) + more);
        let lines = output(&input);
        let mut sent = Sent::new(&input, &lines);
        sent.send(input.len(), 1);
        sent.is_silent();
        sent.close();
    }
}

/// The lines of an input of any pieces come with the piece that ends their orders.
#[test]
fn pieces_of_any_size_are_answered() {
    for seed in SEED..SEED + SESSIONS {
        let _seed = Seed(seed);
        let random = &mut Random::new(seed);
        let (style, guard, orders) = (style(random), guard(random), random.within(20, 200));
        let input = orders_file(random, style, guard, orders);
        let lines = output(&input);
        in_pieces_to(80, random, &input, &lines);
    }
}

#[test]
fn bursts_over_blocks_are_answered() {
    let (input, lines) = told(SEED, Style::Dense, 20_000);
    for seed in SEED..SEED + 4 {
        let _seed = Seed(seed);
        in_pieces_to(BURST_BYTES, &mut Random::new(seed), &input, &lines);
    }
}

/// Sends the input in pieces of up to so many bytes, and waits for the lines of each.
fn in_pieces_to(most: u64, random: &mut Random, input: &[u8], lines: &str) {
    let due = |bytes: usize| match bytes.checked_sub(first_bytes(input)) {
        Some(orders) => 1 + orders / ORDER_BYTES,
        None => 0,
    };
    let mut sent = Sent::new(input, lines);
    while !sent.rest.is_empty() {
        let size = sent.rest.len().min(random.within(1, most) as usize);
        let came = input.len() - sent.rest.len();
        sent.send(size, due(came + size) - due(came));
    }
    sent.close();
}

/// Checks the desk's refusal of these bytes on an open pipe, and that the program ends.
fn refused(bytes: &[u8], refusal: u32) {
    let mut run = Run::piped();
    run.send(bytes);
    assert_eq!(run.end().well(), format!("desk refused {refusal}\n"), "{bytes:?}");
}

/// The program waits for nothing behind such a count, not for the guard either.
#[test]
fn a_refused_count_ends_the_program() {
    for count in [0, 65, 255] {
        refused(&[count], 1);
    }
}

#[test]
fn a_refused_link_ends_the_program() {
    let link = link_bytes(&Link { from: 0, to: 1, capacity: 10 });
    let same_ends = link_bytes(&Link { from: 1, to: 1, capacity: 10 });
    let mut more = link;
    more[7] = 1;
    refused(&[&[2, 0][..], &link, &same_ends].concat(), 2);
    refused(&[&[2, 0][..], &link, &more].concat(), 11);

    // A bad link is refused only behind all links.
    let mut run = Run::piped();
    run.send(&[&[2, 0][..], &more].concat());
    run.is_silent();
    run.send(&link);
    assert_eq!(run.end().well(), "desk refused 11\n");
}

/// A guard that is too long is refused only behind all links, and after their records.
#[test]
fn a_refused_guard_ends_the_program() {
    let link = link_bytes(&Link { from: 0, to: 1, capacity: 10 });
    let mut more = link;
    more[7] = 1;
    for (last, refusal) in [(link, 4), (more, 11)] {
        let mut run = Run::piped();
        run.send(&[2, 16]);
        run.is_silent();
        run.send(&link);
        run.is_silent();
        run.send(&last);
        assert_eq!(run.end().well(), format!("desk refused {refusal}\n"));
    }
}

/// A file that ends behind its count has no guard.
#[test]
fn a_missing_guard_is_refused_at_the_end() {
    for count in [1, 64] {
        let mut run = Run::piped();
        run.send(&[count]);
        run.is_silent();
        run.close();
        assert_eq!(run.end().well(), "desk refused 12\n", "{count} links");
    }
}
