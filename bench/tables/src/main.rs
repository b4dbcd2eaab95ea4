//! Nanoseconds for putting an event in and for taking bandwidth on tables of 129 rows of 64 links, by the proved library and
//! by plain Rust, on the same tables in one run.

use std::cell::RefCell;
use std::hint::black_box;
use std::time::Instant;

use support::Random;
use tables_tests::{arrays, Tables, EVENTS, LINKS};
use timing::compare;

const CAPACITY: u32 = 1_000_000;
const COPIES: usize = 16;
const ROUNDS: usize = 100;

/// Tables of 64 links with an event every ten minutes from 0 on.
fn tables(events: usize, random: &mut Random) -> Tables {
    let mut tables = Tables::filled(0);
    tables.reset(0, &[CAPACITY; LINKS]);
    for i in 1..events as u32 {
        tables.insert_event(10 * i);
    }
    for figure in tables.free[..events * LINKS].iter_mut() {
        *figure -= random.below(1000) as u32;
    }
    tables
}

/// Times insertions into copies that are made before the clock runs. Prints as `timing::compare` does.
fn compare_insertion(what: &str, table: &Tables, minutes: &[u32; COPIES]) {
    let least = |insert: &dyn Fn(&mut Tables, u32)| {
        let mut copies = vec![table.clone(); COPIES];
        let start = Instant::now();
        for (copy, &minute) in copies.iter_mut().zip(minutes) {
            insert(black_box(copy), black_box(minute));
        }
        start.elapsed().as_nanos() as f64 / COPIES as f64
    };
    let (mut ours, mut plain) = (f64::MAX, f64::MAX);
    for _ in 0..2000 {
        ours = ours.min(least(&|copy, minute| copy.insert_event(minute)));
        plain = plain.min(least(&|copy, minute| plain_insert(copy, minute)));
    }
    println!("{what}: proved {ours:.2} ns, plain Rust {plain:.2} ns, ratio {:.2}", ours / plain);
}

fn main() {
    let random = &mut Random::new(0x5EED);
    let nearly_full = tables(EVENTS - 1, random);
    compare_insertion("insertion behind the first row", &nearly_full, &[5; COPIES]);
    let spread = std::array::from_fn(|i| (10 * (i * (EVENTS - 1) / COPIES) + 5) as u32);
    compare_insertion("insertion at any row", &nearly_full, &spread);

    // Both take from the same tables, at several places in memory.
    let full = tables(EVENTS, random);
    let tables = RefCell::new(vec![full; COPIES]);
    let end = 10 * (EVENTS as u32 - 1);
    let all = |take: fn(&mut Tables, u32, u32)| {
        for table in tables.borrow_mut().iter_mut() {
            for i in 0..ROUNDS * LINKS {
                take(black_box(table), end, black_box((i % LINKS) as u32));
            }
        }
    };
    compare(
        "taking over 128 rows",
        (COPIES * ROUNDS * LINKS) as u32,
        || all(|table, end, link| table.take_bandwidth(0, end, link, 1)),
        || all(|table, end, link| plain_take(table, 0, end, link, 1)),
    );
}

// The plain versions are called as the library is: through a call, and not inlined here.
#[inline(never)]
fn plain_insert(tables: &mut Tables, minute: u32) {
    arrays::insert_event(tables, minute);
}

#[inline(never)]
fn plain_take(tables: &mut Tables, start: u32, end: u32, link: u32, bandwidth: u32) {
    arrays::take_bandwidth(tables, start, end, link, bandwidth);
}
