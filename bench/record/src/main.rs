//! Nanoseconds for each record, read and written by the proved library and by the independent Rust reader and writer, on
//! the same records in one run: orders of every kind, one in eight damaged.

use std::hint::black_box;

use record_tests::{plain, read_link, read_order, write_link, write_order, Link, OrderRecord};
use support::Random;
use timing::compare;

const RECORDS: usize = 100_000;

fn order(random: &mut Random) -> [u8; 16] {
    let (kind, number) = (random.within(1, 4) as u128, random.next() as u128 & 0x3FFF);
    let request = (random.next() as u128) << 46 | random.next() as u128 >> 18;
    let request = request & ((1 << 110) - 1);
    let bits = match kind {
        1 => 1 << 124 | number << 110 | request,
        2 => 2 << 124 | number << 110,
        3 => 3 << 124 | (request & 0x3FFF_FFFF) << 30,
        _ => 4 << 124 | request,
    };
    let damage = if random.once_in(8) { 1 << random.below(128) } else { 0u128 };
    (bits ^ damage).to_be_bytes()
}

fn main() {
    let mut random = Random::new(0x5EED);
    let orders: Vec<[u8; 16]> = (0..RECORDS).map(|_| order(&mut random)).collect();
    let links: Vec<[u8; 8]> = (0..RECORDS).map(|_| (random.next() & !((1 << 34) - 1)).to_be_bytes()).collect();
    // What is lent to the writer: what the bytes hold, or for damaged ones a form that is refused.
    let forms: Vec<OrderRecord> = orders.iter().map(|b| plain::read_order(b)).collect();
    let lent: Vec<Link> = links.iter().map(|b| plain::read_link(b).link).collect();
    let count = RECORDS as u32;
    compare("order record read", count, || each(&orders, |b| read_order(b)), || each(&orders, |b| plain_order(b)));
    compare("link record read", count, || each(&links, |b| read_link(b)), || each(&links, |b| plain_link(b)));
    compare(
        "order record written",
        count,
        || each(&forms, |f| write_order(black_box(&mut [0; 16]), f)),
        || each(&forms, |f| plain_write_order(black_box(&mut [0; 16]), f)),
    );
    compare(
        "link record written",
        count,
        || each(&lent, |l| write_link(black_box(&mut [0; 8]), l)),
        || each(&lent, |l| plain_write_link(black_box(&mut [0; 8]), l)),
    );
}

fn each<T, R>(records: &[T], work: impl Fn(&T) -> R) {
    for record in records {
        black_box(work(black_box(record)));
    }
}

// The independent reader and writer are called as the library is: through a call, and not inlined here.
#[inline(never)]
fn plain_order(bytes: &[u8]) -> record_tests::OrderRecord {
    plain::read_order(bytes)
}

#[inline(never)]
fn plain_link(bytes: &[u8]) -> record_tests::LinkRecord {
    plain::read_link(bytes)
}

#[inline(never)]
fn plain_write_order(bytes: &mut [u8], order: &OrderRecord) -> u32 {
    plain::write_order(bytes, order)
}

#[inline(never)]
fn plain_write_link(bytes: &mut [u8], link: &Link) -> u32 {
    plain::write_link(bytes, link)
}
