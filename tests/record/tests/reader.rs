//! The exported readers against the independent one, and against the examples of document 01.

use record_tests::{plain, read_link, read_order, Link, LinkRecord, OrderRecord, Request};
use support::Random;

const SEED: u64 = 0x5EED_0001;

/// The bytes of an order with these fields, each cut to its width.
fn order_bytes(
    kind: u64,
    number: u64,
    ends: (u64, u64),
    bandwidth: u64,
    duration: u64,
    window: (u64, u64),
) -> [u8; 16] {
    let mut bits: u128 = 0;
    let fields = [
        (kind, 4),
        (number, 14),
        (ends.0, 5),
        (ends.1, 5),
        (bandwidth, 20),
        (duration, 20),
        (window.0, 30),
        (window.1, 30),
    ];
    for (value, width) in fields {
        bits = bits << width | (value as u128 & ((1 << width) - 1));
    }
    bits.to_be_bytes()
}

/// A random order of kind 1 to 4 whose unused fields are zero.
fn valid_order(random: &mut Random) -> [u8; 16] {
    let kind = random.within(1, 4);
    let number = random.next();
    let ends = (random.next(), random.next());
    let (bandwidth, duration, earliest) = (random.next(), random.next(), random.next());
    let latest = match random.below(4) {
        0 => (1 << 30) - 1,
        1 => 1_000_000_000,
        _ => random.next(),
    };
    match kind {
        1 => order_bytes(1, number, ends, bandwidth, duration, (earliest, latest)),
        2 => order_bytes(2, number, (0, 0), 0, 0, (0, 0)),
        3 => order_bytes(3, 0, (0, 0), 0, 0, (earliest, 0)),
        _ => order_bytes(4, 0, ends, bandwidth, duration, (earliest, latest)),
    }
}

fn valid_link(random: &mut Random) -> [u8; 8] {
    (random.next() & !((1 << 34) - 1)).to_be_bytes()
}

fn same_order(bytes: &[u8], what: &str) {
    let (ours, plain) = (read_order(bytes), plain::read_order(bytes));
    assert_eq!(ours, plain, "order, {what}: bytes {bytes:02x?}");
    if ours.refusal != 0 {
        assert_eq!(
            ours,
            OrderRecord { refusal: ours.refusal, ..OrderRecord::default() },
            "a refusal leaks a field, {what}"
        );
    }
}

fn same_link(bytes: &[u8], what: &str) {
    let (ours, plain) = (read_link(bytes), plain::read_link(bytes));
    assert_eq!(ours, plain, "link, {what}: bytes {bytes:02x?}");
    if ours.refusal != 0 {
        assert_eq!(
            ours,
            LinkRecord { refusal: ours.refusal, ..LinkRecord::default() },
            "a refusal leaks a field, {what}"
        );
    }
}

#[test]
fn the_session_s_first_order() {
    let bytes = [0x10, 0x01, 0xC0, 0x20, 0x00, 0x04, 0x00, 0x00, 0xA0, 0x00, 0x00, 0x00, 0x3F, 0xFF, 0xFF, 0xFF];
    let request = Request { from: 0, to: 2, bandwidth: 4, duration: 10, earliest: 0, latest: 1_000_000_000 };
    assert_eq!(read_order(&bytes), OrderRecord { refusal: 0, kind: 1, number: 7, request, latest_open: 1 });
}

#[test]
fn the_session_s_first_link() {
    let bytes = [0x00, 0x40, 0x00, 0x28, 0x00, 0x00, 0x00, 0x00];
    assert_eq!(read_link(&bytes), LinkRecord { refusal: 0, link: Link { from: 0, to: 1, capacity: 10 } });
}

#[test]
fn an_open_latest_start_and_the_last_minute_stay_apart() {
    let open = read_order(&order_bytes(4, 0, (0, 2), 4, 10, (0, (1 << 30) - 1)));
    let last = read_order(&order_bytes(4, 0, (0, 2), 4, 10, (0, 1_000_000_000)));
    assert_eq!((open.request.latest, open.latest_open), (1_000_000_000, 1));
    assert_eq!((last.request.latest, last.latest_open), (1_000_000_000, 0));
}

#[test]
fn every_kind_of_four_bits() {
    for kind in 0..16 {
        let known = (1..=4).contains(&kind);
        let zero = read_order(&order_bytes(kind, 0, (0, 0), 0, 0, (0, 0)));
        assert_eq!(zero.refusal, if known { 0 } else { 11 }, "kind {kind}, all other fields zero");
        same_order(&order_bytes(kind, 1, (2, 3), 4, 5, (6, 7)), &format!("kind {kind}, all fields set"));
    }
}

#[test]
fn a_wrong_length_comes_before_a_wrong_bit() {
    let bad = [0xFF; 40];
    for count in 0..=40 {
        assert_eq!(read_order(&bad[..count]).refusal, if count == 16 { 11 } else { 12 }, "{count} bytes of an order");
        assert_eq!(read_link(&bad[..count]).refusal, if count == 8 { 11 } else { 12 }, "{count} bytes of a link");
    }
}

#[test]
fn every_length_to_forty() {
    let mut random = Random::new(SEED);
    for count in 0..=40 {
        for turn in 0..200 {
            let mut bytes = vec![0u8; count];
            let order = valid_order(&mut random);
            for (i, b) in bytes.iter_mut().enumerate() {
                *b = if turn % 2 == 0 { order[i % 16] } else { random.next() as u8 };
            }
            same_order(&bytes, &format!("seed {SEED:#x}, {count} bytes, turn {turn}"));
            same_link(&bytes, &format!("seed {SEED:#x}, {count} bytes, turn {turn}"));
        }
    }
}

#[test]
fn every_bit_of_valid_records_changed() {
    let mut random = Random::new(SEED + 1);
    for turn in 0..400 {
        let order = valid_order(&mut random);
        same_order(&order, &format!("seed {:#x}, turn {turn}", SEED + 1));
        for bit in 0..128 {
            let mut bytes = order;
            bytes[bit / 8] ^= 0x80 >> (bit % 8);
            same_order(&bytes, &format!("seed {:#x}, turn {turn}, bit {bit} changed", SEED + 1));
        }
        let link = valid_link(&mut random);
        same_link(&link, &format!("seed {:#x}, turn {turn}", SEED + 1));
        for bit in 0..64 {
            let mut bytes = link;
            bytes[bit / 8] ^= 0x80 >> (bit % 8);
            same_link(&bytes, &format!("seed {:#x}, turn {turn}, bit {bit} changed", SEED + 1));
        }
    }
}

#[test]
fn two_hundred_thousand_random_records() {
    let mut random = Random::new(SEED + 2);
    let (mut read, mut refused) = (0u32, 0u32);
    for turn in 0..200_000 {
        let what = format!("seed {:#x}, turn {turn}", SEED + 2);
        let mut order = valid_order(&mut random);
        match random.below(3) {
            0 => order[random.below(16) as usize] = random.next() as u8,
            1 => order = ((random.next() as u128) << 64 | random.next() as u128).to_be_bytes(),
            _ => {}
        }
        same_order(&order, &what);
        if read_order(&order).refusal == 0 {
            read += 1;
        } else {
            refused += 1;
        }
        let mut link = valid_link(&mut random);
        if random.once_in(3) {
            link = random.next().to_be_bytes();
        }
        same_link(&link, &what);
    }
    assert!(read > 50_000 && refused > 50_000, "read {read}, refused {refused}");
}
