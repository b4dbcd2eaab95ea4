//! The exported writers against the independent ones, and round trips through writer and reader.

use std::fmt::Debug;

use record_tests::{plain, read_link, read_order, write_link, write_order, Link, LinkRecord, OrderRecord, Request};
use support::Random;

const SEED: u64 = 0x5EED_0101;
const ALL_ONES: u32 = (1 << 30) - 1;
const LAST_MINUTE: u32 = 1_000_000_000;

/// The figures of an order that can be written.
fn valid_order(random: &mut Random) -> OrderRecord {
    let mut bits = |width: u64| random.below(1 << width) as u32;
    let (number, from, to, bandwidth, duration) = (bits(14), bits(5), bits(5), bits(20), bits(20));
    let (earliest, latest) = (bits(30), bits(30).min(ALL_ONES - 1));
    let request = Request { from, to, bandwidth, duration, earliest, latest };
    let latest_open = random.once_in(3) as u32;
    let kind = random.within(1, 4) as u32;
    let order = OrderRecord { kind, ..OrderRecord::default() };
    match kind {
        1 => OrderRecord { number, request, latest_open, ..order },
        2 => OrderRecord { number, ..order },
        3 => OrderRecord { request: Request { earliest, ..Request::default() }, ..order },
        _ => OrderRecord { request, latest_open, ..order },
    }
}

/// As the reader hands it back: an open latest start is the last minute, and its flag is 1.
fn as_read(order: &OrderRecord) -> OrderRecord {
    let mut read = OrderRecord { refusal: 0, ..*order };
    if order.latest_open != 0 {
        read.latest_open = 1;
        read.request.latest = LAST_MINUTE;
    }
    read
}

type Writer<T> = fn(&mut [u8], &T) -> u32;

/// Writes a record over a piece of these bytes, by the library and by the independent writer, and compares number and
/// piece. Answers what was written, or the refusal.
fn written<T: Debug>(ours: Writer<T>, plain: Writer<T>, record: &T, piece: &[u8], what: &str) -> Result<Vec<u8>, u32> {
    let (mut bytes, mut expected) = (piece.to_vec(), piece.to_vec());
    let (refusal, number) = (ours(&mut bytes, record), plain(&mut expected, record));
    assert_eq!((refusal, &bytes), (number, &expected), "{what}: {record:?} over {piece:02x?}");
    if refusal == 0 {
        return Ok(bytes);
    }
    assert_eq!(bytes, piece, "a refused piece is changed, {what}: {record:?}");
    Err(refusal)
}

/// Writes an order, and reads it back; what was read is written again as the same bytes. Answers the refusal.
fn round_trip(order: &OrderRecord, piece: &[u8], what: &str) -> u32 {
    let bytes = match written(write_order, plain::write_order, order, piece, what) {
        Ok(bytes) => bytes,
        Err(refusal) => return refusal,
    };
    let read = read_order(&bytes);
    assert_eq!(read, as_read(order), "read after write, {what}");
    assert_eq!(
        written(write_order, plain::write_order, &read, &[0xA5; 16], what),
        Ok(bytes),
        "write after read, {what}"
    );
    0
}

fn link_round_trip(link: &Link, piece: &[u8], what: &str) -> u32 {
    let bytes = match written(write_link, plain::write_link, link, piece, what) {
        Ok(bytes) => bytes,
        Err(refusal) => return refusal,
    };
    let read = read_link(&bytes);
    assert_eq!(read, LinkRecord { refusal: 0, link: *link }, "read after write, {what}");
    assert_eq!(
        written(write_link, plain::write_link, &read.link, &[0xA5; 8], what),
        Ok(bytes),
        "write after read, {what}"
    );
    0
}

fn valid_link(random: &mut Random) -> Link {
    let mut bits = |width: u64| random.below(1 << width) as u32;
    Link { from: bits(5), to: bits(5), capacity: bits(20) }
}

/// What a figure is damaged to: each bit changed, one more, one less, and the ends of ranges.
fn damages(value: u32) -> impl Iterator<Item = u32> {
    let flips = (0..32).map(move |bit| value ^ 1 << bit);
    let near = [value.wrapping_add(1), value.wrapping_sub(1)];
    let ends =
        [0, 1, 3, 4, 5, 15, 16, 31, 32, 16383, 16384, 0xFFFFF, 0x10_0000, LAST_MINUTE, ALL_ONES, 1 << 30, u32::MAX];
    flips.chain(near).chain(ends)
}

fn random_piece(random: &mut Random) -> [u8; 16] {
    ((random.next() as u128) << 64 | random.next() as u128).to_be_bytes()
}

/// The nine figures that a caller lends, by place.
fn figure(order: &mut OrderRecord, place: usize) -> &mut u32 {
    let r = &mut order.request;
    match place {
        0 => &mut order.kind,
        1 => &mut order.number,
        2 => &mut r.from,
        3 => &mut r.to,
        4 => &mut r.bandwidth,
        5 => &mut r.duration,
        6 => &mut r.earliest,
        7 => &mut r.latest,
        _ => &mut order.latest_open,
    }
}

#[test]
fn the_session_s_first_order_and_link() {
    let request = Request { from: 0, to: 2, bandwidth: 4, duration: 10, earliest: 0, latest: 0 };
    let order = OrderRecord { refusal: 0, kind: 1, number: 7, request, latest_open: 1 };
    let mut piece = [0xFF; 16];
    assert_eq!(write_order(&mut piece, &order), 0);
    assert_eq!(piece, [0x10, 0x01, 0xC0, 0x20, 0x00, 0x04, 0x00, 0x00, 0xA0, 0x00, 0x00, 0x00, 0x3F, 0xFF, 0xFF, 0xFF]);
    let mut piece = [0xFF; 8];
    assert_eq!(write_link(&mut piece, &Link { from: 0, to: 1, capacity: 10 }), 0);
    assert_eq!(piece, [0x00, 0x40, 0x00, 0x28, 0x00, 0x00, 0x00, 0x00]);
}

#[test]
fn a_given_latest_start_of_all_ones_cannot_be_written() {
    let mut order = OrderRecord { kind: 4, ..OrderRecord::default() };
    for (latest, open, expected) in [(ALL_ONES, 0, 4), (ALL_ONES - 1, 0, 0), (ALL_ONES + 1, 0, 4), (ALL_ONES, 1, 0)] {
        order.request.latest = latest;
        order.latest_open = open;
        let what = format!("latest {latest}, open {open}");
        assert_eq!(round_trip(&order, &[0; 16], &what), expected, "{what}");
    }
}

#[test]
fn every_length_to_forty_and_a_guard_behind_the_piece() {
    let mut random = Random::new(SEED);
    for count in 0..=40 {
        for turn in 0..200 {
            let what = format!("seed {SEED:#x}, {count} bytes, turn {turn}");
            let order = valid_order(&mut random);
            let mut lent = [0u8; 48];
            lent.iter_mut().for_each(|b| *b = random.next() as u8);
            assert_eq!(round_trip(&order, &lent[..count], &what), if count == 16 { 0 } else { 12 }, "{what}");
            let mut bad = OrderRecord { kind: 5, ..order };
            bad.request.bandwidth = u32::MAX;
            assert_eq!(round_trip(&bad, &lent[..count], &what), if count == 16 { 11 } else { 12 }, "{what}");
            let link = valid_link(&mut random);
            assert_eq!(link_round_trip(&link, &lent[..count], &what), if count == 8 { 0 } else { 12 }, "{what}");
            let bad = Link { from: 40, ..link };
            assert_eq!(link_round_trip(&bad, &lent[..count], &what), if count == 8 { 4 } else { 12 }, "{what}");
            let before = lent;
            write_order(&mut lent[..count], &order);
            write_link(&mut lent[..count], &link);
            assert_eq!(lent[count..], before[count..], "a byte behind the piece is changed, {what}");
        }
    }
}

#[test]
fn every_single_figure_damaged() {
    let mut random = Random::new(SEED + 1);
    let mut by_refusal = [0u32; 13];
    for turn in 0..4_000 {
        let order = valid_order(&mut random);
        let piece = random_piece(&mut random);
        for place in 0..9 {
            let mut damaged = order;
            for value in damages(*figure(&mut damaged, place)) {
                *figure(&mut damaged, place) = value;
                let what = format!("seed {:#x}, turn {turn}, figure {place} as {value}", SEED + 1);
                by_refusal[round_trip(&damaged, &piece, &what) as usize] += 1;
            }
        }
    }
    println!("written {}, refused 4 {}, 11 {}", by_refusal[0], by_refusal[4], by_refusal[11]);
    assert!(by_refusal[0] > 200_000 && by_refusal[4] > 200_000 && by_refusal[11] > 200_000);
}

#[test]
fn every_single_figure_of_a_link_damaged() {
    let mut random = Random::new(SEED + 6);
    for turn in 0..4_000 {
        let Link { from, to, capacity } = valid_link(&mut random);
        let piece = random_piece(&mut random);
        let damaged = (damages(from).map(|from| Link { from, to, capacity }))
            .chain(damages(to).map(|to| Link { from, to, capacity }))
            .chain(damages(capacity).map(|capacity| Link { from, to, capacity }));
        for link in damaged {
            link_round_trip(&link, &piece[..8], &format!("seed {:#x}, turn {turn}", SEED + 6));
        }
    }
    let ends = [(31, 31, 0xFFFFF), (32, 31, 1), (31, 32, 1), (31, 31, 0x10_0000)];
    let refusals =
        ends.map(|(from, to, capacity)| link_round_trip(&Link { from, to, capacity }, &[0xA5; 8], "ends of ranges"));
    assert_eq!(refusals, [0, 4, 4, 4]);
}

#[test]
fn two_figures_damaged_get_the_first_number() {
    let mut random = Random::new(SEED + 2);
    let damage = [1, 5, 32, 16384, 1 << 20, ALL_ONES, 1 << 30, u32::MAX];
    for turn in 0..4_000 {
        let mut order = valid_order(&mut random);
        for _ in 0..2 {
            *figure(&mut order, random.below(9) as usize) = damage[random.below(8) as usize];
        }
        let piece = random_piece(&mut random);
        let count = if random.once_in(4) { random.below(16) as usize } else { 16 };
        round_trip(&order, &piece[..count], &format!("seed {:#x}, turn {turn}", SEED + 2));
    }
}

#[test]
fn every_bit_of_a_written_order_changed() {
    let mut random = Random::new(SEED + 3);
    for turn in 0..2_000 {
        let what = format!("seed {:#x}, turn {turn}", SEED + 3);
        let mut bytes = [0; 16];
        assert_eq!(write_order(&mut bytes, &valid_order(&mut random)), 0, "{what}");
        for bit in 0..128 {
            let mut damaged = bytes;
            damaged[bit / 8] ^= 0x80 >> (bit % 8);
            let read = read_order(&damaged);
            if read.refusal == 0 {
                let mut again = [0; 16];
                let what = format!("{what}, bit {bit}");
                assert_eq!((write_order(&mut again, &read), again), (0, damaged), "write after read, {what}: {read:?}");
            }
        }
    }
}

#[test]
fn three_hundred_thousand_round_trips() {
    let mut random = Random::new(SEED + 4);
    for turn in 0..300_000 {
        let what = format!("seed {:#x}, turn {turn}", SEED + 4);
        let order = valid_order(&mut random);
        let piece = random_piece(&mut random);
        assert_eq!(round_trip(&order, &piece, &what), 0, "{what}");
        let link = valid_link(&mut random);
        assert_eq!(link_round_trip(&link, &piece[..8], &what), 0, "{what}");
    }
}

#[test]
fn links_that_were_read_are_written_as_the_same_bytes() {
    let mut random = Random::new(SEED + 5);
    for turn in 0..200_000 {
        let bytes = (random.next() & !((1 << 34) - 1)).to_be_bytes();
        let LinkRecord { refusal, link } = read_link(&bytes);
        let mut again = [0xA5; 8];
        let written = write_link(&mut again, &link);
        assert_eq!((refusal, written, again), (0, 0, bytes), "seed {:#x}, turn {turn}", SEED + 5);
    }
}
