//! The exported writer against the independent one, and against the session of document 01.

use report_tests::{plain_line, write_kind, write_line, Report, MAX_LINE, NO_KIND, PATH_LINKS};
use support::Random;

const SEED: u64 = 0x5EED_0007;
const LINES: u32 = 200_000;

/// A number of any size up to 64 bits, small ones as often as large ones.
fn number(random: &mut Random) -> u64 {
    match random.below(4) {
        0 => random.below(100),
        1 => 10u64.pow(random.below(20) as u32) - random.below(2),
        2 => random.next(),
        _ => random.next() >> random.below(64),
    }
}

fn figure(random: &mut Random) -> u32 {
    (number(random) % (1 << 32)) as u32
}

fn report(random: &mut Random) -> Report {
    match random.below(8) {
        0 => Report::DeskLinks(figure(random)),
        1 => Report::DeskRefused(figure(random)),
        2 => Report::Booked(figure(random), figure(random)),
        3 => Report::Offered(figure(random)),
        4 => Report::Cancelled(figure(random)),
        5 => Report::Clock(figure(random)),
        6 => Report::RefusedAt(figure(random), figure(random)),
        _ => Report::Refused(figure(random)),
    }
}

fn path(random: &mut Random) -> Vec<u32> {
    let count = random.below(PATH_LINKS as u64 + 1);
    (0..count).map(|_| if random.once_in(3) { figure(random) } else { random.below(64) as u32 }).collect()
}

/// The line stands where it was asked for, and no other byte of the buffer changed.
fn same_line(out: &mut [u8], at: usize, place: u64, report: Report, links: &[u32]) {
    let before = out.to_vec();
    let next = write_line(out, at, place, report, links);
    let plain = plain_line(place, report, links);
    assert_eq!(next, at + plain.len(), "the index behind {plain:?}");
    assert_eq!(&out[at..next], plain.as_bytes(), "{:?}, expected {plain:?}", String::from_utf8_lossy(&out[at..next]));
    assert_eq!(out[..at], before[..at], "a byte before {plain:?}");
    assert_eq!(out[next..], before[next..], "a byte behind {plain:?}");
}

#[test]
fn session_of_document_01() {
    let lines: [(u64, Report, &[u32]); 9] = [
        (0, Report::DeskLinks(3), &[]),
        (1, Report::Booked(7, 0), &[2]),
        (2, Report::Booked(9, 0), &[0, 1]),
        (3, Report::RefusedAt(8, 2), &[]),
        (4, Report::Booked(3, 5), &[0, 1]),
        (5, Report::Cancelled(9), &[]),
        (6, Report::Offered(0), &[0, 1]),
        (7, Report::Clock(10), &[]),
        (8, Report::Refused(9), &[]),
    ];
    let mut out = vec![0; 9 * MAX_LINE];
    let mut next = 0;
    for (place, report, links) in lines {
        next = write_line(&mut out, next, place, report, links);
    }
    let expected = "desk links 3\n1 booked 7 start 0 links 2\n2 booked 9 start 0 links 0 1\n3 refused 8 at 2\n\
        4 booked 3 start 5 links 0 1\n5 cancelled 9\n6 offer start 0 links 0 1\n7 clock 10\n8 refused 9\n";
    assert_eq!(String::from_utf8_lossy(&out[..next]), expected);
}

/// A minute is printed beside any number, 0 and the largest too.
#[test]
fn refusals_with_a_minute() {
    let mut out = vec![0; MAX_LINE];
    for number in [0, 1, 8, 15, u32::MAX] {
        for minute in [0, 1, 9, 10, 1_000_525_614, u32::MAX] {
            same_line(&mut out, 0, 7, Report::RefusedAt(number, minute), &[]);
            same_line(&mut out, 0, u64::MAX, Report::RefusedAt(number, minute), &[u32::MAX; PATH_LINKS]);
        }
    }
    let next = write_line(&mut out, 0, 12, Report::RefusedAt(8, 0), &[3]);
    assert_eq!(&out[..next], b"12 refused 8 at 0\n");
    let next = write_line(&mut out, 0, 12, Report::RefusedAt(8, u32::MAX), &[]);
    assert_eq!(&out[..next], b"12 refused 8 at 4294967295\n");
}

/// A number that is no kind is a refusal with no minute beside it.
#[test]
fn numbers_that_are_no_kind() {
    let mut out = vec![0; MAX_LINE];
    for kind in [NO_KIND, NO_KIND + 1, 255, 256, 1 << 31, u32::MAX] {
        for minute in [0, 2, u32::MAX] {
            let next = write_kind(&mut out, 0, 3, (kind, 8, minute), &[1, 2]);
            assert_eq!(&out[..next], b"3 refused 8\n", "kind {kind}, minute {minute}");
        }
    }
}

#[test]
fn random_lines() {
    let mut random = Random::new(SEED);
    let mut out = vec![0; 2 * MAX_LINE];
    for byte in out.iter_mut() {
        *byte = random.next() as u8;
    }
    for _ in 0..LINES {
        let at = random.within(0, MAX_LINE as u64) as usize;
        let (place, report, links) = (number(&mut random), report(&mut random), path(&mut random));
        same_line(&mut out, at, place, report, &links);
    }
}

#[test]
fn longest_line_fills_the_room() {
    let links = [u32::MAX; PATH_LINKS];
    let mut out = [b'.'; MAX_LINE];
    same_line(&mut out, 0, u64::MAX, Report::Booked(u32::MAX, u32::MAX), &links);
    assert_eq!(plain_line(u64::MAX, Report::Booked(u32::MAX, u32::MAX), &links).len(), MAX_LINE);
}

#[test]
fn nothing_is_written_without_room() {
    let mut out = [b'.'; MAX_LINE + 3];
    for (at, size, count) in [
        (0, MAX_LINE - 1, 0),
        (1, MAX_LINE, 0),
        (4, MAX_LINE + 3, 0),
        (0, 0, 0),
        (usize::MAX, MAX_LINE, 0),
        (usize::MAX - MAX_LINE + 1, MAX_LINE + 3, 0),
        (0, MAX_LINE, PATH_LINKS + 1),
    ] {
        let links = vec![1; count];
        assert_eq!(write_line(&mut out[..size], at, 1, Report::Offered(0), &links), at);
        assert!(out.iter().all(|byte| *byte == b'.'), "at {at} of {size} with {count} links");
    }
    assert_eq!(write_line(&mut out, 3, 1, Report::Refused(8), &[]), 15);
}
