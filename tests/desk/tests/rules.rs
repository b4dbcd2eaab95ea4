//! The independent desk against cases worked out by hand, its records and lines against document 01's, and the samples.

use desk_tests::cases::cases;
use desk_tests::lines::{link_bytes, opening, order_bytes, output, read_link, read_order};
use desk_tests::plain::{Answer, Call, Desk};
use desk_tests::tables;
use desk_tests::{Head, Link, Refused, Request};
use support::Random;

const SESSION: &str = "desk links 3
1 booked 7 start 0 links 2
2 booked 9 start 0 links 0 1
3 refused 8 at 2
4 booked 3 start 5 links 0 1
5 cancelled 9
6 offer start 0 links 0 1
7 clock 10
8 refused 9
";

fn sample(name: &str) -> Vec<u8> {
    let path = format!("{}/../../samples/{name}", env!("CARGO_MANIFEST_DIR"));
    std::fs::read(&path).unwrap_or_else(|error| panic!("{path}: {error}"))
}

#[test]
fn cases_by_hand() {
    for case in cases() {
        let mut desk = Desk::set_up(&case.links, case.guard).expect("a valid net and guard");
        for (place, (call, answer)) in case.steps.iter().enumerate() {
            let before = desk.clone();
            assert_eq!(desk.answer(call), *answer, "{}, step {place}: {call:?}", case.name);
            let unchanged = matches!(
                answer,
                Answer::Refused(_) | Answer::Offered(_) | Answer::Listed(_) | Answer::Shown(_) | Answer::Sold(_)
            );
            assert!(!unchanged || desk == before, "{}, step {place}: {call:?} changes the desk", case.name);
        }
    }
}

#[test]
fn the_session_s_lines() {
    let session = sample("session.orders");
    assert_eq!(output(&session), SESSION);
    let (desk, _) = opening(&session).expect("a valid head");
    assert_eq!(link_bytes(&desk.links[0]), [0x00, 0x40, 0x00, 0x28, 0, 0, 0, 0]);
    assert_eq!(desk.guard, 0);
    let first = Request { from: 0, to: 2, bandwidth: 4, duration: 10, earliest: 0, latest: 1_000_000_000 };
    assert_eq!(read_order(&session[26..42]), Ok(Call::Book(7, first)));
    let bytes = [0x10, 0x01, 0xC0, 0x20, 0x00, 0x04, 0x00, 0x00, 0xA0, 0x00, 0x00, 0x00, 0x3F, 0xFF, 0xFF, 0xFF];
    assert_eq!(session[26..42], bytes);
}

#[test]
fn the_session_as_values_gives_the_same_bytes() {
    let case = &cases()[0];
    let mut bytes = vec![case.links.len() as u8, case.guard as u8];
    case.links.iter().for_each(|link| bytes.extend(link_bytes(link)));
    for (call, _) in &case.steps {
        let mut call = call.clone();
        if let Call::Book(_, Request { latest, .. }) = &mut call {
            if *latest == 1_000_000_000 {
                *latest = desk_tests::lines::OPEN;
            }
        }
        bytes.extend(order_bytes(&call));
    }
    assert_eq!(bytes, sample("session.orders"));
}

#[test]
fn the_samples_lines() {
    for name in ["session", "busy_day", "full_book", "damaged", "guarded_day"] {
        let expected = String::from_utf8(sample(&format!("{name}.expected"))).expect("a text");
        assert_eq!(output(&sample(&format!("{name}.orders"))), expected, "{name}");
    }
}

#[test]
fn heads() {
    let good = [0x00, 0x40, 0x00, 0x28, 0, 0, 0, 0];
    let spoiled = [0x00, 0x40, 0x00, 0x28, 0, 0, 0, 1];
    let no_capacity = [0x00, 0x40, 0x00, 0x00, 0, 0, 0, 0];
    let equal_ends = [0x08, 0x40, 0x00, 0x28, 0, 0, 0, 0];
    let too_much = [0x00, 0x7D, 0x09, 0x04, 0, 0, 0, 0]; // 1,000,001 Mb/s
    let guarded = |guard: u8, count: u8, links: &[[u8; 8]]| [&[count, guard], links.concat().as_slice()].concat();
    let head = |count: u8, links: &[[u8; 8]]| guarded(0, count, links);
    let cases: [(&str, Vec<u8>, &str); 27] = [
        ("empty input", vec![], "desk refused 12\n"),
        ("no link", vec![0], "desk refused 1\n"),
        ("65 links, too few bytes", head(65, &[good]), "desk refused 1\n"),
        ("65 links", head(65, &[good; 65]), "desk refused 1\n"),
        ("64 links", head(64, &[good; 64]), "desk links 64\n"),
        ("64 links, too few bytes", head(64, &[good; 63]), "desk refused 12\n"),
        ("a count alone", vec![1], "desk refused 12\n"),
        ("65 links come before no guard", vec![65], "desk refused 1\n"),
        ("65 links come before a guard of 16", vec![65, 16], "desk refused 1\n"),
        ("a count and a guard alone", vec![1, 0], "desk refused 12\n"),
        ("a count and a guard of 16 alone", vec![1, 16], "desk refused 12\n"),
        ("too few bytes come before a guard of 16", guarded(16, 2, &[good]), "desk refused 12\n"),
        ("a bad record comes before a guard of 16", guarded(16, 2, &[good, spoiled]), "desk refused 11\n"),
        ("a guard of 16", guarded(16, 1, &[good]), "desk refused 4\n"),
        ("a guard of 255", guarded(255, 1, &[good]), "desk refused 4\n"),
        ("a guard of 16 comes before a bad link", guarded(16, 1, &[equal_ends]), "desk refused 4\n"),
        ("a guard of 16 with an order behind", [guarded(16, 1, &[good]), vec![0; 16]].concat(), "desk refused 4\n"),
        ("a guard of 15 and a bad link", guarded(15, 1, &[no_capacity]), "desk refused 2\n"),
        ("a guard of 15", guarded(15, 64, &[good; 64]), "desk links 64\n"),
        ("a guard of 15, one byte behind", [guarded(15, 1, &[good]), vec![0]].concat(), "desk links 1\n1 refused 12\n"),
        ("too few bytes come before a bad record", head(2, &[spoiled]), "desk refused 12\n"),
        ("a bad record comes before a bad link", head(2, &[no_capacity, spoiled]), "desk refused 11\n"),
        ("no capacity", head(1, &[no_capacity]), "desk refused 2\n"),
        ("equal ends", head(2, &[good, equal_ends]), "desk refused 2\n"),
        ("too much capacity", head(1, &[too_much]), "desk refused 2\n"),
        ("one link, one byte behind", [head(1, &[good]), vec![0]].concat(), "desk links 1\n1 refused 12\n"),
        ("one link, no order", head(1, &[good]), "desk links 1\n"),
    ];
    for (what, input, expected) in cases {
        assert_eq!(output(&input), expected, "{what}");
    }
}

#[test]
fn records_are_read_as_they_are_written() {
    let seed = 0x0DE5_0001;
    let mut random = Random::new(seed);
    for turn in 0..20_000 {
        let mut bytes = random.next().to_be_bytes();
        bytes[3] &= 0xFC;
        bytes[4..].fill(0);
        let link = read_link(&bytes).expect("a valid link record");
        assert_eq!(link_bytes(&link), bytes, "seed {seed:#x}, turn {turn}");
        let order = ((random.next() as u128) << 64 | random.next() as u128).to_be_bytes();
        if let Ok(call) = read_order(&order) {
            assert!(
                order[0] >> 4 == 1 || order[0] >> 4 == 4 || order_bytes(&call) == order,
                "seed {seed:#x}, turn {turn}"
            );
        }
        for bit in 30..64 {
            let mut spoiled = bytes;
            spoiled[bit / 8] ^= 0x80 >> (bit % 8);
            assert_eq!(read_link(&spoiled), Err(11), "seed {seed:#x}, turn {turn}, bit {bit}");
        }
    }
}

#[test]
fn unused_bits_and_kinds() {
    let set = |kind: u8, bit: usize| {
        let mut order = [0; 16];
        order[0] = kind << 4;
        order[bit / 8] |= 0x80 >> (bit % 8);
        read_order(&order).err()
    };
    for bit in 4..128 {
        let (number, earliest) = ((4..18).contains(&bit), (68..98).contains(&bit));
        assert_eq!(set(1, bit), None, "a booking uses bit {bit}");
        assert_eq!(set(2, bit), (!number).then_some(11), "bit {bit} of a cancellation");
        assert_eq!(set(3, bit), (!earliest).then_some(11), "bit {bit} of a clock move");
        assert_eq!(set(4, bit), number.then_some(11), "bit {bit} of an offer");
        for kind in (0..16).filter(|kind| !(1..=4).contains(kind)) {
            assert_eq!(set(kind, bit), Some(11), "kind {kind}");
        }
    }
    for count in (0..40).filter(|&count| count != 16) {
        assert_eq!(read_order(&[0xFF; 40][..count]), Err(12), "{count} bytes");
    }
}

/// The session's tables after its fourth order, figure by figure.
#[test]
fn the_session_s_tables() {
    let case = &cases()[0];
    let mut desk = Desk::set_up(&case.links, case.guard).expect("a valid net and guard");
    case.steps[..4].iter().for_each(|(call, _)| {
        desk.answer(call);
    });
    let tables = tables::of(&desk);
    assert_eq!(tables.head, Head { clock: 0, links: 3, bookings: 3, guard: 0 });
    assert_eq!(tables.events[..5], [0, 5, 9, 10, 0]);
    let rows = [[4, 4, 0, 0], [5, 5, 0, 0], [10, 10, 0, 0], [10, 10, 4, 0], [0, 0, 0, 0]];
    for (row, figures) in rows.iter().enumerate() {
        assert_eq!(tables.free[row * 64..][..4], *figures, "row {row}");
    }
    assert_eq!(tables.free.iter().filter(|&&figure| figure != 0).count(), 2 + 2 + 2 + 3);
    let places = [[3, 5, 4, 5, 2, 0, 1, 0], [7, 0, 10, 4, 1, 2, 0, 0], [9, 0, 5, 6, 2, 0, 1, 0], [0; 8]];
    for (place, figures) in places.iter().enumerate() {
        assert_eq!(tables.book[place * 36..][..8], *figures, "place {place}");
    }
    assert_eq!(tables.totals[..4], [50, 50, 40, 0]);
    assert_eq!(tables.totals.iter().filter(|&&total| total != 0).count(), 3);
    assert_eq!((tables.events.len(), tables.free.len(), tables.book.len()), (129, 8_256, 2_304));
    assert_eq!(tables.totals.len(), 64);
    assert_eq!(tables::read(&case.links, &tables).map(|read| tables::of(&read)), Ok(tables));
}

/// A link of 10 Mb/s at minute 8 under guard 3, figure by figure: booking 1 of minutes 0 to 5 is in its guard, and 2 starts
/// when that ends.
#[test]
fn tables_under_a_guard() {
    let links = [Link { from: 0, to: 1, capacity: 10 }];
    let mut desk = Desk::set_up(&links, 3).expect("a valid link and guard");
    let request = |bandwidth, duration| Request { from: 0, to: 1, bandwidth, duration, earliest: 0, latest: 20 };
    assert_eq!(desk.book(1, &request(7, 6)).map(|start| start.minute), Ok(0));
    assert_eq!(desk.book(2, &request(4, 2)).map(|start| start.minute), Ok(9));
    assert_eq!(desk.move_clock(8), Ok(()));
    let tables = tables::of(&desk);
    assert_eq!(tables.head, Head { clock: 8, links: 1, bookings: 2, guard: 3 });
    assert_eq!(tables.events[..4], [8, 9, 14, 0]);
    assert_eq!([0, 1, 2, 3].map(|row| tables.free[row * 64]), [3, 6, 10, 0]);
    let places = [[1, 0, 6, 7, 1, 0], [2, 9, 2, 4, 1, 0], [0; 6]];
    for (place, figures) in places.iter().enumerate() {
        assert_eq!(tables.book[place * 36..][..6], *figures, "place {place}");
    }
    assert_eq!(tables.totals[..2], [7 * 6 + 4 * 2, 0]);
    assert_eq!(tables::read(&links, &tables), Ok(desk));
}

/// Every guard there is, with the next booking behind one of minutes 0 to 9, and the first one that there isn't.
#[test]
fn every_guard() {
    let links = [Link { from: 0, to: 1, capacity: 10 }];
    let whole = Request { from: 0, to: 1, bandwidth: 10, duration: 10, earliest: 0, latest: 1_000_000_000 };
    for guard in 0..=15 {
        let mut desk = Desk::set_up(&links, guard).expect("a guard of 0 to 15");
        assert_eq!(desk.book(1, &whole).map(|start| start.minute), Ok(0));
        let early = desk.offer(&Request { latest: 9 + guard, ..whole });
        assert_eq!(early, Err(Refused { number: 8, at: 0 }), "guard {guard}");
        assert_eq!(desk.book(2, &whole).map(|start| start.minute), Ok(10 + guard));
        assert_eq!(desk.events(), [0, 10 + guard, 20 + 2 * guard]);
        assert_eq!(
            (desk.show(0, 9 + guard), desk.show(0, 19 + 2 * guard), desk.show(0, 20 + 2 * guard)),
            (Ok(0), Ok(0), Ok(10))
        );
        desk.move_clock(9 + guard).expect("a later minute");
        assert_eq!(desk.book(1, &whole), Err(6.into()));
        desk.move_clock(10 + guard).expect("a later minute");
        assert_eq!(desk.cancel(1), Err(9));
        assert_eq!((desk.show(0, 1_000_525_615), desk.show(0, 1_000_525_616)), (Ok(10), Err(4)));
    }
    assert_eq!(Desk::set_up(&links, 16), Err(4));
}

/// Every guard there is, with ten minutes asked for beside a booking of minutes 60 to 69: from the last start before it, whose
/// guard ends there, to the first behind it.
#[test]
fn break_offs_under_every_guard() {
    let links = [Link { from: 0, to: 1, capacity: 10 }];
    for guard in 0..=15 {
        let mut desk = Desk::set_up(&links, guard).expect("a guard of 0 to 15");
        let at = |minute| Request { from: 0, to: 1, bandwidth: 10, duration: 10, earliest: minute, latest: minute };
        assert_eq!(desk.book(1, &at(60)).map(|start| start.minute), Ok(60));
        let offered = |minute| desk.offer(&at(minute)).map(|start| start.minute);
        assert_eq!(offered(50 - guard), Ok(50 - guard));
        for minute in 51 - guard..70 + guard {
            assert_eq!(offered(minute), Err(Refused { number: 8, at: minute.max(60) }), "guard {guard}");
        }
        assert_eq!(offered(70 + guard), Ok(70 + guard));
    }
}
