//! The built program against the independent desk: whole sessions, line by line.

use desk_tests::guards::GUARDS;
use desk_tests::lines::{link_bytes, opening, order_bytes, output};
use desk_tests::plain::Call;
use desk_tests::program::{overflows, root, same, written, BLOCK_BYTES};
use desk_tests::sessions::{long_session, session};
use desk_tests::{Link, Request, MAX_MINUTE};
use support::Seed;

const SEED: u64 = 0xDE5_1000;
const SESSIONS: u64 = 3_000;
const LONG_SEED: u64 = 0xDE5_2000;
const LONG_SESSIONS: u64 = 12;

#[test]
fn three_thousand_sessions() {
    let (mut lines, mut refused, mut by_guard) = (0, [0u32; 13], [0u32; GUARDS]);
    for seed in SEED..SEED + SESSIONS {
        let _seed = Seed(seed);
        let input = session(seed);
        let due = output(&input);
        same(&written(&input), &due);
        lines += due.lines().count();
        match opening(&input) {
            Ok((desk, _)) => by_guard[desk.guard as usize] += 1,
            Err(refusal) => refused[refusal as usize] += 1,
        }
    }
    println!("{SESSIONS} sessions, {lines} lines compared; by guard {by_guard:?}, desk refused by number {refused:?}");
    assert!(by_guard.iter().all(|&count| count >= 100) && refused[4] >= 20, "{by_guard:?}, {refused:?}");
}

/// Each guard byte there is, with a link that is good and one that is not, and two bookings of ten minutes that fill the good
/// one: 0 to 15 hold them apart, and more are refused 4 before the link is looked at.
#[test]
fn every_guard_byte() {
    let good = link_bytes(&Link { from: 0, to: 1, capacity: 10 });
    let looped = link_bytes(&Link { from: 1, to: 1, capacity: 10 });
    let whole = Request { from: 0, to: 1, bandwidth: 10, duration: 10, earliest: 0, latest: MAX_MINUTE };
    let orders = [1, 2].map(|number| order_bytes(&Call::Book(number, whole))).concat();
    for guard in 0..=255 {
        let lines = |link: &[u8]| written(&[&[1, guard], link, &orders].concat());
        let second = 10 + guard as u32;
        let (due, refused) = match guard {
            0..=15 => (format!("desk links 1\n1 booked 1 start 0 links 0\n2 booked 2 start {second} links 0\n"), 2),
            _ => ("desk refused 4\n".to_string(), 4),
        };
        same(&lines(&good), &due);
        same(&lines(&looped), &format!("desk refused {refused}\n"));
    }
}

#[test]
fn sessions_of_three_blocks() {
    let mut lines = 0;
    let mut overflowed = 0;
    for seed in LONG_SEED..LONG_SEED + LONG_SESSIONS {
        let _seed = Seed(seed);
        let input = long_session(seed);
        assert!(2 * BLOCK_BYTES < input.len(), "{} bytes", input.len());
        let due = output(&input);
        same(&written(&input), &due);
        lines += due.lines().count();
        overflowed += u64::from(overflows(&due));
    }
    assert!(0 < overflowed, "no block's lines overflow their buffer");
    println!(
        "{LONG_SESSIONS} sessions of three blocks, {lines} lines compared; {overflowed} overflow the buffer of lines"
    );
}

#[test]
fn the_samples() {
    for name in ["session", "busy_day", "full_book", "damaged", "guarded_day"] {
        let folder = root().join("samples");
        let orders = std::fs::read(folder.join(format!("{name}.orders"))).expect("a sample");
        let due = std::fs::read_to_string(folder.join(format!("{name}.expected"))).expect("its lines");
        println!("{name}");
        same(&written(&orders), &due);
    }
}
