//! Document 02's Job 4 through the exported calls: the same offer, after an accepted cancellation, gets no later start.

use desk_tests::exported::{self, fresh};
use desk_tests::plain::{Desk, Start, Walk};
use desk_tests::sessions::History;
use desk_tests::tables::Tables;
use desk_tests::{Link, Refused, Request};
use support::{assert_enough, Random, Seed};

const SEED: u64 = 0x0DE5_4000;
const HISTORIES: u64 = 1_000;
const STEPS: u32 = 120;
/// Of the standing bookings so many are tried, each cancelled on the tables as the offer left them.
const TRIED: usize = 3;
/// The independent desk answers where it need not try more minutes than this.
const SHORT_WALK: u32 = 2_000;

/// What offers got after a cancellation.
#[derive(Default, Debug)]
struct Counts {
    earlier: u32,
    same: u32,
    by_another_path: u32,
    /// Earlier, where the cancelled booking had ended and was in its guard.
    earlier_by_its_guard: u32,
    tried_at_every_minute: u32,
}

/// Numbers of standing bookings, each at most once.
fn some_standing(random: &mut Random, desk: &Desk) -> Vec<u32> {
    let mut numbers: Vec<u32> = desk.bookings.iter().map(|booking| booking.number).collect();
    while numbers.len() > TRIED {
        numbers.swap_remove(random.below(numbers.len() as u64) as usize);
    }
    numbers
}

/// What the offer gets on a copy of the tables where the booking is cancelled.
fn offer_without(links: &[Link], held: &Tables, number: u32, request: &Request) -> Result<Start, Refused> {
    let mut held = held.clone();
    assert_eq!(exported::cancel(links, &mut held, number), Ok(()), "cancelling {number}");
    exported::offer(links, &held, request)
}

/// What the independent desk then offers; none where it would have to try too many minutes.
fn by_every_minute(desk: &Desk, number: u32, request: &Request) -> Option<Result<Start, Refused>> {
    let mut desk = desk.clone();
    desk.cancel(number).expect("a standing booking");
    let walk = desk.last_tried(request, Walk::ToLastEvent) - desk.low(request);
    (walk <= SHORT_WALK).then(|| desk.offer(request))
}

#[test]
fn no_offer_is_later_after_a_cancellation() {
    let mut counts = Counts::default();
    for seed in SEED..SEED + HISTORIES {
        let (mut random, _seed) = (Random::new(seed), Seed(seed));
        let mut history = History::new(seed);
        let mut held = fresh(&history.desk, &mut random);
        for step in 0..STEPS {
            let links = history.desk.links.clone();
            let (call, answer) = history.step();
            assert_eq!(exported::answer(&links, &mut held, &call), answer, "seed {seed:#x}, step {step}");
            let (request, desk) = (history.listed(), &history.desk);
            let Ok(offered) = exported::offer(&desk.links, &held, &request) else { continue };
            for number in some_standing(&mut random, desk) {
                let in_guard = desk.bookings.iter().any(|one| one.number == number && one.end() <= desk.clock);
                let what = format!("seed {seed:#x}, step {step}, {request:?} without booking {number}");
                let again = offer_without(&desk.links, &held, number, &request);
                if let Some(expected) = by_every_minute(desk, number, &request) {
                    assert_eq!(again, expected, "{what}");
                    counts.tried_at_every_minute += 1;
                }
                match again {
                    Ok(start) if start.minute < offered.minute => {
                        counts.earlier += 1;
                        counts.earlier_by_its_guard += in_guard as u32;
                    }
                    Ok(start) if start == offered => counts.same += 1,
                    Ok(start) if start.minute == offered.minute => counts.by_another_path += 1,
                    later => panic!("{what}: {offered:?} before, {later:?} after"),
                }
            }
        }
    }
    println!("offers after a cancellation: {counts:?}");
    let enough = [
        ("earlier", counts.earlier, 10_000),
        ("the same", counts.same, 100_000),
        ("by another path", counts.by_another_path, 4_000),
        ("earlier by the guard of the cancelled one", counts.earlier_by_its_guard, 200),
        ("tried at every minute", counts.tried_at_every_minute, 100_000),
    ];
    assert_enough(&enough, SEED);
}
