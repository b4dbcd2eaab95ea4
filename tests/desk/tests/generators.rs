//! What the generated sessions, histories and damages contain, and that the tables of a history are sound.

use desk_tests::break_offs;
use desk_tests::damages::{damage, forged, other_guards, wrong_totals, WRONG_TOTALS};
use desk_tests::guards;
use desk_tests::lines::{answer, line, opening, output, read_order};
use desk_tests::listings::{self, KINDS};
use desk_tests::plain::{Answer, Booking, Call, Desk};
use desk_tests::sessions::{each_desk, fullest, session, History};
use desk_tests::tables::{self, Tables};
use desk_tests::{Link, Refused, MAX_DURATION, MAX_GUARD, MAX_MINUTE};
use support::{assert_enough, Random, Seed};

const SESSIONS: u64 = 3_000;
const SEED: u64 = 0x0DE5_1000;

/// How often each thing that sessions must cover has occurred.
#[derive(Default, Debug)]
struct Counts {
    orders: u32,
    desk_refused: [u32; 13],
    refused: [u32; 13],
    booked: u32,
    offered: u32,
    cancelled: u32,
    moved: u32,
    stayed: u32,
    sixty_fourth: u32,
    six_on_a_full_book: u32,
    events_129: u32,
    cancelled_running: u32,
    a_year: u32,
    too_long: u32,
    one_minute: u32,
    last_minute: u32,
    last_ten_minutes: u32,
    later_than_low: u32,
    links_31: u32,
    links_64: u32,
    nodes_32: u32,
    parallel: u32,
    long_sessions: u32,
    cut_off: u32,
    empty: u32,
}

impl Counts {
    fn order(&mut self, desk: &Desk, after: &Desk, piece: &[u8], answer: &Answer) {
        self.orders += 1;
        self.cut_off += (piece.len() < 16) as u32;
        match (read_order(piece), answer) {
            (order, Answer::Refused(Refused { number, .. })) => {
                self.refused[*number as usize] += 1;
                self.six_on_a_full_book += (*number == 6 && desk.bookings.len() == 64) as u32;
                if let Ok(Call::Book(_, request) | Call::Offer(request)) = order {
                    self.too_long += (*number == 4 && request.duration == MAX_DURATION + 1) as u32;
                }
            }
            (Ok(Call::Book(_, request)), Answer::Booked(start)) => {
                self.booked += 1;
                self.sixty_fourth += (after.bookings.len() == 64) as u32;
                self.events_129 += (after.events().len() == 129) as u32;
                self.a_year += (request.duration == MAX_DURATION) as u32;
                self.one_minute += (request.duration == 1) as u32;
                self.last_minute += (start.minute == MAX_MINUTE) as u32;
                self.last_ten_minutes += (start.minute + 10 > MAX_MINUTE) as u32;
                self.later_than_low += (start.minute > desk.low(&request)) as u32;
                self.links_31 += (start.path.len() == 31) as u32;
            }
            (Ok(Call::Cancel(number)), Answer::Cancelled) => {
                self.cancelled += 1;
                let running = |booking: &&Booking| booking.number == number && booking.start < desk.clock;
                self.cancelled_running += desk.bookings.iter().filter(running).count() as u32;
            }
            (Ok(Call::MoveClock(minute)), Answer::Moved) => {
                self.moved += 1;
                self.stayed += (minute == desk.clock) as u32;
            }
            (_, Answer::Offered(_)) => self.offered += 1,
            (order, answer) => panic!("{answer:?} is no answer to {order:?}"),
        }
    }

    fn net(&mut self, desk: &Desk) {
        let mut ends: Vec<(u32, u32)> = desk.links.iter().map(|link| (link.from, link.to)).collect();
        ends.sort();
        self.parallel += ends.windows(2).any(|pair| pair[0] == pair[1]) as u32;
        let mut nodes: Vec<u32> = ends.iter().flat_map(|&(from, to)| [from, to]).collect();
        nodes.sort();
        nodes.dedup();
        self.nodes_32 += (nodes.len() == 32) as u32;
        self.links_64 += (desk.links.len() == 64) as u32;
    }
}

#[test]
fn sessions_cover_everything() {
    let (mut counts, mut guards) = (Counts::default(), guards::Counts::default());
    let mut break_offs = break_offs::Counts::default();
    for seed in SEED..SEED + SESSIONS {
        let _seed = Seed(seed);
        let input = session(seed);
        let text = output(&input);
        counts.empty += input.is_empty() as u32;
        let (mut desk, orders) = match opening(&input) {
            Ok(opened) => opened,
            Err(refusal) => {
                counts.desk_refused[refusal as usize] += 1;
                assert_eq!(text, format!("desk refused {refusal}\n"), "seed {seed:#x}");
                continue;
            }
        };
        counts.net(&desk);
        counts.long_sessions += (orders.len() >= 300 * 16) as u32;
        let mut lines = text.split_inclusive('\n').skip(1);
        for (place, piece) in orders.chunks(16).enumerate() {
            let before = desk.clone();
            let answer = answer(&mut desk, piece);
            counts.order(&before, &desk, piece, &answer);
            if let Ok(call) = read_order(piece) {
                guards.add(&before, &call, &answer, &desk);
                break_offs.add(&before, &call, &answer);
            }
            assert_eq!(lines.next(), Some(line(place + 1, piece, &answer).as_str()), "seed {seed:#x}");
        }
        assert_eq!(lines.next(), None, "seed {seed:#x}");
    }
    println!("{counts:#?}");
    println!("orders by guard: {:?}", guards.by_guard);
    println!("{}", guards.of_orders());
    println!("{}", break_offs.told());
    let Counts { refused, desk_refused, .. } = &counts;
    for refusal in 4..=12 {
        assert!(refused[refusal] >= 300, "refusal {refusal}: {}", refused[refusal]);
    }
    assert_eq!(refused[..4], [0; 4]);
    for refusal in [1, 2, 4, 11, 12] {
        assert!(desk_refused[refusal] >= 20, "desk refused {refusal}: {}", desk_refused[refusal]);
    }
    let enough = [
        ("orders", counts.orders, 100_000),
        ("booked", counts.booked, 30_000),
        ("offered", counts.offered, 5_000),
        ("cancelled", counts.cancelled, 5_000),
        ("cancelled running", counts.cancelled_running, 500),
        ("moved", counts.moved, 5_000),
        ("moved to the same minute", counts.stayed, 500),
        ("64th booking", counts.sixty_fourth, 300),
        ("refused 6 on a full book", counts.six_on_a_full_book, 100),
        ("129 events", counts.events_129, 50),
        ("525,600 minutes", counts.a_year, 500),
        ("525,601 minutes", counts.too_long, 500),
        ("one minute", counts.one_minute, 1_000),
        ("last minute", counts.last_minute, 300),
        ("last ten minutes", counts.last_ten_minutes, 1_000),
        ("later than low", counts.later_than_low, 2_500),
        ("31 links", counts.links_31, 30),
        ("64 links", counts.links_64, 50),
        ("32 nodes", counts.nodes_32, 300),
        ("parallel links", counts.parallel, 500),
        ("long sessions", counts.long_sessions, 50),
        ("cut-off ends", counts.cut_off, 300),
        ("empty input", counts.empty, 10),
    ];
    assert_enough(&enough, SEED);
    assert_enough(&guards.of_orders_enough(), SEED);
    assert_enough(&break_offs.enough(), SEED);
}

#[test]
fn the_same_seed_gives_the_same_session() {
    for seed in SEED..SEED + 20 {
        assert_eq!(session(seed), session(seed));
    }
}

#[test]
fn tables_of_histories_are_sound_and_read_back() {
    let mut calls = [0; Call::KINDS];
    let mut refused = [0; 14];
    let mut guards = guards::Counts::default();
    for seed in SEED..SEED + 160 {
        let _seed = Seed(seed);
        let mut history = History::new(seed);
        for step in 0..400 {
            let before = history.desk.clone();
            let (call, answer) = history.step();
            guards.add(&before, &call, &answer, &history.desk);
            let tables = tables::of(&history.desk);
            let read = tables::read(&history.desk.links, &tables);
            assert_eq!(read.as_ref().map(tables::of), Ok(tables), "seed {seed:#x}, step {step}: {call:?}");
            calls[call.kind()] += 1;
            if let Answer::Refused(Refused { number, .. }) = answer {
                refused[number as usize] += 1;
            }
            for minute in history.desk.events() {
                let literal: Vec<i64> =
                    (0..history.desk.links.len() as u32).map(|link| history.desk.residual(link, minute)).collect();
                assert_eq!(history.desk.residuals(minute), literal, "seed {seed:#x}, step {step}");
            }
            let literal: Vec<u64> = (0..history.desk.links.len() as u32).map(|link| history.desk.total(link)).collect();
            assert_eq!(history.desk.totals(), literal, "seed {seed:#x}, step {step}");
        }
    }
    println!("calls by kind: {calls:?}, refusals: {refused:?}");
    println!("calls by guard: {:?}", guards.by_guard);
    println!("{}", guards.of_calls());
    assert!(guards.by_guard.iter().all(|&count| count >= 1_000), "{guards:?}");
    assert!(calls.iter().all(|&count| count >= 50), "{calls:?}");
    assert!([1, 2, 4, 5, 6, 7, 8, 9, 10, 13].iter().all(|&refusal: &usize| refused[refusal] >= 10), "{refused:?}");
}

#[test]
fn a_detour_leaves_the_desk_as_it_is() {
    let mut taken = 0;
    for seed in SEED..SEED + 100 {
        let mut history = History::new(seed);
        for step in 0..60 {
            history.step();
            let Some(calls) = history.detour() else { continue };
            taken += 1;
            let mut desk = history.desk.clone();
            for (call, answer) in calls {
                assert_eq!(desk.answer(&call), answer, "seed {seed:#x}, step {step}");
            }
            assert_eq!(desk, history.desk, "seed {seed:#x}, step {step}");
        }
    }
    assert!(taken > 500, "{taken}");
}

#[test]
fn the_fullest_desk() {
    let desk = fullest();
    assert_eq!((desk.links.len(), desk.bookings.len(), desk.events().len()), (64, 64, 129));
    assert!(desk.bookings.iter().all(|booking| booking.path.len() == 31));
    assert!(tables::sound(&desk.links, &tables::of(&desk)));
}

#[test]
fn desks_to_list_on_are_sound() {
    for seed in SEED..SEED + 400 {
        let kind = KINDS[seed as usize % KINDS.len()];
        let desk = listings::desk(&mut Random::new(seed), kind);
        assert!(tables::sound(&desk.links, &tables::of(&desk)), "seed {seed:#x}, {kind:?}");
    }
}

/// A damage is refused 1 or 3 but for the few that leave sound tables, as another rising number in the book.
#[test]
fn damages_are_of_every_kind() {
    let (mut sizes, mut unsound, mut sound) = (0, 0, 0);
    for seed in SEED..SEED + 200 {
        let mut history = History::new(seed);
        (0..40).for_each(|_| {
            history.step();
        });
        let whole = tables::of(&history.desk);
        let mut random = Random::new(seed);
        for turn in 0..100 {
            let (mut links, mut tables) = (history.desk.links.clone(), whole.clone());
            let what = damage(&mut random, &mut links, &mut tables);
            assert!(links != history.desk.links || tables != whole, "seed {seed:#x}, turn {turn}: {what}");
            match tables::read(&links, &tables) {
                Err(1) => sizes += 1,
                Err(_) => unsound += 1,
                Ok(_) => sound += 1,
            }
        }
    }
    println!("{sizes} refused 1, {unsound} refused 3, {sound} sound");
    assert!(sizes > 500 && unsound > 10_000 && sound > 20, "{sizes}, {unsound}, {sound}");
}

/// The last event of a desk with bookings is a guarded end, so that its figures tell the guard.
#[test]
fn another_guard_is_sound_without_bookings_alone() {
    let (mut sound, mut with_bookings, mut too_long) = (0, 0, 0);
    for seed in SEED..SEED + 200 {
        let mut history = History::new(seed);
        for step in 0..60 {
            history.step();
            let mut tables = tables::of(&history.desk);
            for guard in other_guards(history.desk.guard) {
                tables.head.guard = guard;
                let desk = Desk { guard, ..history.desk.clone() };
                let expected = if guard <= MAX_GUARD && desk.bookings.is_empty() { Ok(desk) } else { Err(3) };
                let read = tables::read(&history.desk.links, &tables);
                assert_eq!(read, expected, "seed {seed:#x}, step {step}: guard {guard}");
                let count = match read {
                    Ok(_) => &mut sound,
                    Err(_) if guard > MAX_GUARD => &mut too_long,
                    Err(_) => &mut with_bookings,
                };
                *count += 1;
            }
        }
    }
    println!("another guard: {with_bookings} refused 3 with bookings, {too_long} refused 3 above 15, {sound} sound");
    assert!(sound > 10_000 && with_bookings > 50_000 && too_long > 10_000, "{sound}, {with_bookings}, {too_long}");
}

/// Any mistake in the totals is enough.
#[test]
fn a_wrong_total_is_unsound() {
    let mut kinds = std::collections::BTreeMap::new();
    let mut random = Random::new(SEED);
    each_desk(SEED, |desk, place| {
        for (what, totals) in wrong_totals(&mut random, desk) {
            let read = tables::read(&desk.links, &Tables { totals, ..tables::of(desk) });
            assert_eq!(read, Err(3), "{place}: {what}");
            *kinds.entry(what).or_insert(0) += 1;
        }
    });
    println!("refused 3: {kinds:?}");
    assert!(kinds.len() == WRONG_TOTALS && kinds.values().all(|&count| count >= 50), "{kinds:?}");
}

/// Of forged tables about one in four is sound. The others are refused 3, some for nothing but an oversold link.
#[test]
fn forged_tables_are_of_every_kind() {
    let mut kinds = std::collections::BTreeMap::new();
    for seed in SEED..SEED + 200 {
        let mut history = History::new(seed);
        (0..60).for_each(|_| {
            history.step();
        });
        let mut random = Random::new(seed);
        for _ in 0..50 {
            let (tables, what) = forged(&mut random, &history.desk);
            let (sound, unsound) = kinds.entry(what).or_insert((0, 0));
            match tables::read(&history.desk.links, &tables) {
                Ok(_) => *sound += 1,
                Err(refusal) => {
                    assert_eq!(refusal, 3, "seed {seed:#x}: {what}");
                    *unsound += 1;
                }
            }
        }
    }
    println!("sound and unsound: {kinds:#?}");
    assert!(kinds.values().all(|&(_, unsound)| unsound >= 50), "{kinds:?}");
}

/// Books that break one rule each, with head, events and free figures made to agree wherever there are such.
#[test]
fn unsound_books() {
    let links: Vec<_> = [(0, 1), (1, 2), (2, 0), (2, 1)].map(|(from, to)| Link { from, to, capacity: 10 }).to_vec();
    let booking = |number, start, duration, bandwidth, path: &[u32]| Booking {
        number,
        start,
        duration,
        bandwidth,
        path: path.to_vec(),
    };
    let guarded = |guard, clock, bookings: &[Booking]| {
        tables::of(&Desk { links: links.clone(), guard, clock, bookings: bookings.to_vec() })
    };
    let tables = |clock, bookings: &[Booking]| guarded(0, clock, bookings);
    let good = booking(5, 3, 4, 6, &[0, 1]);
    let later = |number| booking(number, 20, 4, 6, &[0, 1]);
    let cases: Vec<(&str, Tables, bool)> = vec![
        ("a good book", tables(0, &[good.clone()]), true),
        ("a running booking", tables(6, &[good.clone()]), true),
        ("an ended booking", tables(7, &[good.clone()]), false),
        ("number 0", tables(0, &[booking(0, 3, 4, 6, &[0])]), false),
        ("number 16,384", tables(0, &[booking(16_384, 3, 4, 6, &[0])]), false),
        ("number 16,383", tables(0, &[booking(16_383, 3, 4, 6, &[0])]), true),
        ("a start at the last minute", tables(0, &[booking(1, MAX_MINUTE, 4, 6, &[0])]), true),
        ("a start behind the last minute", tables(0, &[booking(1, MAX_MINUTE + 1, 4, 6, &[0])]), false),
        ("a year", tables(0, &[booking(1, 3, MAX_DURATION, 6, &[0])]), true),
        ("more than a year", tables(0, &[booking(1, 3, MAX_DURATION + 1, 6, &[0])]), false),
        ("no duration", tables(0, &[booking(1, 3, 0, 6, &[0])]), false),
        ("no bandwidth", tables(0, &[booking(1, 3, 4, 0, &[0])]), false),
        ("no link", tables(0, &[booking(1, 3, 4, 6, &[])]), false),
        ("links that don't join", tables(0, &[booking(1, 3, 4, 6, &[0, 2])]), false),
        ("a path back to its source", tables(0, &[booking(1, 3, 4, 1, &[0, 1, 2])]), false),
        ("a node met twice", tables(0, &[booking(1, 3, 4, 1, &[0, 1, 3])]), false),
        ("the same number twice", tables(0, &[good.clone(), later(5)]), false),
        ("two numbers", tables(0, &[good.clone(), later(6)]), true),
        ("a clock behind the last minute", tables(MAX_MINUTE + 1, &[]), false),
        ("the last minute", tables(MAX_MINUTE, &[]), true),
        ("the longest guard", guarded(15, 0, &[good.clone()]), true),
        ("a guard of 16", guarded(16, 0, &[good.clone()]), false),
        ("a guard of 16, no booking", guarded(16, 0, &[]), false),
        ("a booking in its guard", guarded(2, 8, &[good.clone()]), true),
        ("a booking whose guard has ended", guarded(2, 9, &[good.clone()]), false),
        ("the last minute that is held", guarded(15, 0, &[booking(1, MAX_MINUTE, MAX_DURATION, 6, &[0])]), true),
    ];
    for (what, tables, sound) in cases {
        assert_eq!(tables::sound(&links, &tables), sound, "{what}");
    }
    // Another order of the book; more on a link than it has, which no free figures can show.
    let mut falling = tables(0, &[good.clone(), later(6)]);
    falling.book.swap(0, 36);
    assert!(!tables::sound(&links, &falling), "falling numbers");
    let mut oversold = tables(0, &[good.clone(), later(6)]);
    oversold.book[36 + 1] = 4;
    assert!(!tables::sound(&links, &oversold), "an oversold link");
}
