//! The exported tables against those counted from the bookings, on random desks. Each desk has a seed of its own, which a
//! failure names.

use support::{assert_enough, Random};
use tables_tests::plain::{Booking, Desk};
use tables_tests::{arrays, count_events, row_at, Tables, EVENTS, LINKS};

const LAST_MINUTE: u64 = 1_000_000_000;
const MOST_BANDWIDTH: u64 = 1_000_000;

/// A desk with no bookings: clocks at both ends of the range, links that are few or many, figures that are small or large.
fn desk(random: &mut Random) -> Desk {
    let links = if random.once_in(3) { LINKS as u64 } else { random.within(1, LINKS as u64) };
    let clock = [0, 1, random.below(1000), random.below(LAST_MINUTE), LAST_MINUTE][random.below(5) as usize];
    let most = if random.once_in(2) { 20 } else { MOST_BANDWIDTH };
    let capacities = (0..links).map(|_| random.within(1, most) as u32).collect();
    Desk { clock: clock as u32, capacities, bookings: Vec::new() }
}

/// A booking that begins before, at or behind the clock and ends behind it. Spans are short, so that many times meet.
fn booking(random: &mut Random, desk: &Desk, most: u64) -> Booking {
    let (clock, reach) = (desk.clock as u64, random.within(1, most));
    let start = (clock + random.below(reach)).saturating_sub(random.below(reach / 2 + 1));
    let end = (start.max(clock) + random.within(1, reach)) as u32;
    let link = random.below(desk.capacities.len() as u64) as u32;
    let bandwidth = random.within(1, desk.capacities[link as usize] as u64 / 2 + 1) as u32;
    Booking { start: start as u32, end, link, bandwidth }
}

/// Each figure of the tables, and the figures and rows of minutes around the events, as the bookings have them.
fn compare(tables: &Tables, desk: &Desk, seed: u64) {
    assert_eq!(tables.events, desk.event_table(), "seed {seed}: events of {desk:?}");
    assert_eq!(tables.free, desk.free_table(), "seed {seed}: figures of {desk:?}");
    let events = desk.events();
    assert_eq!(count_events(&tables.events), events.len(), "seed {seed}");
    let around = events.iter().flat_map(|&e| [e.saturating_sub(1), e, e + 1]).filter(|&m| m >= desk.clock);
    for minute in around {
        let row = events.iter().filter(|&&e| e <= minute).count() - 1;
        assert_eq!(row_at(&tables.events, minute), row, "seed {seed}: row of {minute}");
        for link in 0..desk.capacities.len() as u32 {
            let (kept, counted) = (tables.free_figure(link, minute), desk.free(link, minute));
            assert_eq!(kept, counted, "seed {seed}: link {link} in minute {minute}");
        }
    }
}

/// The first minute of a span at which a link has less than the bandwidth; the span's end where there is none. A minute before
/// the clock has what the clock's has.
fn first_missing(desk: &Desk, start: u32, end: u32, link: u32, bandwidth: u32) -> u32 {
    let lacks = |&minute: &u32| desk.free(link, minute.max(desk.clock)) < bandwidth;
    (start..end).find(lacks).unwrap_or(end)
}

/// The same by the start and the events in the span alone, for long spans: what is free changes only at events.
fn first_missing_event(desk: &Desk, start: u32, end: u32, link: u32, bandwidth: u32) -> u32 {
    let within = desk.events().into_iter().filter(|&event| start < event && event < end);
    let lacks = |&minute: &u32| desk.free(link, minute.max(desk.clock)) < bandwidth;
    [start].into_iter().chain(within).find(lacks).unwrap_or(end)
}

/// How often the bandwidth was missing at a span's start, later in it, and nowhere; and later, in a span from before the clock.
#[derive(Default, Debug)]
struct Missing {
    at_start: u32,
    later: u32,
    nowhere: u32,
    later_from_before: u32,
}

impl Missing {
    fn add(&mut self, desk: &Desk, start: u32, end: u32, minute: u32) {
        let later = start < minute && minute < end;
        self.at_start += (minute == start) as u32;
        self.later += later as u32;
        self.nowhere += (minute == end) as u32;
        self.later_from_before += (later && start < desk.clock) as u32;
    }
}

#[test]
fn random_bookings() {
    for seed in 0..600 {
        let random = &mut Random::new(0x7AB1_E500 + seed);
        let mut desk = desk(random);
        let mut tables = Tables::filled(random.next() as u32);
        tables.reset(desk.clock, &desk.capacities);
        compare(&tables, &desk, seed);
        let (count, reach) = (random.within(1, 64), [3, 30, 500_000][random.below(3) as usize]);
        for _ in 0..count {
            let b = booking(random, &desk, reach);
            tables.insert_span(b.start, b.end);
            let asked = tables.first_missing(b.start, b.end, b.link, b.bandwidth);
            let expected = first_missing_event(&desk, b.start, b.end, b.link, b.bandwidth);
            assert_eq!(asked, expected, "seed {seed}: {b:?} in {desk:?}");
            // One in eight is taken although there is too little: the figures then stop at 0.
            if asked == b.end || random.once_in(8) {
                tables.take_bandwidth(b.start, b.end, b.link, b.bandwidth);
                desk.bookings.push(b);
            } else {
                desk.bookings.push(Booking { bandwidth: 0, ..b });
            }
        }
        compare(&tables, &desk, seed);
    }
}

#[test]
fn each_step_of_a_small_desk() {
    for seed in 0..300 {
        let random = &mut Random::new(0x5_7E95 + seed);
        let mut desk = desk(random);
        desk.capacities.truncate(3);
        let mut tables = Tables::filled(7);
        tables.reset(desk.clock, &desk.capacities);
        for _ in 0..random.within(1, 20) {
            let b = booking(random, &desk, 12);
            tables.insert_event(b.end);
            tables.insert_event(b.start);
            desk.bookings.push(Booking { bandwidth: 0, ..b });
            compare(&tables, &desk, seed);
            tables.take_bandwidth(b.start, b.end, b.link, b.bandwidth);
            desk.bookings.push(b);
            compare(&tables, &desk, seed);
        }
    }
}

#[test]
fn span_checks() {
    let mut missing = Missing::default();
    for seed in 0..300 {
        let random = &mut Random::new(0x0C4E_C500 + seed);
        let mut desk = desk(random);
        let mut tables = Tables::filled(0);
        tables.reset(desk.clock, &desk.capacities);
        for _ in 0..random.within(1, 40) {
            let b = booking(random, &desk, 20);
            tables.insert_span(b.start, b.end);
            tables.take_bandwidth(b.start, b.end, b.link, b.bandwidth);
            desk.bookings.push(b);
        }
        // Spans that begin and end anywhere, and bandwidths at, below and above what is free.
        for _ in 0..200 {
            let b = booking(random, &desk, 30);
            let free = desk.free(b.link, b.start.max(desk.clock));
            let bandwidth = [1, free.max(1), free + 1, b.bandwidth][random.below(4) as usize];
            let asked = tables.first_missing(b.start, b.end, b.link, bandwidth);
            let expected = first_missing(&desk, b.start, b.end, b.link, bandwidth);
            assert_eq!(asked, expected, "seed {seed}: {bandwidth} in {b:?} of {desk:?}");
            let by_events = first_missing_event(&desk, b.start, b.end, b.link, bandwidth);
            assert_eq!(by_events, expected, "by events, seed {seed}: {bandwidth} in {b:?} of {desk:?}");
            missing.add(&desk, b.start, b.end, asked);
        }
    }
    println!("{missing:?}");
    let enough = [
        ("missing at the start", missing.at_start, 5_000),
        ("missing later", missing.later, 1_000),
        ("missing nowhere", missing.nowhere, 5_000),
        ("missing later than the clock, in a span from before it", missing.later_from_before, 300),
    ];
    assert_enough(&enough, 0x0C4E_C500);
}

#[test]
fn a_full_table() {
    for seed in 0..20 {
        let random = &mut Random::new(0xF0_11 + seed);
        let mut desk = desk(random);
        let mut tables = Tables::filled(1);
        tables.reset(desk.clock, &desk.capacities);
        // Sixty-four bookings with no time in common, in random order: every place is used.
        let mut spans: Vec<u32> = (0..64).collect();
        for i in (1..spans.len()).rev() {
            spans.swap(i, random.below(i as u64 + 1) as usize);
        }
        for i in spans {
            let (start, end) = (desk.clock + 1 + i, desk.clock + 1000 - i);
            let link = random.below(desk.capacities.len() as u64) as u32;
            let b = Booking { start, end, link, bandwidth: random.within(1, 20) as u32 };
            tables.insert_span(b.start, b.end);
            tables.take_bandwidth(b.start, b.end, b.link, b.bandwidth);
            desk.bookings.push(b);
        }
        assert_eq!(count_events(&tables.events), EVENTS, "seed {seed}");
        compare(&tables, &desk, seed);
    }
}

#[test]
fn plain_arrays_do_the_same() {
    for seed in 0..100 {
        let random = &mut Random::new(0xA44A_7500 + seed);
        let desk = desk(random);
        let mut tables = Tables::filled(2);
        tables.reset(desk.clock, &desk.capacities);
        let mut plain = tables.clone();
        for _ in 0..random.within(1, 60) {
            let b = booking(random, &desk, 40);
            tables.insert_span(b.start, b.end);
            tables.take_bandwidth(b.start, b.end, b.link, b.bandwidth);
            arrays::insert_event(&mut plain, b.end);
            arrays::insert_event(&mut plain, b.start);
            arrays::take_bandwidth(&mut plain, b.start, b.end, b.link, b.bandwidth);
        }
        assert_eq!(tables, plain, "seed {seed}");
    }
}

#[test]
fn lists_of_any_length() {
    assert_eq!((row_at(&[], 5), count_events(&[])), (0, 0));
    assert_eq!((row_at(&[9], 5), row_at(&[9], 9), count_events(&[9])), (0, 0, 1));
    assert_eq!((row_at(&[0, 0, 4], 5), count_events(&[0, 0, 4])), (0, 1));
    assert_eq!((row_at(&[0, 3, 5], 4), row_at(&[0, 3, 5], 5), count_events(&[0, 3, 5])), (1, 2, 3));
}
