//! The exported listing against the independent desk, on desks of many kinds: the ranges, the lent list, and what is left
//! alone; and its refusals, alone and with others.

use desk_tests::break_offs;
use desk_tests::calls::list_size;
use desk_tests::damages::{resize, unsound};
use desk_tests::exported;
use desk_tests::guards::GUARDS;
use desk_tests::listings::{self, KINDS};
use desk_tests::plain::{Answer, Call, Desk, Range, Start};
use desk_tests::tables::{self, Tables};
use desk_tests::{Link, Refused, Request, BOOKINGS, EVENTS, LINKS, LIST_FIGURES, MAX_DURATION, MAX_MINUTE};
use support::{assert_enough, Random, Seed};

const SEED: u64 = 0x0DE5_7000;
const DESKS: u64 = 4_000;
const LISTINGS: u64 = 8;

/// A listing into a list of so many figures. Links, head and tables are as before.
fn list(links: &[Link], held: &Tables, figures: usize, request: &Request, what: &str) -> Result<Vec<Range>, u32> {
    let (links_before, held_before) = (links.to_vec(), held.clone());
    let answer = exported::listing(figures, |lent| exported::list(links, held, request, lent));
    assert!(links == links_before && *held == held_before, "{what}: the listing writes the desk");
    answer
}

/// How often each thing that listings must cover has occurred.
#[derive(Default, Debug)]
struct Counts {
    listings: u32,
    by_guard: [u32; GUARDS],
    ranges: usize,
    most_ranges: usize,
    empty: u32,
    several: u32,
    one_row: u32,
    full: u32,
    events_129: u32,
    links_64: u32,
    before_the_clock: u32,
    one_start: u32,
    to_the_last_minute: u32,
    one_minute: u32,
    a_year: u32,
    just_free: u32,
    one_more: u32,
    short_windows: u32,
}

impl Counts {
    fn add(&mut self, desk: &Desk, request: &Request, ranges: &[Range]) {
        let low = desk.low(request);
        let events = desk.events();
        let is_free = |bandwidth: u32| {
            events.iter().any(|&minute| desk.residuals(minute).iter().any(|&figure| figure == bandwidth as i64))
        };
        self.listings += 1;
        self.by_guard[desk.guard as usize] += 1;
        self.ranges += ranges.len();
        self.most_ranges = self.most_ranges.max(ranges.len());
        self.empty += ranges.is_empty() as u32;
        self.several += (ranges.len() > 1) as u32;
        self.one_row += (events.len() == 1) as u32;
        self.full += (desk.bookings.len() == BOOKINGS) as u32;
        self.events_129 += (events.len() == EVENTS) as u32;
        self.links_64 += (desk.links.len() == LINKS) as u32;
        self.before_the_clock += (request.earliest < desk.clock) as u32;
        self.one_start += (request.latest == low) as u32;
        self.to_the_last_minute += (request.latest == MAX_MINUTE) as u32;
        self.one_minute += (request.duration == 1) as u32;
        self.a_year += (request.duration == MAX_DURATION) as u32;
        self.just_free += is_free(request.bandwidth) as u32;
        self.one_more += (request.bandwidth > 1 && is_free(request.bandwidth - 1)) as u32;
        self.short_windows += (request.latest - low < 300) as u32;
    }
}

/// Ranges are right, their first start is the offer's, and there is none exactly if an offer is refused 8, with the minute of the
/// independent desk.
#[test]
fn desks_of_many_kinds() {
    let (mut counts, mut break_offs) = (Counts::default(), break_offs::Counts::default());
    for seed in SEED..SEED + DESKS {
        let (mut random, _seed) = (Random::new(seed), Seed(seed));
        let kind = KINDS[seed as usize % KINDS.len()];
        let desk = listings::desk(&mut random, kind);
        let held = tables::of(&desk);
        for turn in 0..LISTINGS {
            let request = listings::request(&mut random, kind, &desk);
            let what = format!("seed {seed:#x}, turn {turn}, {kind:?}, {request:?}");
            let ranges = list(&desk.links, &held, LIST_FIGURES, &request, &what);
            let ranges = ranges.unwrap_or_else(|refusal| panic!("{what}: refused {refusal}"));
            assert_eq!(listings::fault(&mut random, &desk, &request, &ranges), None, "{what}");
            let offered = exported::offer(&desk.links, &held, &request).map(|Start { minute, .. }| minute);
            match ranges.first() {
                Some(range) => assert_eq!(offered, Ok(range.first), "{what}: the offer"),
                None => {
                    let at = desk.break_off(&request);
                    assert_eq!(offered, Err(Refused { number: 8, at }), "{what}: the offer");
                    break_offs.add(&desk, &Call::Offer(request), &Answer::no_start(at));
                }
            }
            counts.add(&desk, &request, &ranges);
        }
    }
    println!("{counts:#?}");
    println!("{}", break_offs.told());
    let enough = [
        ("listings", counts.listings, 20_000),
        ("listings under each guard", *counts.by_guard.iter().min().expect("a guard"), 500),
        ("empty", counts.empty, 1_000),
        ("several ranges", counts.several, 1_000),
        ("one row", counts.one_row, 1_000),
        ("64 bookings", counts.full, 1_000),
        ("129 events", counts.events_129, 300),
        ("64 links", counts.links_64, 1_000),
        ("windows from before the clock", counts.before_the_clock, 1_000),
        ("windows of one minute", counts.one_start, 1_000),
        ("windows to the last minute", counts.to_the_last_minute, 1_000),
        ("one minute", counts.one_minute, 1_000),
        ("525,600 minutes", counts.a_year, 1_000),
        ("bandwidth just free", counts.just_free, 1_000),
        ("one more", counts.one_more, 1_000),
        ("windows tried at every minute", counts.short_windows, 1_000),
        ("broken off at low", break_offs.at_low, 1_000),
        ("broken off later, in the duration", break_offs.in_span, 300),
        ("broken off in the guard's minutes", break_offs.in_guard, 100),
        ("broken off where a link is free again", break_offs.link_free_again, 100),
    ];
    assert_enough(&enough, SEED);
    assert!(counts.most_ranges >= 20, "{counts:?}");
}

#[test]
fn all_minutes_there_are() {
    all_minutes_under(0);
    all_minutes_under(15);
}

/// A booking of the last minute and a year, in a window of all minutes there are: by hand, a start ends with its guard before
/// it.
fn all_minutes_under(guard: u32) {
    let links = [Link { from: 0, to: 1, capacity: 5 }];
    let mut desk = Desk::set_up(&links, guard).expect("a valid link and guard");
    let last =
        Request { from: 0, to: 1, bandwidth: 5, duration: MAX_DURATION, earliest: MAX_MINUTE, latest: MAX_MINUTE };
    let lists = |desk: &Desk, duration: u32, first: u32, end: u32| {
        let request = Request { duration, earliest: 0, ..last };
        let ranges = list(&links, &tables::of(desk), LIST_FIGURES, &request, "all minutes");
        assert_eq!(ranges, Ok(vec![Range { first, last: end }]), "{request:?}");
    };
    lists(&desk, MAX_DURATION, 0, MAX_MINUTE);
    desk.book(1, &last).expect("a free link");
    lists(&desk, 1, 0, 999_999_999 - guard);
    lists(&desk, 2, 0, 999_999_998 - guard);
    lists(&desk, MAX_DURATION, 0, 999_474_400 - guard);
    desk.move_clock(999_474_400 - guard).expect("a later minute");
    lists(&desk, MAX_DURATION, 999_474_400 - guard, 999_474_400 - guard);
}

/// The refusals of a listing, in the order in which they are tried.
const REFUSALS: [u32; 5] = [1, 13, 3, 4, 5];

/// Every set of reasons to refuse, on many desks: the first reason is answered, and nothing is written.
#[test]
fn the_first_reason_is_answered() {
    let mut by_refusal = [0u32; 14];
    for seed in SEED..SEED + 60 {
        let (mut random, _seed) = (Random::new(seed), Seed(seed));
        let kind = KINDS[seed as usize % KINDS.len()];
        let desk = listings::desk(&mut random, kind);
        for reasons in 0..1u32 << REFUSALS.len() {
            let has =
                |refusal: u32| REFUSALS.iter().position(|&one| one == refusal).is_some_and(|i| reasons >> i & 1 == 1);
            for turn in 0..8 {
                let (mut links, mut held) = (desk.links.clone(), tables::of(&desk));
                if has(3) {
                    (links, held) = unsound(&mut random, &desk);
                }
                if has(1) {
                    resize(&mut random, &mut links, &mut held);
                }
                let figures = if has(13) { another_length(&mut random) } else { LIST_FIGURES };
                let mut request = listings::request(&mut random, kind, &desk);
                if has(5) {
                    end_before_low(&mut random, &desk, &mut request);
                }
                if has(4) {
                    spoil(&mut random, &mut request, has(5));
                }
                let what = format!("seed {seed:#x}, reasons {reasons:#b}, turn {turn}, {figures} figures, {request:?}");
                let answer = list(&links, &held, figures, &request, &what);
                let expected = REFUSALS.into_iter().find(|&refusal| has(refusal)).unwrap_or(0);
                assert_eq!(answer.err().unwrap_or(0), expected, "{what}");
                by_refusal[expected as usize] += 1;
            }
        }
    }
    for refusal in REFUSALS {
        println!("{} refused {refusal}", by_refusal[refusal as usize]);
        assert!(by_refusal[refusal as usize] >= 400, "{by_refusal:?}");
    }
    println!("{} accepted", by_refusal[0]);
}

fn another_length(random: &mut Random) -> usize {
    loop {
        let figures = list_size(random);
        if figures != LIST_FIGURES {
            return figures;
        }
    }
}

/// Makes the latest start one before low, or much earlier; on a desk at minute 0 the earliest start moves too.
fn end_before_low(random: &mut Random, desk: &Desk, request: &mut Request) {
    request.earliest = request.earliest.max(1);
    let low = desk.low(request);
    request.latest = if random.once_in(2) { low - 1 } else { random.below(low as u64) as u32 };
}

/// Puts one field out of range. The window stays empty if it has to.
fn spoil(random: &mut Random, request: &mut Request, empty_window: bool) {
    match random.below(if empty_window { 9 } else { 10 }) {
        0 => request.from = 32,
        1 => request.to = u32::MAX,
        2 => request.to = request.from,
        3 => request.bandwidth = 0,
        4 => request.bandwidth = 1_000_001,
        5 => request.duration = 0,
        6 => request.duration = MAX_DURATION + 1,
        7 => request.duration = u32::MAX,
        8 => request.earliest = MAX_MINUTE + 1,
        _ => request.latest = MAX_MINUTE + 1,
    }
}
