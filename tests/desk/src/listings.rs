//! Whether the ranges of a listing are right, in windows of any length; and random desks of many kinds to list on.

use support::Random;

use crate::calls::{just_free, often_short_guard, pick};
use crate::plain::{best_path, Booking, Desk, Range, Trial, Walk};
use crate::{Link, Request};
use crate::{BOOKINGS, LINKS, MAX_BANDWIDTH, MAX_CAPACITY, MAX_DURATION, MAX_MINUTE, NODES};

/// A window of at most so many minutes is tried at each of them.
const SHORT_WINDOW: u32 = 300;
/// So many minutes are sampled anywhere in the window, and as many near its events.
const SAMPLES: u64 = 20;

/// What is wrong with ranges as the listing of a request that is not refused. They rise, no two touch, and a minute is in
/// one of them exactly if it is possible: every minute of a short window, else the minutes of `sampled`.
pub fn fault(random: &mut Random, desk: &Desk, request: &Request, ranges: &[Range]) -> Option<String> {
    let (low, latest) = (desk.low(request), request.latest);
    let outside = |range: &&Range| range.first < low || range.last < range.first || latest < range.last;
    if let Some(range) = ranges.iter().find(outside) {
        return Some(format!("{range:?} is no range of {low} to {latest}"));
    }
    if let Some(pair) = ranges.windows(2).find(|pair| pair[1].first <= pair[0].last + 1) {
        return Some(format!("{pair:?} fall or touch"));
    }
    if latest - low < SHORT_WINDOW {
        let right = desk.ranges(request, Walk::ToLatest);
        return (right != ranges).then(|| format!("{ranges:?} for {right:?}"));
    }
    let mut trial = Trial::new(desk, request);
    let wrong = sampled(random, desk, request, ranges).into_iter().find(|&minute| {
        let listed = ranges.iter().any(|range| range.first <= minute && minute <= range.last);
        listed != trial.path_at(minute).is_some()
    });
    wrong.map(|minute| format!("minute {minute} is listed and not possible, or possible and not listed, in {ranges:?}"))
}

/// Minutes of a window: its ends, any ones, and every first, last, event and event less the span with its neighbours.
fn sampled(random: &mut Random, desk: &Desk, request: &Request, ranges: &[Range]) -> Vec<u32> {
    let (low, latest) = (desk.low(request), request.latest);
    let events = desk.events();
    let span = request.duration + desk.guard;
    let near = |minute: u32| [minute.saturating_sub(1), minute, minute.saturating_add(1)];
    let mut minutes = vec![low, low + 1, latest - 1, latest];
    minutes.extend(ranges.iter().flat_map(|range| [range.first, range.last]).flat_map(near));
    minutes.extend(events.iter().copied().flat_map(near));
    minutes.extend(events.iter().map(|event| event.saturating_sub(span)).flat_map(near));
    for _ in 0..SAMPLES {
        minutes.push(random.within(low as u64, latest as u64) as u32);
        let reach = 2 * span as u64 + 50;
        minutes.push((*pick(random, &events) as u64 + random.below(reach)).saturating_sub(reach / 2) as u32);
    }
    minutes.retain(|&minute| low <= minute && minute <= latest);
    minutes.sort();
    minutes.dedup();
    minutes
}

/// What a desk to list on is like.
#[derive(Clone, Copy, Debug, PartialEq, Eq)]
pub enum Kind {
    /// No booking, so that the clock is the only event.
    OneRow,
    /// A few bookings on a few links.
    Few,
    /// 64 bookings on a few links, close together.
    Full,
    /// 64 bookings with starts and ends far apart, so that mostly all 129 events occur.
    Spread,
    /// 64 links over all 32 nodes, and up to 64 bookings.
    Wide,
    /// A chain over all 32 nodes, so that paths have up to 31 links, and up to 64 bookings.
    Chain,
    /// Bookings of up to a year.
    Long,
    /// A clock shortly before the last minute.
    Late,
}

pub const KINDS: [Kind; 8] =
    [Kind::OneRow, Kind::Few, Kind::Full, Kind::Spread, Kind::Wide, Kind::Chain, Kind::Long, Kind::Late];

/// A desk of a kind. Its bookings stand wherever they fit, not where a desk would have put them.
pub fn desk(random: &mut Random, kind: Kind) -> Desk {
    let clock = match kind {
        Kind::Late => MAX_MINUTE - random.below(200) as u32,
        _ => *pick(random, &[0, 0, 1, 977, 1_000_000]),
    };
    let (links, guard) = (net(random, kind), often_short_guard(random));
    let mut desk = Desk { links, guard, clock, bookings: Vec::new() };
    let bookings = match kind {
        Kind::OneRow => 0,
        Kind::Full | Kind::Spread => BOOKINGS,
        Kind::Wide | Kind::Chain => *pick(random, &[5, 30, BOOKINGS]),
        _ => random.within(1, 12) as usize,
    };
    for _ in 0..8 * BOOKINGS {
        if desk.bookings.len() < bookings {
            add_booking(random, kind, &mut desk);
        }
    }
    desk
}

fn net(random: &mut Random, kind: Kind) -> Vec<Link> {
    let (nodes, links) = match kind {
        Kind::Wide => (NODES as u64, LINKS as u64),
        Kind::Chain => (NODES as u64, *pick(random, &[31, 40, LINKS as u64])),
        _ => (random.within(2, 4), random.within(1, 7)),
    };
    let capacity = *pick(random, &[3, 10, 1_000, MAX_CAPACITY as u64]);
    let link = |place: u64| {
        let chained = (place % (nodes - 1), place % (nodes - 1) + 1);
        let from = random.below(nodes);
        let any = (from, (from + random.within(1, nodes - 1)) % nodes);
        let (from, to) = if kind == Kind::Chain { chained } else { any };
        Link { from: from as u32, to: to as u32, capacity: random.within(1 + capacity / 2, capacity) as u32 }
    };
    (0..links).map(link).collect()
}

/// Adds a booking of another number between any two nodes that a path joins, if there is room for it. It often takes all
/// that is left of a link, so that listings have gaps.
fn add_booking(random: &mut Random, kind: Kind, desk: &mut Desk) {
    let (from, to) = ends(random, kind, desk);
    let breadth = match kind {
        Kind::Full => 140,
        Kind::Spread => 30_000,
        Kind::Long => 2_000_000,
        Kind::Chain | Kind::Wide => 600,
        _ => 60,
    };
    let longest = match kind {
        Kind::Spread => 300,
        Kind::Long => MAX_DURATION as u64,
        _ => *pick(random, &[1, 3, 15]),
    };
    let start = (desk.clock as u64 + random.below(breadth)).saturating_sub(2).min(MAX_MINUTE as u64) as u32;
    let duration = random.within(1, longest) as u32;
    let Some(path) = best_path(&desk.links, random.next() | random.next(), from, to) else { return };
    let end = start + duration + desk.guard;
    let changes = desk.events().into_iter().filter(|&event| start < event && event < end).chain([start]);
    let room = changes.flat_map(|minute| path.iter().map(move |&link| (link, minute)));
    let room = room.map(|(link, minute)| desk.residual(link, minute)).min().unwrap_or(0) as u64;
    if room == 0 || end <= desk.clock {
        return;
    }
    let bandwidth = if random.once_in(2) { room } else { random.within(1, room) } as u32;
    let number = 1 + desk.bookings.len() as u32;
    desk.bookings.push(Booking { number, start, duration, bandwidth, path });
}

fn ends(random: &mut Random, kind: Kind, desk: &Desk) -> (u32, u32) {
    let (first, last) = (*pick(random, &desk.links), *pick(random, &desk.links));
    match kind {
        Kind::Chain if random.once_in(2) => (0, NODES as u32 - 1),
        _ if first.from == last.to => (first.from, first.to),
        _ => (first.from, last.to),
    }
}

/// An offer's fields for a listing on a desk of a kind, none of them out of range: durations of a minute and of a year,
/// windows of one minute, from before the clock and to the last minute, a bandwidth that is just free or one more.
pub fn request(random: &mut Random, kind: Kind, desk: &Desk) -> Request {
    let (from, to) = ends(random, kind, desk);
    let events = desk.events();
    let near = |random: &mut Random| (*pick(random, &events) + random.below(5) as u32).saturating_sub(2);
    let duration = match random.below(10) {
        0 | 1 => 1,
        2 => MAX_DURATION,
        3 => 2,
        4 if kind == Kind::Long => random.within(1, MAX_DURATION as u64) as u32,
        5 if kind == Kind::Spread => random.within(1, 900) as u32,
        _ => random.within(1, 20) as u32,
    };
    let earliest = match random.below(8) {
        0 => 0,
        1 => desk.clock.saturating_sub(random.below(9) as u32),
        2 | 3 => desk.clock,
        4 => MAX_MINUTE - random.below(3) as u32,
        _ => near(random).min(MAX_MINUTE),
    };
    let low = earliest.max(desk.clock);
    let latest = match random.below(8) {
        0 => low,
        1..=3 => MAX_MINUTE,
        4 => near(random),
        5 => low + random.below(40) as u32,
        6 => low + random.below(260) as u32,
        _ => random.within(low as u64, MAX_MINUTE as u64) as u32,
    };
    let capacity = pick(random, &desk.links).capacity;
    let bandwidth = match random.below(6) {
        0 => 1,
        1 | 2 => just_free(random, desk),
        3 => just_free(random, desk) + 1,
        _ => random.within(1, capacity as u64) as u32,
    };
    let bandwidth = bandwidth.clamp(1, MAX_BANDWIDTH);
    Request { from, to, bandwidth, duration, earliest, latest: latest.clamp(low, MAX_MINUTE) }
}
