//! Random nets, and random calls that suit a net and what the desk holds: both generators of sessions and of histories
//! draw from here.

use support::Random;

use crate::lines::OPEN;
use crate::plain::{Booking, Call, Desk, Walk};
use crate::{Link, Request};
use crate::{LINKS, LIST_FIGURES, MAX_CAPACITY, MAX_DURATION, MAX_GUARD, MAX_MINUTE, MAX_NUMBER, MAX_SHOWN, NODES};

/// What the calls of a session or history are like.
#[derive(Clone, Copy, Debug, PartialEq, Eq)]
pub enum Style {
    /// Few nodes, parallel links, little capacity, short bookings that stand close together.
    Dense,
    /// All 32 nodes, up to 64 links.
    Wide,
    /// A chain over all 32 nodes, so that paths have up to 31 links.
    Chain,
    /// So many small bookings that the 64th and a 65th occur.
    Full,
    /// As full, with starts and ends so far apart that all 129 events occur.
    Spread,
    /// Bookings of up to 525,600 minutes on few links.
    Long,
    /// The clock stands shortly before the last minute.
    Late,
    /// Bookings that lie far apart.
    Far,
}

pub const STYLES: [Style; 8] =
    [Style::Dense, Style::Wide, Style::Chain, Style::Full, Style::Spread, Style::Long, Style::Late, Style::Far];

/// No request may make the independent desk walk through more minutes than this, and no clock move pass more.
const LONGEST_WALK: u32 = 1_500_000;
/// The same for a listing, which never stops at a start.
const LONGEST_LISTING: u32 = 50_000;
/// A request is made to meet a booking that starts at most so many minutes after its low.
const NEXT_BOOKINGS: u32 = 40_000;

/// Whether the book fills up.
pub fn fills(style: Style) -> bool {
    matches!(style, Style::Full | Style::Spread)
}

pub fn style(random: &mut Random) -> Style {
    *pick(random, &STYLES)
}

/// A net of 1 to 64 valid links.
pub fn net(random: &mut Random, style: Style) -> Vec<Link> {
    let capacity = match style {
        Style::Full | Style::Spread => *pick(random, &[60, 400, MAX_CAPACITY as u64]),
        Style::Long => *pick(random, &[20, 1_000, MAX_CAPACITY as u64, MAX_CAPACITY as u64]),
        _ => *pick(random, &[3, 10, 20, 1_000, MAX_CAPACITY as u64]),
    };
    let (nodes, links) = match style {
        Style::Dense | Style::Late | Style::Far => (random.within(2, 5), random.within(1, 14)),
        Style::Wide => (NODES as u64, random.within(32, LINKS as u64)),
        Style::Chain => (NODES as u64, *pick(random, &[31, 31, 36, 62, 64])),
        Style::Full | Style::Spread => (random.within(2, 4), random.within(2, 8)),
        Style::Long => (random.within(2, 4), random.within(1, 6)),
    };
    let mut net: Vec<Link> = (0..links)
        .map(|i| {
            let ring = (i % nodes, (i + 1) % nodes);
            let chain = (i % (nodes - 1), i % (nodes - 1) + 1);
            let any = random.below(nodes);
            let other = (any + random.within(1, nodes - 1)) % nodes;
            let (from, to) = match style {
                Style::Chain => chain,
                Style::Wide if i < nodes => ring,
                _ => (any, other),
            };
            Link { from: from as u32, to: to as u32, capacity: random.within(1 + capacity / 2, capacity) as u32 }
        })
        .collect();
    for place in 0..net.len() {
        let other = random.below(net.len() as u64) as usize;
        net.swap(place, other);
    }
    net
}

/// A guard of 0 to 15 minutes, each as often.
pub fn guard(random: &mut Random) -> u32 {
    random.within(0, MAX_GUARD as u64) as u32
}

/// The same, but every other one is short, so that gaps between bookings stay wide enough for starts.
pub fn often_short_guard(random: &mut Random) -> u32 {
    if random.once_in(2) {
        random.below(4) as u32
    } else {
        guard(random)
    }
}

/// A guard that no set-up accepts.
pub fn long_guard(random: &mut Random) -> u32 {
    let any = random.within(MAX_GUARD as u64 + 1, u32::MAX as u64) as u32;
    *pick(random, &[MAX_GUARD + 1, MAX_GUARD + 2, 32, 255, 256, u32::MAX, any])
}

/// The minute to which a session of this style first moves its clock.
pub fn first_minute(random: &mut Random, style: Style) -> u32 {
    match style {
        Style::Late => MAX_MINUTE - random.within(0, 60) as u32,
        _ => *pick(random, &[0, 0, 0, 7, 1_000_000]),
    }
}

/// A random order: a booking, an offer, a cancellation or a clock move. A field may be out of its range, and a latest start
/// may be OPEN.
pub fn order(random: &mut Random, style: Style, desk: &Desk) -> Call {
    let (book, offer, cancel) = match style {
        Style::Full | Style::Spread => (86, 92, 97),
        Style::Late => (60, 75, 93),
        _ => (55, 70, 86),
    };
    match random.below(100) {
        roll if roll < book => Call::Book(number(random, style, desk), request(random, style, desk, true)),
        roll if roll < offer => Call::Offer(request(random, style, desk, false)),
        roll if roll < cancel => Call::Cancel(cancelled(random, desk)),
        _ => Call::MoveClock(new_minute(random, style, desk)),
    }
}

/// A random one of the eight calls. Set-ups are rare, and nearly half of them are bad.
pub fn call(random: &mut Random, style: Style, desk: &Desk) -> Call {
    match random.below(200) {
        0 => set_up(random, style),
        1..=30 => {
            let minute = match random.below(20) {
                0 => desk.clock.wrapping_sub(1),
                1 => MAX_SHOWN - random.within(0, MAX_GUARD as u64 + 1) as u32,
                2 => MAX_SHOWN,
                3 => MAX_SHOWN + 1,
                4 => u32::MAX,
                5 => desk.clock,
                _ => near_event(random, desk),
            };
            Call::Show { link: asked_link(random, desk), minute }
        }
        31..=50 => {
            let figures = if random.once_in(20) { list_size(random) } else { LIST_FIGURES };
            Call::List(figures, listed(random, style, desk))
        }
        51..=70 => Call::Sold { link: asked_link(random, desk) },
        _ => {
            let mut call = order(random, style, desk);
            if let Call::Book(_, request) | Call::Offer(request) = &mut call {
                mostly_closed(random, request);
            }
            call
        }
    }
}

/// A link to ask for: one in twenty is right behind the list, or further off it.
fn asked_link(random: &mut Random, desk: &Desk) -> u32 {
    let (count, most) = (desk.links.len() as u32, LINKS as u32);
    match random.below(40) {
        0 => count,
        1 => (*pick(random, &[most - 1, most, 2 * most, u32::MAX])).max(count + 1),
        _ => random.below(count as u64) as u32,
    }
}

/// The fields of a listing, of which any may be out of its range, with a window of any length. Every other one asks for the
/// ends of a standing booking from the clock on, and for what a link of its path has left at some event, or one more.
pub fn listed(random: &mut Random, style: Style, desk: &Desk) -> Request {
    let mut request = request(random, style, desk, false);
    mostly_closed(random, &mut request);
    if !desk.bookings.is_empty() && random.once_in(2) {
        let path = &pick(random, &desk.bookings).path;
        let [first, last] = [path[0], path[path.len() - 1]].map(|link| desk.links[link as usize]);
        let (link, event) = (*pick(random, path), *pick(random, &desk.events()));
        (request.from, request.to) = (first.from, last.to);
        (request.earliest, request.latest) = (0, request.latest.max(desk.clock + 300).min(MAX_MINUTE));
        request.bandwidth = desk.residual(link, event) as u32 + random.once_in(2) as u32;
    }
    request
}

/// What some link has left at some event; 0 if that is none.
pub fn just_free(random: &mut Random, desk: &Desk) -> u32 {
    let event = *pick(random, &desk.events());
    desk.residual(random.below(desk.links.len() as u64) as u32, event) as u32
}

/// Only a record leaves the latest start open.
fn mostly_closed(random: &mut Random, request: &mut Request) {
    if request.latest == OPEN && !random.once_in(30) {
        request.latest = MAX_MINUTE;
    }
}

/// A number of figures that a lent list may have, mostly not the right one.
pub fn list_size(random: &mut Random) -> usize {
    let any = random.below(2 * LIST_FIGURES as u64) as usize;
    *pick(random, &[0, 1, 2, LIST_FIGURES / 2, LIST_FIGURES - 2, LIST_FIGURES - 1, LIST_FIGURES + 1, any])
}

/// A set-up in mid-history, sometimes with a bad link, a bad number of links or a guard that is too long, or several of these.
fn set_up(random: &mut Random, style: Style) -> Call {
    let mut links = net(random, style);
    if random.once_in(6) {
        let bad = random.below(links.len() as u64) as usize;
        links[bad] = bad_link(random);
    }
    match random.below(12) {
        0 => links.clear(),
        1 => links.resize(LINKS + 1, links[0]),
        _ => {}
    }
    let guard = if random.once_in(6) { long_guard(random) } else { guard(random) };
    Call::SetUp { links, guard }
}

/// A link that no set-up accepts.
pub fn bad_link(random: &mut Random) -> Link {
    let node = random.below(NODES as u64) as u32;
    let (from, to, capacity) = (node, (node + 1) % NODES as u32, 10);
    match random.below(6) {
        0 => Link { from: NODES as u32, to, capacity },
        1 => Link { from, to: u32::MAX, capacity },
        2 => Link { from, to: from, capacity },
        3 => Link { from, to, capacity: 0 },
        4 => Link { from, to, capacity: MAX_CAPACITY + 1 },
        _ => Link { from, to, capacity: 0xF_FFFF },
    }
}

fn number(random: &mut Random, style: Style, desk: &Desk) -> u32 {
    match random.below(60) {
        0 => *pick(random, &[0, MAX_NUMBER + 1, u32::MAX]),
        1 => MAX_NUMBER,
        2..=4 => standing(random, desk),
        _ if fills(style) => random.within(1, 400) as u32,
        _ => random.within(1, 60) as u32,
    }
}

fn cancelled(random: &mut Random, desk: &Desk) -> u32 {
    match random.below(12) {
        0 => *pick(random, &[0, MAX_NUMBER + 1]),
        1 | 2 => random.within(1, 60) as u32,
        _ => standing(random, desk),
    }
}

/// The number of a standing booking, or any number if none stands.
fn standing(random: &mut Random, desk: &Desk) -> u32 {
    if desk.bookings.is_empty() {
        return random.within(1, MAX_NUMBER as u64) as u32;
    }
    pick(random, &desk.bookings).number
}

fn new_minute(random: &mut Random, style: Style, desk: &Desk) -> u32 {
    let step = if fills(style) { 2 } else { 12 };
    match random.below(16) {
        0 => desk.clock,
        1 | 2 => desk.clock.saturating_sub(random.within(1, 5) as u32),
        3 => *pick(random, &[MAX_MINUTE + 1, u32::MAX]),
        4 if style == Style::Far && random.once_in(20) => MAX_MINUTE,
        5..=8 if !fills(style) => near_event(random, desk).min(MAX_MINUTE),
        _ => desk.clock.saturating_add(random.within(1, step) as u32).min(MAX_MINUTE),
    }
}

/// An event of the desk or the end of a booking, at which its guard begins; or the minute before or after one.
fn near_event(random: &mut Random, desk: &Desk) -> u32 {
    let any_end = !desk.bookings.is_empty() && random.once_in(4);
    let event = if any_end { pick(random, &desk.bookings).end() } else { *pick(random, &desk.events()) };
    match random.below(4) {
        0 => event.saturating_sub(1),
        1 => event + 1,
        _ => event,
    }
}

/// Any request; one in eight mostly meets a booking.
fn request(random: &mut Random, style: Style, desk: &Desk, stands: bool) -> Request {
    let request = any_request(random, style, desk, stands);
    if random.once_in(8) {
        return meeting_a_booking(random, desk, request);
    }
    request
}

/// A request whose ends mostly are nodes of the net. A booking of a year is left to the styles in which no walk grows long.
fn any_request(random: &mut Random, style: Style, desk: &Desk, stands: bool) -> Request {
    let (from, to) = ends(random, style, desk);
    let duration = match random.below(100) {
        0 => 0,
        1 => MAX_DURATION + 1,
        2..=4 if matches!(style, Style::Long | Style::Late) || !stands => MAX_DURATION,
        5..=30 if style == Style::Long => MAX_DURATION - random.below(3) as u32,
        31..=40 => 1,
        _ if style == Style::Full => random.within(20, 90) as u32,
        _ if style == Style::Spread => random.within(1, 20_000) as u32,
        41..=70 => random.within(10, 40) as u32,
        _ => random.within(1, 15) as u32,
    };
    let earliest = match random.below(100) {
        0 => MAX_MINUTE + 1,
        1 if style != Style::Long => *pick(random, &[MAX_MINUTE, MAX_MINUTE - 1]),
        2.. if style == Style::Spread && !random.once_in(100) => desk.clock + random.within(20, 30_000) as u32,
        2..=15 => 0,
        16..=40 => near_event(random, desk),
        41 | 42 if style == Style::Far => random.below(MAX_MINUTE as u64) as u32,
        43..=48 if style == Style::Far => desk.clock + random.within(1_000, 40_000) as u32,
        _ => (desk.clock + random.within(0, 20) as u32).saturating_sub(3),
    };
    let low = earliest.max(desk.clock);
    let latest = match random.below(100) {
        0..=2 => low.saturating_sub(1),
        3 => MAX_MINUTE + 1,
        4 => MAX_MINUTE,
        5..=15 => low,
        16..=30 => near_event(random, desk).clamp(low, low.max(MAX_MINUTE)),
        31..=40 => OPEN,
        41..=65 if style != Style::Long => OPEN,
        _ => (low + random.within(1, 25) as u32).min(low.max(MAX_MINUTE)),
    };
    Request { from, to, bandwidth: bandwidth(random, style, desk, low), duration, earliest, latest }
}

/// The request between the ends of a booking that starts later than its low, if there is one: with one more than some link of
/// that booking has left then, and a span from low to the booking's first minute, mostly that of the guard, or beyond.
fn meeting_a_booking(random: &mut Random, desk: &Desk, request: Request) -> Request {
    let low = desk.low(&request);
    let next = |booking: &&Booking| low < booking.start && booking.start <= low.saturating_add(NEXT_BOOKINGS);
    let bookings: Vec<&Booking> = desk.bookings.iter().filter(next).collect();
    if bookings.is_empty() {
        return request;
    }
    let Booking { start, path, .. } = *pick(random, &bookings);
    let [first, last] = [path[0], path[path.len() - 1]].map(|link| desk.links[link as usize]);
    let bandwidth = desk.residual(*pick(random, path), *start) as u32 + 1;
    let to_booking = start + 1 - low;
    let duration = match random.below(3) {
        0 => to_booking + random.below(60) as u32,
        _ => to_booking.saturating_sub(random.below(desk.guard as u64 + 1) as u32).max(1),
    };
    let latest = if random.once_in(2) { low } else { low + random.below(to_booking as u64) as u32 };
    Request { from: first.from, to: last.to, bandwidth, duration, latest, ..request }
}

/// Source and destination, of two links of the net, or over the whole chain.
fn ends(random: &mut Random, style: Style, desk: &Desk) -> (u32, u32) {
    let (first, last) = (*pick(random, &desk.links), *pick(random, &desk.links));
    match random.below(100) {
        0 => (first.from, first.from),
        1 => (first.from, random.below(NODES as u64) as u32),
        2 => (first.from, *pick(random, &[NODES as u32, u32::MAX])),
        3 => (NODES as u32, last.to),
        4..=35 if style == Style::Chain => (0, NODES as u32 - 1),
        _ if first.from == last.to => (first.from, first.to),
        _ => (first.from, last.to),
    }
}

/// A bandwidth for a request from this minute on: often just what a link has left, or one more.
fn bandwidth(random: &mut Random, style: Style, desk: &Desk, low: u32) -> u32 {
    let link = random.below(desk.links.len() as u64) as u32;
    let capacity = desk.links[link as usize].capacity;
    match random.below(100) {
        0 => 0,
        1 => *pick(random, &[MAX_CAPACITY, MAX_CAPACITY + 1, 0xF_FFFF]),
        2..=4 => capacity + 1,
        _ if fills(style) => random.within(1, 1 + capacity as u64 / 60) as u32,
        5..=15 => capacity,
        16..=30 => desk.residual(link, low).max(1) as u32,
        31..=36 => desk.residual(link, low) as u32 + 1,
        37..=60 => random.within(1, capacity as u64) as u32,
        _ => random.within(1, 1 + capacity as u64 / 3) as u32,
    }
}

/// Whether a call may be used: the independent desk answers it within a short walk, and it doesn't move the clock so far
/// that nothing is left of the history before.
pub fn suits(style: Style, desk: &Desk, call: &Call) -> bool {
    match call {
        Call::Book(_, request) | Call::Offer(request) => desk.check(request).is_err() || walkable(desk, request),
        Call::List(figures, request) => {
            let walk = || desk.last_tried(request, Walk::ToLastEvent) - desk.low(request);
            desk.check_listing(*figures, request).is_err() || walk() <= LONGEST_LISTING
        }
        Call::MoveClock(minute) => {
            style == Style::Far || *minute > MAX_MINUTE || minute.saturating_sub(desk.clock) <= LONGEST_WALK
        }
        _ => true,
    }
}

/// Whether a valid request's window ends soon, or the desk's events do, or a start is found soon.
fn walkable(desk: &Desk, request: &Request) -> bool {
    let low = desk.low(request);
    let last_event = desk.events().last().copied().unwrap_or(low);
    let near = Request { latest: request.latest.min(low + 1_000), ..*request };
    request.latest.min(last_event).saturating_sub(low) <= LONGEST_WALK
        || desk.choose(&near, Walk::ToLastEvent).is_some()
}

pub fn pick<'a, T>(random: &mut Random, list: &'a [T]) -> &'a T {
    &list[random.below(list.len() as u64) as usize]
}
