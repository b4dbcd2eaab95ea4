//! What both unverified desks share: the lent tables, the checks of figures one by one, the answers that a sound desk only looks up,
//! and changes to the book.

use desk_tests::{Head, Link, Request};
use desk_tests::{BOOKINGS, EVENTS, LINKS, LIST_FIGURES, NODES, PATH_LINKS, PLACE, ROW, TOTALS};
use desk_tests::{MAX_BANDWIDTH, MAX_CAPACITY, MAX_DURATION, MAX_GUARD, MAX_MINUTE, MAX_NUMBER, MAX_SHOWN};

// The fields of a place of the book; the path follows them.
pub const NUMBER: usize = 0;
pub const START: usize = 1;
const DURATION: usize = 2;
pub const BANDWIDTH: usize = 3;
const COUNT: usize = 4;
const PATH: usize = 5;

/// The lent head and tables of a desk.
pub struct Tables<'a> {
    pub head: &'a mut Head,
    pub events: &'a mut [u32],
    pub free: &'a mut [u32],
    pub book: &'a mut [u32],
    pub totals: &'a mut [u64],
}

pub type Path = [u32; PATH_LINKS];

/// A start minute with its path, of which the first `count` links are used.
#[derive(Clone, Copy, Debug, PartialEq, Eq)]
pub struct Start {
    pub minute: u32,
    pub count: u32,
    pub path: Path,
}

/// Refuses 1.
pub fn check_sizes(links: &[Link], tables: &Tables) -> Result<(), u32> {
    let good = tables.events.len() == EVENTS
        && tables.free.len() == EVENTS * ROW
        && tables.book.len() == BOOKINGS * PLACE
        && tables.totals.len() == TOTALS
        && (1..=LINKS).contains(&links.len());
    good.then_some(()).ok_or(1)
}

/// Refuses 1, 13.
pub fn check_sizes_and_list(links: &[Link], tables: &Tables, list: &[u32]) -> Result<(), u32> {
    check_sizes(links, tables)?;
    (list.len() == LIST_FIGURES).then_some(()).ok_or(13)
}

/// Whether the figures of the head are in range, and the links are as many as it says.
pub fn valid_head(links: &[Link], head: &Head) -> bool {
    let in_range = head.clock <= MAX_MINUTE && head.guard <= MAX_GUARD;
    in_range && head.links as usize == links.len() && head.bookings as usize <= BOOKINGS
}

pub fn valid_link(link: &Link) -> bool {
    link.from < NODES as u32
        && link.to < NODES as u32
        && link.from != link.to
        && (1..=MAX_CAPACITY).contains(&link.capacity)
}

/// Whether a used place has its figures in range, stands at the clock and has a path with zeros behind it.
pub fn valid_booking(links: &[Link], clock: u32, guard: u32, place: &[u32]) -> bool {
    let count = place[COUNT] as usize;
    let in_range = valid_number(place[NUMBER])
        && place[START] <= MAX_MINUTE
        && (1..=MAX_DURATION).contains(&place[DURATION])
        && (1..=MAX_BANDWIDTH).contains(&place[BANDWIDTH])
        && (1..=PATH_LINKS).contains(&count);
    if !in_range || guarded_end(place, guard) <= clock {
        return false;
    }
    let (path, rest) = place[PATH..].split_at(count);
    let Some(first) = links.get(path[0] as usize) else { return false };
    let (mut node, mut met) = (first.from, 1u32 << first.from);
    for &number in path {
        let Some(link) = links.get(number as usize) else { return false };
        if link.from != node || met >> link.to & 1 == 1 {
            return false;
        }
        node = link.to;
        met |= 1 << node;
    }
    all_zero(rest)
}

/// Refuses 4, 5.
pub fn check_request(clock: u32, request: &Request) -> Result<(), u32> {
    let in_range = request.from < NODES as u32
        && request.to < NODES as u32
        && request.from != request.to
        && (1..=MAX_BANDWIDTH).contains(&request.bandwidth)
        && (1..=MAX_DURATION).contains(&request.duration)
        && request.earliest <= MAX_MINUTE
        && request.latest <= MAX_MINUTE;
    if !in_range {
        return Err(4);
    }
    if request.latest < request.earliest.max(clock) {
        return Err(5);
    }
    Ok(())
}

/// Refuses 4, 5, 6, 7; answers the place where the booking would go.
pub fn check_booking(tables: &Tables, number: u32, request: &Request) -> Result<usize, u32> {
    if !valid_number(number) {
        return Err(4);
    }
    check_request(tables.head.clock, request)?;
    let Err(place) = find(tables, number) else { return Err(6) };
    if tables.head.bookings as usize == BOOKINGS {
        return Err(7);
    }
    Ok(place)
}

/// Refuses 4, 9; answers the place of the booking.
pub fn check_cancelling(tables: &Tables, number: u32) -> Result<usize, u32> {
    if !valid_number(number) {
        return Err(4);
    }
    find(tables, number).map_err(|_| 9)
}

/// Refuses 4, 10.
pub fn check_minute(clock: u32, minute: u32) -> Result<(), u32> {
    if minute > MAX_MINUTE {
        return Err(4);
    }
    if minute < clock {
        return Err(10);
    }
    Ok(())
}

/// The free figure of a link in a minute. Refuses 4.
pub fn shown(links: &[Link], tables: &Tables, events: usize, link: u32, minute: u32) -> Result<u32, u32> {
    if link as usize >= links.len() || minute < tables.head.clock || minute > MAX_SHOWN {
        return Err(4);
    }
    let row = row_at(&tables.events[..events], minute);
    Ok(tables.free[row * ROW + link as usize])
}

/// The total of a link. Refuses 4.
pub fn sold(links: &[Link], tables: &Tables, link: u32) -> Result<u64, u32> {
    if link as usize >= links.len() {
        return Err(4);
    }
    Ok(tables.totals[link as usize])
}

/// Enters a booking: the events of its start and end, its bandwidth taken in between, its place and its work. Answers the number
/// of events.
pub fn enter(tables: &mut Tables, events: usize, place: usize, number: u32, request: &Request, start: &Start) -> usize {
    let &Request { bandwidth, duration, .. } = request;
    let (first, events) = insert_event(tables, events, start.minute);
    let (end, events) = insert_event(tables, events, start.minute + duration + tables.head.guard);
    for row in tables.free[first * ROW..end * ROW].chunks_exact_mut(ROW) {
        for &link in &start.path[..start.count as usize] {
            row[link as usize] -= bandwidth;
        }
    }
    let used = tables.head.bookings as usize * PLACE;
    tables.book.copy_within(place * PLACE..used, (place + 1) * PLACE);
    let figures = &mut tables.book[place * PLACE..][..PLACE];
    figures[..PATH].copy_from_slice(&[number, start.minute, duration, bandwidth, start.count]);
    figures[PATH..].copy_from_slice(&start.path);
    add_work(figures, tables.totals);
    tables.head.bookings += 1;
    events
}

/// Takes a place out of the book.
pub fn take_out(tables: &mut Tables, place: usize) {
    let used = tables.head.bookings as usize * PLACE;
    tables.book.copy_within((place + 1) * PLACE..used, place * PLACE);
    tables.book[used - PLACE..used].fill(0);
    tables.head.bookings -= 1;
}

/// Takes the places out of the book whose bookings no longer stand at a minute.
pub fn drop_ended(tables: &mut Tables, minute: u32) {
    let used = tables.head.bookings as usize;
    let mut kept = 0;
    for place in 0..used {
        let figures = place * PLACE..(place + 1) * PLACE;
        if guarded_end(&tables.book[figures.clone()], tables.head.guard) > minute {
            tables.book.copy_within(figures, kept * PLACE);
            kept += 1;
        }
    }
    tables.book[kept * PLACE..used * PLACE].fill(0);
    tables.head.bookings = kept as u32;
}

/// Adds an event with a copy of the row before it, if it isn't there; answers its row and the number of events.
fn insert_event(tables: &mut Tables, events: usize, minute: u32) -> (usize, usize) {
    let row = tables.events[..events].partition_point(|&event| event < minute);
    if row < events && tables.events[row] == minute {
        return (row, events);
    }
    tables.events.copy_within(row..events, row + 1);
    tables.events[row] = minute;
    // The rows from the one before on move up by one, and that one stays as well.
    tables.free.copy_within((row - 1) * ROW..events * ROW, row * ROW);
    (row, events + 1)
}

/// The row that holds in a minute, from the clock on.
pub fn row_at(events: &[u32], minute: u32) -> usize {
    events.partition_point(|&event| event <= minute) - 1
}

/// The place of a standing number, or the place where it would go.
fn find(tables: &Tables, number: u32) -> Result<usize, usize> {
    let used = &tables.book[..tables.head.bookings as usize * PLACE];
    let place = used.chunks_exact(PLACE).position(|place| place[NUMBER] >= number).unwrap_or(used.len() / PLACE);
    if used.get(place * PLACE) == Some(&number) {
        Ok(place)
    } else {
        Err(place)
    }
}

/// The minute from which on the booking of a place holds nothing and no longer stands.
pub fn guarded_end(place: &[u32], guard: u32) -> u32 {
    place[START] + place[DURATION] + guard
}

/// The links of the booking of a place.
pub fn path(place: &[u32]) -> &[u32] {
    &place[PATH..][..place[COUNT] as usize]
}

/// The work of the booking of a place.
pub fn work(place: &[u32]) -> u64 {
    u64::from(place[BANDWIDTH]) * u64::from(place[DURATION])
}

/// Adds the work of the booking of a place to the totals of its links.
pub fn add_work(place: &[u32], totals: &mut [u64]) {
    let work = work(place);
    path(place).iter().for_each(|&link| totals[link as usize] += work);
}

fn valid_number(number: u32) -> bool {
    (1..=MAX_NUMBER).contains(&number)
}

pub fn all_zero(figures: &[u32]) -> bool {
    figures.iter().fold(0, |any, figure| any | figure) == 0
}

/// The numbers of a set of links, rising.
pub fn members(mut set: u64) -> impl Iterator<Item = usize> {
    std::iter::from_fn(move || {
        let number = set.trailing_zeros() as usize;
        set &= set.wrapping_sub(1);
        (number < LINKS).then_some(number)
    })
}
