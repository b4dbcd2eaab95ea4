//! The tables that documents 01 and 02 prescribe for a plain desk, and its rule of soundness for any figures.

use crate::plain::{valid_link, valid_number, Booking, Desk};
use crate::{Head, Link};
use crate::{BOOKINGS, EVENTS, LINKS, PATH_LINKS, PLACE, ROW, TOTALS};
use crate::{MAX_BANDWIDTH, MAX_DURATION, MAX_GUARD, MAX_MINUTE};

#[derive(Clone, Debug, PartialEq, Eq)]
pub struct Tables {
    pub head: Head,
    pub events: Vec<u32>,
    pub free: Vec<u32>,
    pub book: Vec<u32>,
    pub totals: Vec<u64>,
}

impl Tables {
    /// Tables of the right sizes, with the same figure everywhere, and in both halves of each total.
    pub fn filled_with(figure: u32) -> Tables {
        Tables {
            head: Head { clock: figure, links: figure, bookings: figure, guard: figure },
            events: vec![figure; EVENTS],
            free: vec![figure; EVENTS * ROW],
            book: vec![figure; BOOKINGS * PLACE],
            totals: vec![u64::from(figure) << 32 | u64::from(figure); TOTALS],
        }
    }
}

/// The tables of a desk. No link may be oversold.
pub fn of(desk: &Desk) -> Tables {
    written(desk, |residual| u32::try_from(residual).expect("no link is oversold"))
}

/// The tables of a desk, whose book may break a rule, with a free figure for each residual bandwidth.
pub fn written(desk: &Desk, figure: impl Fn(i64) -> u32) -> Tables {
    let mut tables = Tables::filled_with(0);
    let (links, bookings) = (desk.links.len() as u32, desk.bookings.len() as u32);
    tables.head = Head { clock: desk.clock, links, bookings, guard: desk.guard };
    for (row, minute) in desk.events().into_iter().enumerate() {
        tables.events[row] = minute;
        for (link, residual) in desk.residuals(minute).into_iter().enumerate() {
            tables.free[row * ROW + link] = figure(residual);
        }
    }
    let mut bookings: Vec<&Booking> = desk.bookings.iter().collect();
    bookings.sort_by_key(|booking| booking.number);
    for (place, booking) in bookings.into_iter().enumerate() {
        let figures = &mut tables.book[place * PLACE..][..PLACE];
        let fields = [booking.number, booking.start, booking.duration, booking.bandwidth, booking.path.len() as u32];
        figures[..fields.len()].copy_from_slice(&fields);
        figures[fields.len()..][..booking.path.len()].copy_from_slice(&booking.path);
    }
    tables.totals[..desk.links.len()].copy_from_slice(&desk.totals());
    tables
}

/// The desk that lent tables hold; 1 if a size is wrong, else 3 if they aren't sound.
pub fn read(links: &[Link], tables: &Tables) -> Result<Desk, u32> {
    let sizes = (tables.events.len(), tables.free.len(), tables.book.len(), tables.totals.len());
    if sizes != (EVENTS, EVENTS * ROW, BOOKINGS * PLACE, TOTALS) || links.is_empty() || links.len() > LINKS {
        return Err(1);
    }
    read_book(links, tables).filter(|desk| !oversold(desk) && of(desk) == *tables).ok_or(3)
}

/// Document 01's 'sound', for tables of any sizes and figures.
pub fn sound(links: &[Link], tables: &Tables) -> bool {
    read(links, tables).is_ok()
}

/// The desk of the head's guard and clock and the book's used places, if links, guard, clock and each of these bookings obey
/// the rules.
fn read_book(links: &[Link], tables: &Tables) -> Option<Desk> {
    let Head { clock, bookings: count, guard, .. } = tables.head;
    let count = count as usize;
    if clock > MAX_MINUTE || guard > MAX_GUARD || count > BOOKINGS || !links.iter().all(valid_link) {
        return None;
    }
    let places = tables.book.chunks(PLACE).take(count);
    let bookings = places.map(|place| read_booking(links, place)).collect::<Option<Vec<Booking>>>()?;
    let rising = bookings.windows(2).all(|pair| pair[0].number < pair[1].number);
    let desk = Desk { links: links.to_vec(), guard, clock, bookings };
    let all_stand = desk.bookings.iter().all(|booking| desk.guarded_end(booking) > clock);
    (rising && all_stand).then_some(desk)
}

/// A place of the book, if its booking is in range and has a path.
fn read_booking(links: &[Link], place: &[u32]) -> Option<Booking> {
    let &[number, start, duration, bandwidth, count, ref path @ ..] = place else { return None };
    let in_range = valid_number(number)
        && start <= MAX_MINUTE
        && (1..=MAX_DURATION).contains(&duration)
        && (1..=MAX_BANDWIDTH).contains(&bandwidth)
        && (1..=PATH_LINKS as u32).contains(&count);
    if !in_range {
        return None;
    }
    let path = path[..count as usize].to_vec();
    is_path(links, &path).then_some(Booking { number, start, duration, bandwidth, path })
}

/// Whether the links exist, each begins where the one before ended, and no node is met twice.
fn is_path(links: &[Link], path: &[u32]) -> bool {
    if path.iter().any(|&number| number as usize >= links.len()) {
        return false;
    }
    let mut met = vec![links[path[0] as usize].from];
    for &number in path {
        let link = links[number as usize];
        if met.last() != Some(&link.from) || met.contains(&link.to) {
            return false;
        }
        met.push(link.to);
    }
    true
}

fn oversold(desk: &Desk) -> bool {
    desk.events().into_iter().any(|minute| desk.residuals(minute).into_iter().any(|figure| figure < 0))
}
