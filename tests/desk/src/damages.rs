//! Random damages: one figure of the head, the events, the free figures, the book, the totals or a link changed, or a length
//! changed; events or totals with a mistake; and forged tables, whose figures all agree with a book that breaks a rule.

use support::Random;

use crate::calls::{guard, long_guard, pick};
use crate::plain::{Booking, Desk};
use crate::tables::{self, written, Tables};
use crate::{Link, BOOKINGS, EVENTS, LINKS, PATH_LINKS, PLACE, ROW, TOTALS};
use crate::{MAX_BANDWIDTH, MAX_DURATION, MAX_GUARD, MAX_MINUTE, MAX_NUMBER};

/// Changes one figure or one length, and says which. A changed figure is never the one that stood there.
pub fn damage(random: &mut Random, links: &mut Vec<Link>, tables: &mut Tables) -> String {
    let head = tables.head;
    match random.below(24) {
        0 => changed(random, "the head's clock", &mut tables.head.clock),
        1 => changed(random, "the head's links", &mut tables.head.links),
        2 => changed(random, "the head's bookings", &mut tables.head.bookings),
        3 => change_guard(random, tables),
        4..=7 => {
            let used = tables.events.iter().filter(|&&minute| minute != 0).count();
            let place = place(random, used + 1, EVENTS);
            changed(random, &format!("event {place}"), &mut tables.events[place])
        }
        8..=12 => {
            let used = tables.events.iter().filter(|&&minute| minute != 0).count();
            let (row, link) = (place(random, used + 1, EVENTS), place(random, links.len() + 1, ROW));
            changed(random, &format!("the free figure of row {row}, link {link}"), &mut tables.free[row * ROW + link])
        }
        13..=17 => {
            let (place, field) = (place(random, head.bookings as usize + 1, BOOKINGS), place(random, 8, PLACE));
            changed(random, &format!("field {field} of place {place}"), &mut tables.book[place * PLACE + field])
        }
        18..=20 => {
            let place = place(random, links.len() + 1, TOTALS);
            change_total(random, place, &mut tables.totals[place])
        }
        21 => {
            let number = random.below(links.len() as u64) as usize;
            let link = &mut links[number];
            let (name, figure) = match random.below(3) {
                0 => ("start", &mut link.from),
                1 => ("end", &mut link.to),
                _ => ("capacity", &mut link.capacity),
            };
            changed(random, &format!("the {name} of link {number}"), figure)
        }
        22 => match random.below(4) {
            0 => change_length(random, "events", &mut tables.events),
            1 => change_length(random, "free figures", &mut tables.free),
            2 => change_length(random, "book", &mut tables.book),
            _ => change_length(random, "totals", &mut tables.totals),
        },
        _ => {
            let length = loop {
                let length = random.below(LINKS as u64 + 4) as usize;
                if length != links.len() {
                    break if random.once_in(4) { 0 } else { length };
                }
            };
            links.resize(length, links[0]);
            format!("{length} links")
        }
    }
}

/// Every guard there is and some that there are not, but for one.
pub fn other_guards(guard: u32) -> impl Iterator<Item = u32> {
    (0..=MAX_GUARD + 2).chain([32, 255, u32::MAX]).filter(move |&other| other != guard)
}

/// Changes the head's guard to another one, mostly of 0 to 15, and says so.
fn change_guard(random: &mut Random, tables: &mut Tables) -> String {
    let old = tables.head.guard;
    while tables.head.guard == old {
        tables.head.guard = if random.once_in(3) { long_guard(random) } else { guard(random) };
    }
    format!("the head's guard changed from {old} to {}", tables.head.guard)
}

/// Changes one half of a total, and says so.
fn change_total(random: &mut Random, place: usize, total: &mut u64) -> String {
    let shift = 32 * random.below(2);
    let mut half = (*total >> shift) as u32;
    let what = changed(random, &format!("bits {shift} to {} of total {place}", shift + 31), &mut half);
    *total = *total & !(u64::from(u32::MAX) << shift) | u64::from(half) << shift;
    what
}

/// How many mistakes totals may have.
pub const WRONG_TOTALS: usize = 14;

/// Totals that are not the desk's, each with one mistake, and which.
pub fn wrong_totals(random: &mut Random, desk: &Desk) -> Vec<(&'static str, Vec<u64>)> {
    let (right, links) = (tables::of(desk).totals, desk.links.len() as u64);
    let with = |place: usize, total: u64| [&right[..place], &[total], &right[place + 1..]].concat();
    let any = random.below(TOTALS as u64) as usize;
    let mut wrong = vec![
        ("a low bit", with(any, right[any] ^ 1 << random.below(32))),
        ("a high bit", with(any, right[any] ^ 1 << random.within(32, 63))),
    ];
    if desk.links.len() < TOTALS {
        let unused = random.within(links, TOTALS as u64 - 1) as usize;
        let total = right[random.below(links) as usize];
        wrong
            .extend([("one in an unused place", with(unused, 1)), ("a total in an unused place", with(unused, total))]);
    }
    if !desk.bookings.is_empty() {
        let booking = pick(random, &desk.bookings);
        let link = *pick(random, &booking.path);
        let (place, total) = (link as usize, right[link as usize]);
        let on_link = || desk.bookings.iter().filter(|booking| booking.path.contains(&link));
        let sum = |minutes: &dyn Fn(&Booking) -> u32| {
            on_link().map(|booking| u64::from(booking.bandwidth) * u64::from(minutes(booking))).sum()
        };
        let mut exchanged = right.clone();
        exchanged.swap(place, (place + 1) % TOTALS);
        wrong.extend([
            ("one more", with(place, total + 1)),
            ("one less", with(place, total - 1)),
            ("none", with(place, 0)),
            ("the low half", with(place, total & u64::from(u32::MAX))),
            ("a booking left out", with(place, total - booking.work())),
            ("a booking twice", with(place, total + booking.work())),
            ("the guard counted", with(place, sum(&|booking| booking.duration + desk.guard))),
            (
                "what is to come",
                with(place, sum(&|booking| booking.end().max(desk.clock) - booking.start.max(desk.clock))),
            ),
            ("bandwidths alone", with(place, sum(&|_| 1))),
            ("exchanged with the next place", exchanged),
        ]);
    }
    wrong.retain(|(_, totals)| *totals != right);
    wrong
}

/// Tables of a desk with one mistake in their events, each row moved with its event, and which.
pub fn wrong_events(random: &mut Random, desk: &Desk) -> Vec<(&'static str, Tables)> {
    let (right, used) = (tables::of(desk), desk.events().len());
    let row = random.below(used as u64) as usize;
    let minute = right.events[row];
    let mut wrong = Vec::new();
    if used < EVENTS {
        let next = if row + 1 < used { right.events[row + 1] } else { minute + MAX_DURATION };
        let between = random.within(minute as u64, next as u64 - 1) as u32;
        wrong.push(("one more", with_event(&right, row, between)));
        wrong.push(("one twice", with_event(&right, row, minute)));
    }
    if row > 0 {
        let mut late = right.clone();
        late.events[row] += 1;
        wrong.push(("one late", late));
        wrong.push(("one left out", without_event(&right, row)));
    }
    wrong
}

/// The tables with one event more behind a row, and a copy of that row.
fn with_event(tables: &Tables, row: usize, minute: u32) -> Tables {
    let mut tables = tables.clone();
    tables.events.insert(row + 1, minute);
    tables.events.truncate(EVENTS);
    tables.free.extend_from_within(row * ROW..EVENTS * ROW - ROW);
    tables.free.drain((row + 1) * ROW..EVENTS * ROW);
    tables
}

/// The tables without the event of a row and without that row.
fn without_event(tables: &Tables, row: usize) -> Tables {
    let mut tables = tables.clone();
    tables.events.remove(row);
    tables.events.push(0);
    tables.free.drain(row * ROW..(row + 1) * ROW);
    tables.free.resize(EVENTS * ROW, 0);
    tables
}

/// Links and tables of the right sizes that are not sound.
pub fn unsound(random: &mut Random, desk: &Desk) -> (Vec<Link>, Tables) {
    loop {
        let (mut links, mut held) = (desk.links.clone(), tables::of(desk));
        damage(random, &mut links, &mut held);
        if tables::read(&links, &held) == Err(3) {
            return (links, held);
        }
    }
}

/// Tables of a desk with one change in its guard, clock or bookings that mostly breaks a rule, and what was changed. Events,
/// free figures and totals follow the change, so that only the rule itself can tell; an oversold figure is wrapped around or 0.
pub fn forged(random: &mut Random, desk: &Desk) -> (Tables, &'static str) {
    let mut desk = desk.clone();
    let what = forge(random, &mut desk);
    let wraps = random.once_in(2);
    (written(&desk, |residual| if wraps { residual as u32 } else { residual.max(0) as u32 }), what)
}

fn forge(random: &mut Random, desk: &mut Desk) -> &'static str {
    let too_long = *pick(random, &[MAX_GUARD + 1, MAX_GUARD + 2, MAX_DURATION, MAX_MINUTE]);
    if desk.bookings.is_empty() {
        return if random.once_in(2) {
            desk.clock = MAX_MINUTE + 1;
            "a clock behind the last minute"
        } else {
            desk.guard = too_long;
            "a guard that is too long"
        };
    }
    let place = random.below(desk.bookings.len() as u64) as usize;
    let another = pick(random, &desk.bookings).number;
    let full = desk.bookings.len() == BOOKINGS;
    let booking = &mut desk.bookings[place];
    let last = desk.links[booking.path[booking.path.len() - 1] as usize];
    match random.below(14) {
        0 | 1 => {
            let capacity = desk.links[booking.path[0] as usize].capacity;
            booking.bandwidth = (capacity + random.below(2) as u32).min(MAX_BANDWIDTH);
            "all bandwidth of a link, or more"
        }
        2 if !full => {
            let mut twin = booking.clone();
            twin.number = random.within(1, MAX_NUMBER as u64) as u32;
            desk.bookings.push(twin);
            "a booking under a second number"
        }
        3 => {
            desk.clock = (booking.end() + desk.guard).min(MAX_MINUTE);
            "a booking whose guard has ended"
        }
        4 => {
            booking.number = *pick(random, &[0, MAX_NUMBER + 1, another]);
            "a number out of range or of another booking"
        }
        5 => {
            booking.path.reverse();
            "a path from its end"
        }
        6 if booking.path.len() < PATH_LINKS => {
            let back = desk.links.iter().position(|link| link.from == last.to).unwrap_or(0);
            booking.path.push(back as u32);
            "a path that goes on"
        }
        7 => {
            booking.start = MAX_MINUTE + random.below(2) as u32;
            "a start at or behind the last minute"
        }
        8 => {
            booking.duration = *pick(random, &[0, MAX_DURATION, MAX_DURATION + 1]);
            "the longest duration, more or none"
        }
        9 => {
            booking.bandwidth = 0;
            "no bandwidth"
        }
        10 => {
            desk.guard = too_long;
            "a guard that is too long"
        }
        11 => {
            desk.guard = MAX_GUARD;
            "the longest guard"
        }
        12 => {
            desk.guard = 0;
            "no guard"
        }
        _ => {
            booking.path.clear();
            "no link"
        }
    }
}

/// A place of a table: one of the first ones, which are in use, as often as any.
fn place(random: &mut Random, used: usize, size: usize) -> usize {
    let among = if random.once_in(2) { used.min(size) } else { size };
    random.below(among as u64) as usize
}

fn changed(random: &mut Random, what: &str, figure: &mut u32) -> String {
    let old = *figure;
    let limits = [0, 1, 31, 32, 64, 65, MAX_NUMBER, MAX_DURATION, MAX_MINUTE, MAX_MINUTE + 1, u32::MAX];
    while *figure == old {
        *figure = match random.below(6) {
            0 => old.wrapping_add(1),
            1 => old.wrapping_sub(1),
            2 => old ^ 1 << random.below(32),
            3 => *pick(random, &limits),
            4 => random.below(64) as u32,
            _ => random.next() as u32,
        };
    }
    format!("{what} changed from {old} to {figure}")
}

/// Gives a table, or the list of links, another size than the stated one.
pub fn resize(random: &mut Random, links: &mut Vec<Link>, held: &mut Tables) {
    match random.below(6) {
        0 => resize_table(random, &mut held.events),
        1 => resize_table(random, &mut held.free),
        2 => resize_table(random, &mut held.book),
        3 => resize_table(random, &mut held.totals),
        4 => links.clear(),
        _ => links.resize(LINKS + 1 + random.below(3) as usize, links[0]),
    }
}

fn resize_table<T: Clone + Default>(random: &mut Random, table: &mut Vec<T>) {
    let size = table.len();
    let other = [0, size - 1, size + 1, size / 2, 2 * size][random.below(5) as usize];
    table.resize(other, T::default());
}

/// Gives a table another length, and says so.
fn change_length<T: Clone + Default>(random: &mut Random, name: &str, table: &mut Vec<T>) -> String {
    let length = other_length(random, table.len());
    table.resize(length, T::default());
    format!("{length} figures of the {name}")
}

fn other_length(random: &mut Random, length: usize) -> usize {
    match random.below(5) {
        0 => length + 1,
        1 => length.saturating_sub(1),
        2 => random.below(length as u64) as usize,
        3 => length + random.within(1, 200) as usize,
        _ => 0,
    }
}
