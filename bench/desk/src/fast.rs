//! A plain, reasonably fast desk with the proved one's checks and tables. Each call is lent the links, the head and the
//! tables; it checks their sizes, then that they are sound, by making events, free figures and totals anew from the book, and
//! then what documents 01 and 02 ask of the call. A refused call writes nothing.

use desk_tests::{Head, Link, Refused, Request};
use desk_tests::{EVENTS, MAX_GUARD, NODES, PATH_LINKS, PLACE, ROW, TOTALS};

use crate::shared::{add_work, all_zero, guarded_end, members, path, row_at, valid_booking, valid_head, valid_link};
use crate::shared::{check_booking, check_cancelling, check_minute, check_request, check_sizes, check_sizes_and_list};
use crate::shared::{drop_ended, enter, shown, sold, take_out};
use crate::shared::{Path, Start, Tables, BANDWIDTH, NUMBER, START};

/// Refuses 1, 4, 2.
pub fn set_up(links: &[Link], tables: &mut Tables, guard: u32) -> Result<(), u32> {
    check_sizes(links, tables)?;
    if guard > MAX_GUARD {
        return Err(4);
    }
    if !links.iter().all(valid_link) {
        return Err(2);
    }
    *tables.head = Head { clock: 0, links: links.len() as u32, bookings: 0, guard };
    tables.book.fill(0);
    write_figures(links, tables);
    Ok(())
}

/// Refuses 1, 3, 4, 5, 6, 7, 8.
pub fn book(links: &[Link], tables: &mut Tables, number: u32, request: &Request) -> Result<Start, Refused> {
    let events = check_tables(links, tables)?;
    let place = check_booking(tables, number, request)?;
    let start = choose(links, tables, events, request)?;
    enter(tables, events, place, number, request, &start);
    Ok(start)
}

/// Refuses 1, 3, 4, 5, 8.
pub fn offer(links: &[Link], tables: &Tables, request: &Request) -> Result<Start, Refused> {
    let events = check_tables(links, tables)?;
    check_request(tables.head.clock, request)?;
    choose(links, tables, events, request)
}

/// Writes every start there is as ranges into the list, and answers their number. Refuses 1, 13, 3, 4, 5.
pub fn list(links: &[Link], tables: &Tables, request: &Request, list: &mut [u32]) -> Result<u32, u32> {
    check_sizes_and_list(links, tables, list)?;
    let events = sound(links, tables).ok_or(3u32)?;
    check_request(tables.head.clock, request)?;
    Ok(list_ranges(links, tables, events, request, list))
}

/// Refuses 1, 3, 4, 9.
pub fn cancel(links: &[Link], tables: &mut Tables, number: u32) -> Result<(), u32> {
    check_tables(links, tables)?;
    let place = check_cancelling(tables, number)?;
    take_out(tables, place);
    write_figures(links, tables);
    Ok(())
}

/// Refuses 1, 3, 4, 10.
pub fn move_clock(links: &[Link], tables: &mut Tables, minute: u32) -> Result<(), u32> {
    check_tables(links, tables)?;
    check_minute(tables.head.clock, minute)?;
    drop_ended(tables, minute);
    tables.head.clock = minute;
    write_figures(links, tables);
    Ok(())
}

/// Refuses 1, 3, 4.
pub fn show(links: &[Link], tables: &Tables, link: u32, minute: u32) -> Result<u32, u32> {
    let events = check_tables(links, tables)?;
    shown(links, tables, events, link, minute)
}

/// Refuses 1, 3, 4.
pub fn sold_work(links: &[Link], tables: &Tables, link: u32) -> Result<u64, u32> {
    check_tables(links, tables)?;
    sold(links, tables, link)
}

/// Checks sizes and soundness, and answers the number of events.
fn check_tables(links: &[Link], tables: &Tables) -> Result<usize, u32> {
    check_sizes(links, tables)?;
    sound(links, tables).ok_or(3)
}

/// The number of events, if the tables are sound.
fn sound(links: &[Link], tables: &Tables) -> Option<usize> {
    let &Head { clock, bookings, guard, .. } = &*tables.head;
    if !valid_head(links, tables.head) || !links.iter().all(valid_link) {
        return None;
    }
    let (used, unused) = tables.book.split_at(bookings as usize * PLACE);
    let mut last = 0;
    for place in used.chunks_exact(PLACE) {
        if place[NUMBER] <= last || !valid_booking(links, clock, guard, place) {
            return None;
        }
        last = place[NUMBER];
    }
    if !all_zero(unused) {
        return None;
    }
    let (mut events, mut free) = ([0; EVENTS], [0; EVENTS * ROW]);
    let rows = make_events(clock, guard, used, &mut events);
    make_free(links, guard, used, &events[..rows], &mut free)?;
    let figures = rows * ROW;
    let same = tables.events == events && tables.free[..figures] == free[..figures];
    (same && all_zero(&tables.free[figures..]) && tables.totals == make_totals(used)).then_some(rows)
}

/// Writes the events that clock, guard and bookings give, and answers their number.
fn make_events(clock: u32, guard: u32, used: &[u32], events: &mut [u32; EVENTS]) -> usize {
    events[0] = clock;
    let mut count = 1;
    for place in used.chunks_exact(PLACE) {
        for minute in [place[START], guarded_end(place, guard)] {
            if minute > clock {
                events[count] = minute;
                count += 1;
            }
        }
    }
    events[..count].sort_unstable();
    let mut rows = 1;
    for place in 1..count {
        if events[place] != events[rows - 1] {
            events[rows] = events[place];
            rows += 1;
        }
    }
    events[rows..].fill(0);
    rows
}

/// Writes the rows of free figures that links, guard and bookings give; none if a link is oversold.
fn make_free(links: &[Link], guard: u32, used: &[u32], events: &[u32], free: &mut [u32]) -> Option<()> {
    let mut full = [0; ROW];
    links.iter().zip(&mut full).for_each(|(link, figure)| *figure = link.capacity);
    free[..events.len() * ROW].chunks_exact_mut(ROW).for_each(|row| row.copy_from_slice(&full));
    let mut oversold = false;
    for place in used.chunks_exact(PLACE) {
        let (bandwidth, path) = (place[BANDWIDTH], path(place));
        let first = events.partition_point(|&event| event < place[START]);
        let end = events.partition_point(|&event| event < guarded_end(place, guard));
        for row in free[first * ROW..end * ROW].chunks_exact_mut(ROW) {
            for &link in path {
                let figure = &mut row[link as usize];
                oversold |= *figure < bandwidth;
                *figure = figure.wrapping_sub(bandwidth);
            }
        }
    }
    (!oversold).then_some(())
}

/// The totals that bookings give.
fn make_totals(used: &[u32]) -> [u64; TOTALS] {
    let mut totals = [0; TOTALS];
    used.chunks_exact(PLACE).for_each(|place| add_work(place, &mut totals));
    totals
}

/// Makes events, free figures and totals anew from head and book, which are sound.
fn write_figures(links: &[Link], tables: &mut Tables) {
    let used = &tables.book[..tables.head.bookings as usize * PLACE];
    let mut events = [0; EVENTS];
    let &Head { clock, guard, .. } = &*tables.head;
    let rows = make_events(clock, guard, used, &mut events);
    tables.events.copy_from_slice(&events);
    make_free(links, guard, used, &events[..rows], tables.free).expect("no link is oversold");
    tables.free[rows * ROW..].fill(0);
    tables.totals.copy_from_slice(&make_totals(used));
}

/// The best start among low and the later events of the window, or 8 with its minute.
fn choose(links: &[Link], tables: &Tables, events: usize, request: &Request) -> Result<Start, Refused> {
    let events = &tables.events[..events];
    let low = request.earliest.max(tables.head.clock);
    let first = row_at(events, low);
    let enough = enough(links, tables, first, events.len(), request.bandwidth);
    let mut without_path = 0;
    for row in first..events.len() {
        let minute = events[row].max(low);
        if minute > request.latest {
            break;
        }
        let end = minute + request.duration + tables.head.guard;
        let span = events[row + 1..].iter().take_while(|&&event| event < end).count();
        let usable = enough[row..=row + span].iter().fold(u64::MAX, |usable, set| usable & set);
        if usable == without_path {
            continue;
        }
        if let Some((path, count)) = search(links, usable, request.from, request.to) {
            return Ok(Start { minute, count, path });
        }
        without_path = usable;
    }
    let row = first + break_off(links, request, &enough[first..events.len()]);
    Err(Refused { number: 8, at: events[row].max(low) })
}

/// The first row, from low's on, such that no path has the bandwidth in all rows up to it, by the links that have it in each.
fn break_off(links: &[Link], request: &Request, enough: &[u64]) -> usize {
    let (mut usable, mut with_path) = (u64::MAX, None);
    let breaks = |&set: &u64| {
        usable &= set;
        let same = with_path == Some(usable);
        with_path = Some(usable);
        !same && rounds(links, usable, request.from, request.to).is_none()
    };
    enough.iter().position(breaks).expect("low is not possible")
}

/// The links with enough bandwidth in each row from the first on.
fn enough(links: &[Link], tables: &Tables, first: usize, rows: usize, bandwidth: u32) -> [u64; EVENTS] {
    let mut enough = [0u64; EVENTS];
    for row in first..rows {
        for (link, &figure) in tables.free[row * ROW..][..links.len()].iter().enumerate() {
            enough[row] |= ((figure >= bandwidth) as u64) << link;
        }
    }
    enough
}

/// Writes the ranges of possible starts with zeros behind them, and answers their number. Where no start is possible it
/// tries the events, and where one is, the minutes at which the span's end meets an event.
fn list_ranges(links: &[Link], tables: &Tables, events: usize, request: &Request, list: &mut [u32]) -> u32 {
    let events = &tables.events[..events];
    let &Request { from, to, bandwidth, latest, .. } = request;
    let span = request.duration + tables.head.guard;
    let low = request.earliest.max(tables.head.clock);
    let first = row_at(events, low);
    let enough = enough(links, tables, first, events.len(), bandwidth);
    let mut searched = (0, false);
    let mut possible = |minute: u32| {
        let row = row_at(events, minute);
        let later = events[row + 1..].iter().take_while(|&&event| event < minute + span).count();
        let usable = enough[row..=row + later].iter().fold(u64::MAX, |usable, set| usable & set);
        if usable != searched.0 {
            searched = (usable, rounds(links, usable, from, to).is_some());
        }
        searched.1
    };
    let mut count = 0;
    let mut start = low;
    loop {
        let mut row = events.partition_point(|&event| event <= start);
        let mut found = possible(start);
        while !found && row < events.len() && events[row] <= latest {
            start = events[row];
            found = possible(start);
            row += 1;
        }
        if !found {
            break;
        }
        let ends = events.iter().filter(|&&event| start + span <= event && event < latest + span);
        let stop = ends.map(|&event| event + 1 - span).find(|&next| !possible(next));
        let end = stop.unwrap_or(latest + 1);
        list[2 * count..][..2].copy_from_slice(&[start, end - 1]);
        count += 1;
        start = end;
        if latest < start {
            break;
        }
    }
    list[2 * count..].fill(0);
    count as u32
}

/// The best path over a set of links: it takes the lowest link that leads one hop nearer.
fn search(links: &[Link], usable: u64, from: u32, to: u32) -> Option<(Path, u32)> {
    let (rounds, hops) = rounds(links, usable, from, to)?;
    let mut path = [0; PATH_LINKS];
    let mut node = from;
    for (place, nearer) in rounds[..hops].iter().rev().enumerate() {
        let leads = |&number: &usize| links[number].from == node && nearer >> links[number].to & 1 == 1;
        let number = members(usable).find(leads).expect("a link leads nearer");
        path[place] = number as u32;
        node = links[number].to;
    }
    Some((path, hops as u32))
}

/// Rounds from the destination back, each with the nodes at its number of hops, up to the source's.
fn rounds(links: &[Link], usable: u64, from: u32, to: u32) -> Option<([u32; NODES], usize)> {
    let mut rounds = [0u32; NODES];
    rounds[0] = 1 << to;
    let mut met = rounds[0];
    let mut hops = 0;
    while met >> from & 1 == 0 {
        let mut next = 0;
        for link in members(usable).map(|number| &links[number]) {
            next |= (rounds[hops] >> link.to & 1) << link.from;
        }
        next &= !met;
        if next == 0 {
            return None;
        }
        met |= next;
        hops += 1;
        rounds[hops] = next;
    }
    Some((rounds, hops))
}
