//! The calls on tables that are known to be sound, with so many rows: what they change they change in place.

use std::ops::Range;

use desk_tests::{Refused, Request, PLACE, ROW};

use super::net::Net;
use super::trial::{choose, list_ranges};
use crate::shared::{check_booking, check_cancelling, check_minute, check_request, drop_ended, enter, take_out};
use crate::shared::{guarded_end, path, row_at, work, Start, Tables, BANDWIDTH, START};

/// Refuses 4, 5, 6, 7, 8.
pub fn book(
    net: &Net,
    tables: &mut Tables,
    rows: &mut usize,
    number: u32,
    request: &Request,
) -> Result<Start, Refused> {
    let place = check_booking(tables, number, request)?;
    let start = choose(net, tables, *rows, request)?;
    *rows = enter(tables, *rows, place, number, request, &start);
    Ok(start)
}

/// Refuses 4, 5, 8.
pub fn offer(net: &Net, tables: &Tables, rows: usize, request: &Request) -> Result<Start, Refused> {
    check_request(tables.head.clock, request)?;
    choose(net, tables, rows, request)
}

/// Refuses 4, 5. The list has its length.
pub fn list(net: &Net, tables: &Tables, rows: usize, request: &Request, list: &mut [u32]) -> Result<u32, u32> {
    check_request(tables.head.clock, request)?;
    Ok(list_ranges(net, tables, rows, request, list))
}

/// Refuses 4, 9.
pub fn cancel(tables: &mut Tables, rows: &mut usize, number: u32) -> Result<(), u32> {
    let place = check_cancelling(tables, number)?;
    let gone: [u32; PLACE] = tables.book[place * PLACE..][..PLACE].try_into().expect("a place");
    take_out(tables, place);
    subtract_work(&gone, tables.totals);
    let events = &tables.events[..*rows];
    let start = row_at(events, gone[START].max(tables.head.clock));
    let end = row_at(events, guarded_end(&gone, tables.head.guard));
    for row in tables.free[start * ROW..end * ROW].chunks_exact_mut(ROW) {
        for &link in path(&gone) {
            row[link as usize] += gone[BANDWIDTH];
        }
    }
    for row in [end, start] {
        if !needed(tables, row) {
            *rows = drop_rows(tables, *rows, row..row + 1);
        }
    }
    Ok(())
}

/// Refuses 4, 10.
pub fn move_clock(tables: &mut Tables, rows: &mut usize, minute: u32) -> Result<(), u32> {
    check_minute(tables.head.clock, minute)?;
    let row = row_at(&tables.events[..*rows], minute);
    // Where no event is passed no booking has ended.
    if row > 0 {
        let used = &tables.book[..tables.head.bookings as usize * PLACE];
        let ended = |place: &&[u32]| guarded_end(place, tables.head.guard) <= minute;
        used.chunks_exact(PLACE).filter(ended).for_each(|place| subtract_work(place, tables.totals));
        drop_ended(tables, minute);
        *rows = drop_rows(tables, *rows, 0..row);
    }
    tables.head.clock = minute;
    tables.events[0] = minute;
    Ok(())
}

/// Takes the work of the booking of a place from the totals of its links.
fn subtract_work(place: &[u32], totals: &mut [u64]) {
    let work = work(place);
    path(place).iter().for_each(|&link| totals[link as usize] -= work);
}

/// Whether the event of a row is the clock, or a booking starts or ends there.
fn needed(tables: &Tables, row: usize) -> bool {
    let (event, guard) = (tables.events[row], tables.head.guard);
    let mut places = tables.book.chunks_exact(PLACE).take(tables.head.bookings as usize);
    row == 0 || places.any(|place| place[START] == event || guarded_end(place, guard) == event)
}

/// Takes rows out with their events; those behind them move. Answers how many are left.
fn drop_rows(tables: &mut Tables, rows: usize, gone: Range<usize>) -> usize {
    let left = rows - gone.len();
    tables.events.copy_within(gone.end..rows, gone.start);
    tables.events[left..rows].fill(0);
    tables.free.copy_within(gone.end * ROW..rows * ROW, gone.start * ROW);
    tables.free[left * ROW..rows * ROW].fill(0);
    left
}
