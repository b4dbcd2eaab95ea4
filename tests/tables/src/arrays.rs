//! The same work as the exported functions do, in plain Rust on the same tables: what the benchmark compares with.

use crate::{Tables, EVENTS, FIGURES, LINKS};

fn row_at(events: &[u32], minute: u32) -> usize {
    events[1..].iter().take_while(|&&event| event != 0 && event <= minute).count()
}

/// Puts an event in where it is later than the clock and missing, with a copy of the row before it.
pub fn insert_event(tables: &mut Tables, minute: u32) {
    assert_eq!(tables.events[EVENTS - 1], 0, "no room for an event");
    let row = row_at(&tables.events, minute);
    if minute <= tables.events[row] {
        return;
    }
    tables.free.copy_within(row * LINKS..FIGURES - LINKS, (row + 1) * LINKS);
    tables.events.copy_within(row..EVENTS - 1, row + 1);
    tables.events[row + 1] = minute;
}

/// Takes bandwidth from one link in minutes start to end - 1.
pub fn take_bandwidth(tables: &mut Tables, start: u32, end: u32, link: u32, bandwidth: u32) {
    let (first, past) = (row_at(&tables.events, start), row_at(&tables.events, end));
    for row in first..past {
        let figure = &mut tables.free[row * LINKS + link as usize];
        *figure = figure.saturating_sub(bandwidth);
    }
}
