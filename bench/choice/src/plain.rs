//! A chooser in plain Rust that does the library's work: low and the events, how long links last by rows, a search, and where
//! there is no start the minute at which every path from low on breaks off. It searches in rounds over the links, as the library
//! does, or breadth-first with a queue.

use choice_tests::{ChoiceRecord, LinkEnds, Question, Tables};
use plain_search::{break_off, queue, rounds, until, walk, Distances, Ends, Minutes, Usable, LINKS};

/// The chooser that searches in rounds.
#[inline(never)]
pub fn in_rounds(ends: &LinkEnds, tables: &Tables, q: &Question) -> ChoiceRecord {
    choose(ends, tables, q, rounds)
}

/// The chooser that searches with a queue.
#[inline(never)]
pub fn with_queue(ends: &LinkEnds, tables: &Tables, q: &Question) -> ChoiceRecord {
    choose(ends, tables, q, queue)
}

/// The earliest start of the window that has a path, or the minute at which every path breaks off.
#[inline(always)]
fn choose(
    ends: &LinkEnds,
    tables: &Tables,
    q: &Question,
    distances: impl Fn(Ends, &Usable, u32) -> Distances,
) -> ChoiceRecord {
    let ends = Ends { from: &ends.from[..ends.count], to: &ends.to[..ends.count] };
    let behind = &tables.events[1..];
    let count = 1 + behind.iter().position(|&e| e == 0).unwrap_or(behind.len());
    let events = &tables.events[..count];
    let path = |usable: &Usable| walk(ends, usable, &distances(ends, usable, q.destination), q.source, q.destination);
    let in_window = |e: &u32| q.low < *e && *e <= q.latest;
    let low = Some(q.low).filter(|&low| low <= q.latest);
    for start in low.into_iter().chain(events.iter().copied().filter(in_window)) {
        let end = start + q.duration;
        let lasting = lacking(events, &tables.free, q, start).map(|until| end <= until);
        if let Some(path) = path(&lasting) {
            return ChoiceRecord::start(start, &path.links[..path.count]);
        }
    }
    let until = lacking(events, &tables.free, q, q.low);
    ChoiceRecord::refused(break_off(&until, q.low, q.low + q.duration, |usable| path(usable).is_some()))
}

/// For each link the first minute of the span from a start on at which it lacks the bandwidth; the span's end where there is
/// none.
fn lacking(events: &[u32], free: &[u32], q: &Question, start: u32) -> Minutes {
    let end = start + q.duration;
    let row = |minute: u32| events.partition_point(|&e| e <= minute) - 1;
    let (first, last) = (row(start), row(end - 1));
    until(&events[first..=last], &free[first * LINKS..(last + 1) * LINKS], q.bandwidth, start, end)
}
