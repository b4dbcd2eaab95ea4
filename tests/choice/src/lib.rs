//! The exported chooser, the tables that it is lent, and choosers written apart from it.

pub mod desk;
pub mod minutes;

/// The most links of a desk.
pub const LINKS: usize = 64;
/// The last node.
pub const LAST_NODE: u32 = 31;
/// The most links of a path.
pub const PATH_LINKS: usize = 31;
/// The most events.
pub const EVENTS: usize = 129;
/// The last minute of a latest start.
pub const LAST_MINUTE: u32 = 1_000_000_000;
/// The last end of a span.
pub const LAST_END: u32 = 1_000_525_615;
/// The longest duration.
pub const LONGEST: u32 = 525_600;
/// The refusal number of a window with no possible start.
pub const NO_START: u32 = 8;

#[repr(C)]
#[derive(Clone, Copy, Debug)]
pub struct LinkEnds {
    pub count: usize,
    pub from: [u32; LINKS],
    pub to: [u32; LINKS],
}

#[repr(C)]
#[derive(Clone, Copy, Debug, PartialEq, Eq)]
pub struct Path {
    pub count: u32,
    pub links: [u32; PATH_LINKS],
}

/// A choice: the number 0 with start and path, or a refusal number with zeros and the minute at which every path from low on
/// breaks off; the end of low's span where one lasts.
#[repr(C)]
#[derive(Clone, Copy, Debug, PartialEq, Eq)]
pub struct ChoiceRecord {
    pub refusal: u32,
    pub start: u32,
    pub path: Path,
    pub at: u32,
}

impl ChoiceRecord {
    pub fn start(start: u32, links: &[u32]) -> Self {
        let mut path = Path { count: links.len() as u32, links: [0; PATH_LINKS] };
        path.links[..links.len()].copy_from_slice(links);
        ChoiceRecord { refusal: 0, start, path, at: 0 }
    }

    pub fn refused(at: u32) -> Self {
        ChoiceRecord { refusal: NO_START, start: 0, path: Path { count: 0, links: [0; PATH_LINKS] }, at }
    }
}

/// What is asked of the chooser.
#[derive(Clone, Copy, Debug)]
pub struct Question {
    pub source: u32,
    pub destination: u32,
    pub bandwidth: u32,
    pub duration: u32,
    pub low: u32,
    pub latest: u32,
}

/// The tables that a desk lends: its events, padded with zeros, and a row of 64 figures for each place.
#[derive(Clone)]
pub struct Tables {
    pub events: Vec<u32>,
    pub free: Vec<u32>,
}

mod exported {
    use super::{ChoiceRecord, LinkEnds};

    /// A minute, a duration or a bandwidth: a struct of one number.
    #[repr(C)]
    pub struct Quantity(pub u32);

    /// What is asked of any start.
    #[repr(C)]
    pub struct Search {
        pub ends: LinkEnds,
        pub source: u32,
        pub destination: u32,
        pub bandwidth: Quantity,
        pub span: Quantity,
    }

    extern "C" {
        pub fn choose_start(
            search: Search,
            events: *const u32,
            event_places: usize,
            free: *const u32,
            free_places: usize,
            low: Quantity,
            latest: Quantity,
        ) -> ChoiceRecord;
    }
}

/// Whether the arguments meet what `choose_start` requires.
pub fn askable(ends: &LinkEnds, tables: &Tables, q: &Question) -> bool {
    let nodes = |list: &[u32; LINKS]| list[..ends.count.min(LINKS)].iter().all(|&n| n <= LAST_NODE);
    let behind = &tables.events[1..];
    let later = behind.iter().position(|&e| e == 0).unwrap_or(behind.len());
    ends.count <= LINKS
        && nodes(&ends.from)
        && nodes(&ends.to)
        && tables.events.len() == EVENTS
        && tables.free.len() == EVENTS * LINKS
        && tables.events[..=later].windows(2).all(|pair| pair[0] < pair[1])
        && behind[later..].iter().all(|&e| e == 0)
        && tables.events[0] <= q.low
        && (1..=LONGEST).contains(&q.duration)
        && q.latest <= LAST_MINUTE
        && q.low <= LAST_END - q.duration
}

/// The library's chooser.
pub fn choose_start(ends: &LinkEnds, tables: &Tables, q: &Question) -> ChoiceRecord {
    assert!(askable(ends, tables, q), "not askable: {q:?}");
    call(ends, tables, q)
}

/// The same for callers that have tested the arguments once.
#[inline(always)]
fn call(ends: &LinkEnds, tables: &Tables, q: &Question) -> ChoiceRecord {
    use exported::{Quantity, Search};
    // Safe: the arguments meet the `requires`, and the declaration is that of crates/choice_c/src/lib.rt.
    unsafe {
        exported::choose_start(
            Search {
                ends: *ends,
                source: q.source,
                destination: q.destination,
                bandwidth: Quantity(q.bandwidth),
                span: Quantity(q.duration),
            },
            tables.events.as_ptr(),
            tables.events.len(),
            tables.free.as_ptr(),
            tables.free.len(),
            Quantity(q.low),
            Quantity(q.latest),
        )
    }
}

/// Arguments that meet what `choose_start` requires, tested once.
pub struct Asked<'a>(&'a LinkEnds, &'a Tables, Question);

impl<'a> Asked<'a> {
    pub fn new(ends: &'a LinkEnds, tables: &'a Tables, q: Question) -> Self {
        assert!(askable(ends, tables, &q), "not askable: {q:?}");
        Asked(ends, tables, q)
    }

    pub fn choose_start(&self) -> ChoiceRecord {
        call(self.0, self.1, &self.2)
    }
}
