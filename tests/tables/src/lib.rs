//! The exported functions on the event table and the free table, each behind a check of what its contract requires, and
//! two versions to compare them with: `plain` counts from a list of bookings, `arrays` does the same work on the tables.

pub mod arrays;
pub mod plain;

pub const LINKS: usize = 64;
pub const EVENTS: usize = 129;
pub const FIGURES: usize = EVENTS * LINKS;

/// The two tables, as a desk lends them.
#[derive(Clone, Debug, PartialEq, Eq)]
pub struct Tables {
    pub events: [u32; EVENTS],
    pub free: [u32; FIGURES],
}

mod exported {
    extern "C" {
        pub fn row_at(events: *const u32, events_len: usize, minute: u32) -> usize;
        pub fn count_events(events: *const u32, events_len: usize) -> usize;
        pub fn reset_events(events: *mut u32, events_len: usize, clock: u32);
        pub fn insert_event(events: *mut u32, events_len: usize, rows: *mut u32, rows_len: usize, minute: u32);
        pub fn insert_span(events: *mut u32, events_len: usize, rows: *mut u32, rows_len: usize, start: u32, end: u32);
        pub fn reset_free(free: *mut u32, free_len: usize, capacities: *const u32, capacities_len: usize, links: usize);
        pub fn free_figure(
            events: *const u32,
            events_len: usize,
            free: *const u32,
            free_len: usize,
            link: u32,
            minute: u32,
        ) -> u32;
        pub fn take_bandwidth(
            events: *const u32,
            events_len: usize,
            free: *mut u32,
            free_len: usize,
            start: u32,
            end: u32,
            link: u32,
            bandwidth: u32,
        );
        pub fn first_missing(
            events: *const u32,
            events_len: usize,
            free: *const u32,
            free_len: usize,
            start: u32,
            end: u32,
            link: u32,
            bandwidth: u32,
        ) -> u32;
    }
}

/// The row that holds in a minute, in any list of events.
pub fn row_at(events: &[u32], minute: u32) -> usize {
    unsafe { exported::row_at(events.as_ptr(), events.len(), minute) }
}

/// How many events any list of them holds.
pub fn count_events(events: &[u32]) -> usize {
    unsafe { exported::count_events(events.as_ptr(), events.len()) }
}

impl Tables {
    /// Tables that hold anything at all, before they are reset.
    pub fn filled(figure: u32) -> Tables {
        Tables { events: [figure; EVENTS], free: [figure; FIGURES] }
    }

    /// The tables of a desk without bookings.
    pub fn reset(&mut self, clock: u32, capacities: &[u32]) {
        assert!(capacities.len() <= LINKS);
        unsafe {
            exported::reset_events(self.events.as_mut_ptr(), EVENTS, clock);
            let (given, links) = (capacities.as_ptr(), capacities.len());
            exported::reset_free(self.free.as_mut_ptr(), FIGURES, given, links, links);
        }
    }

    pub fn insert_event(&mut self, minute: u32) {
        assert_eq!(self.events[EVENTS - 1], 0, "no room for an event");
        unsafe {
            exported::insert_event(self.events.as_mut_ptr(), EVENTS, self.free.as_mut_ptr(), FIGURES, minute);
        }
    }

    pub fn insert_span(&mut self, start: u32, end: u32) {
        assert_eq!(self.events[EVENTS - 2], 0, "no room for two events");
        unsafe {
            exported::insert_span(self.events.as_mut_ptr(), EVENTS, self.free.as_mut_ptr(), FIGURES, start, end);
        }
    }

    pub fn free_figure(&self, link: u32, minute: u32) -> u32 {
        assert!((link as usize) < LINKS);
        unsafe { exported::free_figure(self.events.as_ptr(), EVENTS, self.free.as_ptr(), FIGURES, link, minute) }
    }

    pub fn take_bandwidth(&mut self, start: u32, end: u32, link: u32, bandwidth: u32) {
        assert!(start <= end && (link as usize) < LINKS);
        let (events, free) = (self.events.as_ptr(), self.free.as_mut_ptr());
        unsafe { exported::take_bandwidth(events, EVENTS, free, FIGURES, start, end, link, bandwidth) }
    }

    /// The first minute from start to end - 1 at which the link has less than the bandwidth; `end` where there is none.
    pub fn first_missing(&self, start: u32, end: u32, link: u32, bandwidth: u32) -> u32 {
        assert!(start < end && (link as usize) < LINKS);
        let (events, free) = (self.events.as_ptr(), self.free.as_ptr());
        unsafe { exported::first_missing(events, EVENTS, free, FIGURES, start, end, link, bandwidth) }
    }
}
