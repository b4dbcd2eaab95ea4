//! An independent desk, written from documents 01 and 02 alone and not from the library, which tries every minute; the
//! tables and the program's lines that document 01 prescribes for it; and generators of sessions, histories and damages.

pub mod break_offs;
pub mod calls;
pub mod cases;
pub mod damages;
pub mod exported;
pub mod guards;
pub mod lines;
pub mod listings;
pub mod plain;
pub mod program;
pub mod sessions;
pub mod tables;
pub mod totals;

pub use support::{Link, Request};

pub const NODES: usize = 32;
pub const LINKS: usize = 64;
pub const BOOKINGS: usize = 64;
pub const PATH_LINKS: usize = 31;
/// Places for events: the clock, and a start and an end of each booking.
pub const EVENTS: usize = 129;
/// Figures of a listing's list: a first and a last minute in each of 129 places.
pub const LIST_FIGURES: usize = 2 * EVENTS;
/// Figures of a row of the free table.
pub const ROW: usize = 64;
/// Figures of a place of the book: number, start, duration, bandwidth, count of links, and the path.
pub const PLACE: usize = 36;
/// A total for each link that there can be.
pub const TOTALS: usize = LINKS;
pub const MAX_NUMBER: u32 = 16_383;
pub const MAX_CAPACITY: u32 = 1_000_000;
pub const MAX_BANDWIDTH: u32 = 1_000_000;
pub const MAX_DURATION: u32 = 525_600;
pub const MAX_MINUTE: u32 = 1_000_000_000;
pub const MAX_GUARD: u32 = 15;
/// The last minute that may be shown: the latest end under the longest guard.
pub const MAX_SHOWN: u32 = 1_000_525_615;

/// The number of a refusal. Beside 8 stands the minute at which every path from low on breaks off, beside any other 0.
#[derive(Clone, Copy, Debug, PartialEq, Eq)]
pub struct Refused {
    pub number: u32,
    pub at: u32,
}

impl From<u32> for Refused {
    /// A refusal with no minute beside it.
    fn from(number: u32) -> Refused {
        Refused { number, at: 0 }
    }
}

#[repr(C)]
#[derive(Clone, Copy, Debug, PartialEq, Eq, Default)]
pub struct Head {
    pub clock: u32,
    pub links: u32,
    pub bookings: u32,
    pub guard: u32,
}
