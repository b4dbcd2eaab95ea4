//! Two unverified Rust desks that the proved one is timed beside, and the program over each.

pub mod fast;
pub mod program;
pub mod sets;
pub mod shared;

use desk_tests::exported::listing;
use desk_tests::plain::{self, Answer, Call};
use desk_tests::tables;
use desk_tests::{Link, Refused, Request};
use shared::{Start, Tables};

/// The same tables, lent to an unverified desk.
pub fn lent(tables: &mut tables::Tables) -> Tables<'_> {
    let tables::Tables { head, events, free, book, totals } = tables;
    Tables { head, events, free, book, totals }
}

/// The eight calls of an unverified desk.
pub struct Calls {
    pub set_up: fn(&[Link], &mut Tables, u32) -> Result<(), u32>,
    pub book: fn(&[Link], &mut Tables, u32, &Request) -> Result<Start, Refused>,
    pub offer: fn(&[Link], &Tables, &Request) -> Result<Start, Refused>,
    pub list: fn(&[Link], &Tables, &Request, &mut [u32]) -> Result<u32, u32>,
    pub cancel: fn(&[Link], &mut Tables, u32) -> Result<(), u32>,
    pub move_clock: fn(&[Link], &mut Tables, u32) -> Result<(), u32>,
    pub show: fn(&[Link], &Tables, u32, u32) -> Result<u32, u32>,
    pub sold_work: fn(&[Link], &Tables, u32) -> Result<u64, u32>,
}

/// Those of the desk as it stands.
pub const FAST: Calls = Calls {
    set_up: fast::set_up,
    book: fast::book,
    offer: fast::offer,
    list: fast::list,
    cancel: fast::cancel,
    move_clock: fast::move_clock,
    show: fast::show,
    sold_work: fast::sold_work,
};

/// Those of the desk by other algorithms.
pub const SETS: Calls = Calls {
    set_up: sets::set_up,
    book: sets::book,
    offer: sets::offer,
    list: sets::list,
    cancel: sets::cancel,
    move_clock: sets::move_clock,
    show: sets::show,
    sold_work: sets::sold_work,
};

impl Calls {
    /// Runs a call on tables of a desk with these links; a set-up brings its own.
    pub fn answer(&self, links: &[Link], tables: &mut tables::Tables, call: &Call) -> Answer {
        self.try_answer(links, &mut lent(tables), call).unwrap_or_else(Answer::Refused)
    }

    fn try_answer(&self, links: &[Link], tables: &mut Tables, call: &Call) -> Result<Answer, Refused> {
        Ok(match call {
            Call::SetUp { links, guard } => {
                (self.set_up)(links, tables, *guard)?;
                Answer::SetUp
            }
            Call::Book(number, request) => Answer::Booked(answered((self.book)(links, tables, *number, request)?)),
            Call::Offer(request) => Answer::Offered(answered((self.offer)(links, tables, request)?)),
            Call::List(figures, request) => {
                Answer::Listed(listing(*figures, |list| (self.list)(links, tables, request, list))?)
            }
            Call::Cancel(number) => {
                (self.cancel)(links, tables, *number)?;
                Answer::Cancelled
            }
            Call::MoveClock(minute) => {
                (self.move_clock)(links, tables, *minute)?;
                Answer::Moved
            }
            Call::Show { link, minute } => Answer::Shown((self.show)(links, tables, *link, *minute)?),
            Call::Sold { link } => Answer::Sold((self.sold_work)(links, tables, *link)?),
        })
    }
}

/// A start whose path has zeros behind its last link.
fn answered(start: Start) -> plain::Start {
    let (path, rest) = start.path.split_at(start.count as usize);
    assert!(rest.iter().all(|&link| link == 0), "a path is not zero past its last link");
    plain::Start { minute: start.minute, path: path.to_vec() }
}
