//! The exported calls of the proved desk, on tables that are lent to them.

use support::Random;

use crate::plain::{Answer, Call, Desk, Range, Start};
use crate::tables::Tables;
use crate::{Head, Link, Refused, Request, PATH_LINKS};

/// What a booking or an offer hands back.
#[repr(C)]
#[derive(Clone, Copy)]
struct Granted {
    refusal: u32,
    start: u32,
    count: u32,
    links: [u32; PATH_LINKS],
    at: u32,
}

/// What a listing hands back.
#[repr(C)]
#[derive(Clone, Copy)]
struct Listed {
    refusal: u32,
    count: u32,
}

/// What a showing hands back.
#[repr(C)]
#[derive(Clone, Copy)]
struct Shown {
    refusal: u32,
    free: u32,
}

/// What a question for sold work hands back.
#[repr(C)]
#[derive(Clone, Copy)]
struct Sold {
    refusal: u32,
    work: u64,
}

/// Declares calls over a desk that is lent for writing (`mut`) or for reading (`const`), with what they are asked behind it.
macro_rules! calls {
    ($(fn $name:ident($lent:tt $(, $asked:ident: $type:ty)*) -> $answer:ty;)*) => {
        extern "C" {
            $(fn $name(
                head: *$lent Head,
                links: *const Link,
                link_count: usize,
                events: *$lent u32,
                event_count: usize,
                free: *$lent u32,
                free_count: usize,
                book: *$lent u32,
                book_count: usize,
                totals: *$lent u64,
                total_count: usize
                $(, $asked: $type)*
            ) -> $answer;)*
        }
    };
}

calls! {
    fn gcr_set_up(mut, guard: u32) -> u32;
    fn gcr_book(mut, number: u32, request: Request) -> Granted;
    fn gcr_offer(const, request: Request) -> Granted;
    fn gcr_list_starts(const, request: Request, list: *mut u32, list_count: usize) -> Listed;
    fn gcr_cancel(mut, number: u32) -> u32;
    fn gcr_move_clock(mut, minute: u32) -> u32;
    fn gcr_show(const, link: u32, minute: u32) -> Shown;
    fn gcr_sold_work(const, link: u32) -> Sold;
}

/// Lends a desk to a call that writes it.
macro_rules! writing {
    ($name:ident, $links:expr, $t:expr $(, $asked:expr)*) => {{
        let (l, t): (&[Link], &mut Tables) = ($links, $t);
        let (e, f, b, w) = (&mut t.events, &mut t.free, &mut t.book, &mut t.totals);
        let (ep, fp, bp, wp) = (e.as_mut_ptr(), f.as_mut_ptr(), b.as_mut_ptr(), w.as_mut_ptr());
        let (el, fl, bl, wl) = (e.len(), f.len(), b.len(), w.len());
        unsafe { $name(&mut t.head, l.as_ptr(), l.len(), ep, el, fp, fl, bp, bl, wp, wl $(, $asked)*) }
    }};
}

/// Lends a desk to a call that only reads it.
macro_rules! reading {
    ($name:ident, $links:expr, $t:expr $(, $asked:expr)*) => {{
        let (l, t): (&[Link], &Tables) = ($links, $t);
        let (e, f, b, w) = (&t.events, &t.free, &t.book, &t.totals);
        let (ep, fp, bp, wp) = (e.as_ptr(), f.as_ptr(), b.as_ptr(), w.as_ptr());
        let (el, fl, bl, wl) = (e.len(), f.len(), b.len(), w.len());
        unsafe { $name(&t.head, l.as_ptr(), l.len(), ep, el, fp, fl, bp, bl, wp, wl $(, $asked)*) }
    }};
}

pub fn set_up(links: &[Link], t: &mut Tables, guard: u32) -> Result<(), u32> {
    done(writing!(gcr_set_up, links, t, guard))
}

pub fn book(links: &[Link], t: &mut Tables, number: u32, request: &Request) -> Result<Start, Refused> {
    granted(writing!(gcr_book, links, t, number, *request))
}

pub fn offer(links: &[Link], t: &Tables, request: &Request) -> Result<Start, Refused> {
    granted(reading!(gcr_offer, links, t, *request))
}

/// Writes the ranges into the list, and answers their number.
pub fn list(links: &[Link], t: &Tables, request: &Request, list: &mut [u32]) -> Result<u32, u32> {
    let listed = reading!(gcr_list_starts, links, t, *request, list.as_mut_ptr(), list.len());
    if listed.refusal == 0 {
        return Ok(listed.count);
    }
    assert_eq!(listed.count, 0, "a refused listing has a range");
    Err(listed.refusal)
}

pub fn cancel(links: &[Link], t: &mut Tables, number: u32) -> Result<(), u32> {
    done(writing!(gcr_cancel, links, t, number))
}

pub fn move_clock(links: &[Link], t: &mut Tables, minute: u32) -> Result<(), u32> {
    done(writing!(gcr_move_clock, links, t, minute))
}

pub fn show(links: &[Link], t: &Tables, link: u32, minute: u32) -> Result<u32, u32> {
    let shown = reading!(gcr_show, links, t, link, minute);
    if shown.refusal == 0 {
        return Ok(shown.free);
    }
    assert_eq!(shown.free, 0, "a refused showing shows a figure");
    Err(shown.refusal)
}

pub fn sold_work(links: &[Link], t: &Tables, link: u32) -> Result<u64, u32> {
    let sold = reading!(gcr_sold_work, links, t, link);
    if sold.refusal == 0 {
        return Ok(sold.work);
    }
    assert_eq!(sold.work, 0, "a refused question tells work");
    Err(sold.refusal)
}

/// A desk just set up with the links and the guard of another, on tables that held anything.
pub fn fresh(desk: &Desk, random: &mut Random) -> Tables {
    let mut held = Tables::filled_with(random.next() as u32);
    assert_eq!(set_up(&desk.links, &mut held, desk.guard), Ok(()));
    held
}

/// A call on a desk with these links; a set-up brings its own, and its guard.
pub fn answer(links: &[Link], tables: &mut Tables, call: &Call) -> Answer {
    try_answer(links, tables, call).unwrap_or_else(Answer::Refused)
}

fn try_answer(links: &[Link], tables: &mut Tables, call: &Call) -> Result<Answer, Refused> {
    Ok(match call {
        Call::SetUp { links, guard } => {
            set_up(links, tables, *guard)?;
            Answer::SetUp
        }
        Call::Book(number, request) => Answer::Booked(book(links, tables, *number, request)?),
        Call::Offer(request) => Answer::Offered(offer(links, tables, request)?),
        Call::List(figures, request) => Answer::Listed(listing(*figures, |lent| list(links, tables, request, lent))?),
        Call::Cancel(number) => {
            cancel(links, tables, *number)?;
            Answer::Cancelled
        }
        Call::MoveClock(minute) => {
            move_clock(links, tables, *minute)?;
            Answer::Moved
        }
        Call::Show { link, minute } => Answer::Shown(show(links, tables, *link, *minute)?),
        Call::Sold { link } => Answer::Sold(sold_work(links, tables, *link)?),
    })
}

/// The ranges that a listing writes into a lent list of so many figures. The list stands between figures that nobody may
/// write; past its ranges it is zero, and after a refusal it is as it was.
pub fn listing(figures: usize, list: impl FnOnce(&mut [u32]) -> Result<u32, u32>) -> Result<Vec<Range>, u32> {
    const MARGIN: usize = 4;
    // No figure is a minute, and no two are the same.
    let before: Vec<u32> = (0..(figures + 2 * MARGIN) as u32).map(|place| u32::MAX - place).collect();
    let mut after = before.clone();
    let answer = list(&mut after[MARGIN..][..figures]);
    if answer.is_err() {
        assert!(after == before, "a refused listing writes the list");
    }
    let (lent, end) = after[MARGIN..].split_at(figures);
    let margins_stand = after[..MARGIN] == before[..MARGIN] && *end == before[MARGIN + figures..];
    assert!(margins_stand, "a listing writes beside the list");
    let (used, unused) = lent.split_at(2 * answer? as usize);
    assert!(unused.iter().all(|&figure| figure == 0), "a list is not zero past its last range");
    Ok(used.chunks(2).map(|pair| Range { first: pair[0], last: pair[1] }).collect())
}

fn done(refusal: u32) -> Result<(), u32> {
    if refusal == 0 {
        Ok(())
    } else {
        Err(refusal)
    }
}

fn granted(g: Granted) -> Result<Start, Refused> {
    let used = g.count as usize;
    assert!(g.refusal == 8 || g.at == 0, "a minute stands beside an answer that is not 8");
    if g.refusal != 0 {
        assert!(g.start == 0 && used == 0 && g.links == [0; PATH_LINKS], "a refusal hands back a start or a path");
        return Err(Refused { number: g.refusal, at: g.at });
    }
    assert!(g.links[used..].iter().all(|&link| link == 0), "a path is not zero past its last link");
    Ok(Start { minute: g.start, path: g.links[..used].to_vec() })
}
