//! The independent desk: a link list, a guard, a clock and a list of bookings, and the eight calls with their checks in the
//! order of documents 01 and 02. It keeps no table: a residual bandwidth is the capacity less what the bookings hold, and sold
//! work is added up from the bookings.

use crate::{Link, Refused, Request};
use crate::{BOOKINGS, LINKS, LIST_FIGURES, NODES, PATH_LINKS};
use crate::{MAX_BANDWIDTH, MAX_CAPACITY, MAX_DURATION, MAX_GUARD, MAX_MINUTE, MAX_NUMBER, MAX_SHOWN};

#[derive(Clone, Debug, PartialEq, Eq)]
pub struct Booking {
    pub number: u32,
    pub start: u32,
    pub duration: u32,
    pub bandwidth: u32,
    pub path: Vec<u32>,
}

impl Booking {
    pub fn end(&self) -> u32 {
        self.start + self.duration
    }

    /// Bandwidth times duration, without the guard.
    pub fn work(&self) -> u64 {
        u64::from(self.bandwidth) * u64::from(self.duration)
    }
}

/// The links, the guard and the plain book. The order of the bookings doesn't count.
#[derive(Clone, Debug, PartialEq, Eq)]
pub struct Desk {
    pub links: Vec<Link>,
    pub guard: u32,
    pub clock: u32,
    pub bookings: Vec<Booking>,
}

/// A listing has the number of figures of its lent list.
#[derive(Clone, Debug, PartialEq, Eq)]
pub enum Call {
    SetUp { links: Vec<Link>, guard: u32 },
    Book(u32, Request),
    Offer(Request),
    List(usize, Request),
    Cancel(u32),
    MoveClock(u32),
    Show { link: u32, minute: u32 },
    Sold { link: u32 },
}

impl Call {
    pub const KINDS: usize = 8;

    /// Which of the calls it is, from 0.
    pub fn kind(&self) -> usize {
        match self {
            Call::SetUp { .. } => 0,
            Call::Book(..) => 1,
            Call::Offer(_) => 2,
            Call::List(..) => 3,
            Call::Cancel(_) => 4,
            Call::MoveClock(_) => 5,
            Call::Show { .. } => 6,
            Call::Sold { .. } => 7,
        }
    }
}

#[derive(Clone, Debug, PartialEq, Eq)]
pub enum Answer {
    SetUp,
    Booked(Start),
    Offered(Start),
    Listed(Vec<Range>),
    Cancelled,
    Moved,
    Shown(u32),
    Sold(u64),
    Refused(Refused),
}

impl Answer {
    /// A refusal with no minute beside it.
    pub fn refused(number: u32) -> Answer {
        Answer::Refused(number.into())
    }

    /// Refusal 8, with the minute at which every path from low on breaks off.
    pub fn no_start(at: u32) -> Answer {
        Answer::Refused(Refused { number: 8, at })
    }
}

/// A start minute with its path.
#[derive(Clone, Debug, PartialEq, Eq)]
pub struct Start {
    pub minute: u32,
    pub path: Vec<u32>,
}

/// Start minutes that are all possible, from the first to the last.
#[derive(Clone, Copy, Debug, PartialEq, Eq)]
pub struct Range {
    pub first: u32,
    pub last: u32,
}

/// How far a choice or listing walks through a window. Past the last event nothing changes any more, so the two always agree.
#[derive(Clone, Copy, Debug, PartialEq, Eq)]
pub enum Walk {
    ToLastEvent,
    ToLatest,
}

impl Desk {
    /// A desk at minute 0. Refuses 1 for the number of links, 4 for the guard, then 2 for a bad link.
    pub fn set_up(links: &[Link], guard: u32) -> Result<Desk, u32> {
        if links.is_empty() || links.len() > LINKS {
            return Err(1);
        }
        if guard > MAX_GUARD {
            return Err(4);
        }
        if !links.iter().all(valid_link) {
            return Err(2);
        }
        Ok(Desk { links: links.to_vec(), guard, clock: 0, bookings: Vec::new() })
    }

    /// Runs any of the eight calls on sound tables of the right sizes: refusals 1 (but for the link list) and 3 don't occur.
    pub fn answer(&mut self, call: &Call) -> Answer {
        self.try_answer(call).unwrap_or_else(Answer::Refused)
    }

    fn try_answer(&mut self, call: &Call) -> Result<Answer, Refused> {
        Ok(match call {
            Call::SetUp { links, guard } => {
                *self = Desk::set_up(links, *guard)?;
                Answer::SetUp
            }
            Call::Book(number, request) => Answer::Booked(self.book(*number, request)?),
            Call::Offer(request) => Answer::Offered(self.offer(request)?),
            Call::List(figures, request) => Answer::Listed(self.list(*figures, request)?),
            Call::Cancel(number) => {
                self.cancel(*number)?;
                Answer::Cancelled
            }
            Call::MoveClock(minute) => {
                self.move_clock(*minute)?;
                Answer::Moved
            }
            Call::Show { link, minute } => Answer::Shown(self.show(*link, *minute)?),
            Call::Sold { link } => Answer::Sold(self.sold_work(*link)?),
        })
    }

    /// Refuses 4, 5, 6, 7, 8, in this order.
    pub fn book(&mut self, number: u32, request: &Request) -> Result<Start, Refused> {
        if !valid_number(number) {
            return Err(4.into());
        }
        self.check(request)?;
        if self.stands(number) {
            return Err(6.into());
        }
        if self.bookings.len() >= BOOKINGS {
            return Err(7.into());
        }
        let start = self.start_or_8(request)?;
        self.bookings.push(Booking {
            number,
            start: start.minute,
            duration: request.duration,
            bandwidth: request.bandwidth,
            path: start.path.clone(),
        });
        Ok(start)
    }

    /// Refuses 4, 5, 8, in this order.
    pub fn offer(&self, request: &Request) -> Result<Start, Refused> {
        self.check(request)?;
        self.start_or_8(request)
    }

    /// Refuses 13, 4, 5, in this order.
    pub fn list(&self, figures: usize, request: &Request) -> Result<Vec<Range>, u32> {
        self.check_listing(figures, request)?;
        Ok(self.ranges(request, Walk::ToLastEvent))
    }

    /// Refuses 4, then 9.
    pub fn cancel(&mut self, number: u32) -> Result<(), u32> {
        if !valid_number(number) {
            return Err(4);
        }
        if !self.stands(number) {
            return Err(9);
        }
        self.bookings.retain(|booking| booking.number != number);
        Ok(())
    }

    /// Refuses 4, then 10.
    pub fn move_clock(&mut self, minute: u32) -> Result<(), u32> {
        if minute > MAX_MINUTE {
            return Err(4);
        }
        if minute < self.clock {
            return Err(10);
        }
        self.clock = minute;
        let guard = self.guard;
        self.bookings.retain(|booking| booking.end() + guard > minute);
        Ok(())
    }

    /// Refuses 4.
    pub fn show(&self, link: u32, minute: u32) -> Result<u32, u32> {
        if link as usize >= self.links.len() || minute < self.clock || minute > MAX_SHOWN {
            return Err(4);
        }
        Ok(self.residual(link, minute) as u32)
    }

    /// Refuses 4.
    pub fn sold_work(&self, link: u32) -> Result<u64, u32> {
        if link as usize >= self.links.len() {
            return Err(4);
        }
        Ok(self.total(link))
    }

    pub fn stands(&self, number: u32) -> bool {
        self.bookings.iter().any(|booking| booking.number == number)
    }

    /// The minute from which on a booking holds no link and no longer stands.
    pub fn guarded_end(&self, booking: &Booking) -> u32 {
        booking.end() + self.guard
    }

    /// Whether a booking holds its links in this minute.
    pub fn holds(&self, booking: &Booking, minute: u32) -> bool {
        booking.start <= minute && minute < self.guarded_end(booking)
    }

    /// The residual bandwidth of a link in a minute: below zero if the link is oversold.
    pub fn residual(&self, link: u32, minute: u32) -> i64 {
        let held = self.bookings.iter().filter(|booking| self.holds(booking, minute) && booking.path.contains(&link));
        self.links[link as usize].capacity as i64 - held.map(|booking| booking.bandwidth as i64).sum::<i64>()
    }

    /// The residual bandwidth of every link in a minute.
    pub fn residuals(&self, minute: u32) -> Vec<i64> {
        let mut row: Vec<i64> = self.links.iter().map(|link| link.capacity as i64).collect();
        for booking in self.bookings.iter().filter(|booking| self.holds(booking, minute)) {
            booking.path.iter().for_each(|&link| row[link as usize] -= booking.bandwidth as i64);
        }
        row
    }

    /// The sold work of a link: that of the bookings whose path has it.
    pub fn total(&self, link: u32) -> u64 {
        self.bookings.iter().filter(|booking| booking.path.contains(&link)).map(Booking::work).sum()
    }

    /// The sold work of every link, added up booking by booking.
    pub fn totals(&self) -> Vec<u64> {
        let mut totals = vec![0; self.links.len()];
        for booking in &self.bookings {
            booking.path.iter().for_each(|&link| totals[link as usize] += booking.work());
        }
        totals
    }

    /// The clock and every later start and guarded end, each once, rising.
    pub fn events(&self) -> Vec<u32> {
        let mut events: Vec<u32> =
            self.bookings.iter().flat_map(|booking| [booking.start, self.guarded_end(booking)]).collect();
        events.retain(|&minute| minute > self.clock);
        events.push(self.clock);
        events.sort();
        events.dedup();
        events
    }

    /// The minute before which no start of the request may lie.
    pub fn low(&self, request: &Request) -> u32 {
        request.earliest.max(self.clock)
    }

    /// The earliest minute of the window at which a path is free throughout the guarded span, with the best path there: every minute of the
    /// window is tried in turn.
    pub fn choose(&self, request: &Request, walk: Walk) -> Option<Start> {
        let mut trial = Trial::new(self, request);
        (self.low(request)..=self.last_tried(request, walk))
            .find_map(|minute| trial.path_at(minute).cloned().map(|path| Start { minute, path }))
    }

    /// The first minute, from low on, such that no single path has the bandwidth throughout low to it: every minute is tried in
    /// turn. Low is not possible, so it is one of the span from low on.
    pub fn break_off(&self, request: &Request) -> u32 {
        let mut trial = Trial::new(self, request);
        let low = self.low(request);
        let mut span = low..low + request.duration + self.guard;
        span.find(|&minute| trial.path_in(low, minute + 1).is_none()).expect("no path from low on lasts")
    }

    fn start_or_8(&self, request: &Request) -> Result<Start, Refused> {
        let start = self.choose(request, Walk::ToLastEvent);
        start.ok_or_else(|| Refused { number: 8, at: self.break_off(request) })
    }

    /// The ranges of possible start minutes of the window: every minute of it is tried in turn, and minutes that touch are
    /// in one range.
    pub fn ranges(&self, request: &Request, walk: Walk) -> Vec<Range> {
        let mut trial = Trial::new(self, request);
        let mut ranges: Vec<Range> = Vec::new();
        let last_tried = self.last_tried(request, walk);
        for minute in (self.low(request)..=last_tried).filter(|&minute| trial.path_at(minute).is_some()) {
            // The last one tried stands for those behind it.
            let last = if minute == last_tried { request.latest } else { minute };
            match ranges.last_mut() {
                Some(range) if range.last + 1 == minute => range.last = last,
                _ => ranges.push(Range { first: minute, last }),
            }
        }
        ranges
    }

    /// The last minute of a window that is tried.
    pub fn last_tried(&self, request: &Request, walk: Walk) -> u32 {
        let last_event = self.bookings.iter().map(|booking| self.guarded_end(booking)).max().unwrap_or(self.clock);
        match walk {
            Walk::ToLastEvent => request.latest.min(self.low(request).max(last_event)),
            Walk::ToLatest => request.latest,
        }
    }

    /// The spans of minutes, from one to before another, in which the link has less than the bandwidth left. What is left
    /// only changes where a booking starts or its guard ends.
    fn short_spans(&self, link: u32, bandwidth: u32) -> Vec<(u32, u32)> {
        let on_link = self.bookings.iter().filter(|booking| booking.path.contains(&link));
        let mut changes: Vec<u32> = on_link.flat_map(|booking| [booking.start, self.guarded_end(booking)]).collect();
        changes.extend([0, u32::MAX]);
        changes.sort();
        let spans = changes.windows(2).map(|pair| (pair[0], pair[1]));
        let mut short: Vec<(u32, u32)> =
            spans.filter(|&(from, to)| from < to && self.residual(link, from) < bandwidth as i64).collect();
        // Spans that touch become one.
        short.dedup_by(|next, last| {
            let touches = last.1 == next.0;
            last.1 = if touches { next.1 } else { last.1 };
            touches
        });
        short
    }

    /// What stops a listing into a list of so many figures: 13, 4, then 5.
    pub fn check_listing(&self, figures: usize, request: &Request) -> Result<(), u32> {
        if figures != LIST_FIGURES {
            return Err(13);
        }
        self.check(request)
    }

    /// What stops a request before a start is chosen: 4, then 5.
    pub fn check(&self, request: &Request) -> Result<(), u32> {
        let in_range = (request.from as usize) < NODES
            && (request.to as usize) < NODES
            && (1..=MAX_BANDWIDTH).contains(&request.bandwidth)
            && (1..=MAX_DURATION).contains(&request.duration)
            && request.earliest <= MAX_MINUTE
            && request.latest <= MAX_MINUTE;
        if !in_range || request.from == request.to {
            return Err(4);
        }
        if request.latest < self.low(request) {
            return Err(5);
        }
        Ok(())
    }
}

/// Tries minutes as the start of a request, its window left aside.
pub struct Trial<'a> {
    desk: &'a Desk,
    request: Request,
    /// For each link the spans in which it has less than the bandwidth left.
    short: Vec<Vec<(u32, u32)>>,
    /// A set of links with its best path: the last one that was searched isn't searched again.
    searched: Option<(u64, Option<Vec<u32>>)>,
}

impl Trial<'_> {
    pub fn new<'a>(desk: &'a Desk, request: &Request) -> Trial<'a> {
        let links = 0..desk.links.len() as u32;
        let short = links.map(|link| desk.short_spans(link, request.bandwidth)).collect();
        Trial { desk, request: *request, short, searched: None }
    }

    /// The best path over the links that have the bandwidth in every minute of the guarded span that starts here.
    pub fn path_at(&mut self, minute: u32) -> Option<&Vec<u32>> {
        self.path_in(minute, minute + self.request.duration + self.desk.guard)
    }

    /// The best path over the links that have the bandwidth in every minute from one to before another.
    pub fn path_in(&mut self, start: u32, end: u32) -> Option<&Vec<u32>> {
        let usable = self.short.iter().map(|spans| !spans.iter().any(|&(from, to)| from < end && start < to));
        let usable = usable.enumerate().fold(0u64, |set, (link, free)| set | (free as u64) << link);
        if self.searched.as_ref().map(|&(set, _)| set) != Some(usable) {
            let path = best_path(&self.desk.links, usable, self.request.from, self.request.to);
            self.searched = Some((usable, path));
        }
        self.searched.as_ref().and_then(|(_, path)| path.as_ref())
    }
}

pub fn valid_link(link: &Link) -> bool {
    (link.from as usize) < NODES
        && (link.to as usize) < NODES
        && link.from != link.to
        && (1..=MAX_CAPACITY).contains(&link.capacity)
}

pub fn valid_number(number: u32) -> bool {
    (1..=MAX_NUMBER).contains(&number)
}

/// The path with the fewest links of a set (bit i is link i), and among those the one with the lower link number at the
/// first place where two differ. Chains are counted from their end: `first[n][node]` is the lowest link from the node that
/// goes on to the destination in exactly n more links, so following it gives the least chain of n + 1 links.
pub fn best_path(links: &[Link], usable: u64, from: u32, to: u32) -> Option<Vec<u32>> {
    let mut first: Vec<[Option<usize>; NODES]> = Vec::new();
    for more in 0..PATH_LINKS {
        let mut lowest = [None; NODES];
        for (number, link) in links.iter().enumerate().rev() {
            let arrives = if more == 0 { link.to == to } else { first[more - 1][link.to as usize].is_some() };
            if arrives && usable >> number & 1 == 1 {
                lowest[link.from as usize] = Some(number);
            }
        }
        first.push(lowest);
        if lowest[from as usize].is_some() {
            return Some(follow(links, &first, from));
        }
    }
    None
}

fn follow(links: &[Link], first: &[[Option<usize>; NODES]], from: u32) -> Vec<u32> {
    let mut node = from;
    let mut path = Vec::new();
    for lowest in first.iter().rev() {
        let number = lowest[node as usize].expect("a chain goes on");
        path.push(number as u32);
        node = links[number].to;
    }
    path
}
