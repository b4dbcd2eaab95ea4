//! The choice, the break-off and the listing: the links with enough bandwidth in a row are a mask, those that last throughout a
//! span the AND of its masks, and a path is searched only where the last one or the last cut doesn't tell.

use desk_tests::{Refused, Request, EVENTS, ROW};

use super::net::{Net, Route};
use crate::shared::{row_at, Start, Tables};

/// The best start among low and the later events of the window, or 8 with its minute.
pub fn choose(net: &Net, tables: &Tables, rows: usize, request: &Request) -> Result<Start, Refused> {
    let mut trial = Trial::new(net, tables, rows, request);
    let first = trial.row;
    trial.first_start().ok_or_else(|| Refused { number: 8, at: trial.break_off(first) })
}

/// Writes the ranges of possible starts with zeros behind them, and answers their number.
pub fn list_ranges(net: &Net, tables: &Tables, rows: usize, request: &Request, list: &mut [u32]) -> u32 {
    Trial::new(net, tables, rows, request).list(list)
}

/// Tries minutes as starts, each later than the one before.
struct Trial<'a> {
    net: &'a Net,
    events: &'a [u32],
    free: &'a [u32],
    request: &'a Request,
    low: u32,
    /// The minutes for which a link has to last, the guard counted.
    span: u32,
    /// The links with enough bandwidth in each row, from low's to before `past`.
    enough: [u64; EVENTS],
    /// The row of the last start that was tried, and the one past its span.
    row: usize,
    past: usize,
    /// Links of which every path has one, by the last search that failed.
    cut: u64,
    /// The links of the last path that was found; none before.
    held: u64,
}

impl Trial<'_> {
    fn new<'a>(net: &'a Net, tables: &'a Tables, rows: usize, request: &'a Request) -> Trial<'a> {
        let (events, free) = (&tables.events[..rows], &*tables.free);
        let low = request.earliest.max(tables.head.clock);
        let span = request.duration + tables.head.guard;
        let row = row_at(events, low);
        let (enough, cut, held) = ([0; EVENTS], u64::MAX, 0);
        Trial { net, events, free, request, low, span, enough, row, past: row, cut, held }
    }

    fn first_start(&mut self) -> Option<Start> {
        let mut minute = self.low;
        loop {
            let usable = self.usable(minute);
            if let Some(Route { path, count, .. }) = self.route(usable) {
                return Some(Start { minute, count, path });
            }
            minute = self.next_event()?;
        }
    }

    /// The first minute such that no path has the bandwidth from low, in the first row, up to it. Low is not possible.
    fn break_off(&mut self, first: usize) -> u32 {
        let mut usable = u64::MAX;
        let mut row = first;
        loop {
            usable &= self.enough[row];
            if !self.leads(usable) {
                return self.events[row].max(self.low);
            }
            row += 1;
        }
    }

    fn list(&mut self, list: &mut [u32]) -> u32 {
        let mut count = 0;
        let mut next = self.first_possible(Some(self.low));
        while let Some(start) = next {
            let end = self.run_end();
            list[2 * count..][..2].copy_from_slice(&[start, end - 1]);
            count += 1;
            next = if end <= self.request.latest { self.first_possible(self.next_event()) } else { None };
        }
        list[2 * count..].fill(0);
        count as u32
    }

    /// The first possible start among a minute and the events behind it.
    fn first_possible(&mut self, from: Option<u32>) -> Option<u32> {
        let mut minute = from?;
        while !self.possible(minute) {
            minute = self.next_event()?;
        }
        Some(minute)
    }

    /// The first minute after a possible start, which was tried last, that is not possible, or the one after the latest. Minutes
    /// are tried where the end of the span meets an event.
    fn run_end(&mut self) -> u32 {
        let end = self.request.latest + self.span;
        while self.past < self.events.len() && self.events[self.past] < end {
            let minute = self.events[self.past] + 1 - self.span;
            if !self.possible(minute) {
                return minute;
            }
        }
        self.request.latest + 1
    }

    /// The event of the window behind the last start that was tried.
    fn next_event(&self) -> Option<u32> {
        self.events.get(self.row + 1).copied().filter(|&event| event <= self.request.latest)
    }

    fn possible(&mut self, start: u32) -> bool {
        let usable = self.usable(start);
        self.leads(usable)
    }

    /// The links that last throughout the span of a start.
    fn usable(&mut self, start: u32) -> u64 {
        while self.row + 1 < self.events.len() && self.events[self.row + 1] <= start {
            self.row += 1;
        }
        while self.past < self.events.len() && self.events[self.past] < start + self.span {
            let row = &self.free[self.past * ROW..][..self.net.count];
            self.enough[self.past] = mask(row, self.request.bandwidth);
            self.past += 1;
        }
        self.enough[self.row..self.past].iter().fold(u64::MAX, |usable, set| usable & set)
    }

    /// Whether a path leads over usable links.
    fn leads(&mut self, usable: u64) -> bool {
        let holds = self.held != 0 && usable & self.held == self.held;
        holds || self.route(usable).is_some()
    }

    /// The best path over usable links.
    fn route(&mut self, usable: u64) -> Option<Route> {
        if usable & self.cut == 0 {
            return None;
        }
        match self.net.search(usable, self.request.from, self.request.to) {
            Ok(route) => {
                self.held = route.set;
                Some(route)
            }
            Err(cut) => {
                self.cut = cut;
                None
            }
        }
    }
}

/// The links of a row with enough bandwidth.
fn mask(row: &[u32], bandwidth: u32) -> u64 {
    let (low, high) = row.split_at(row.len().min(HALF));
    u64::from(half_mask(low, bandwidth)) | u64::from(half_mask(high, bandwidth)) << HALF
}

/// The same of half a row, by the sign of what is left over: so the compiler takes several links at a time.
fn half_mask(figures: &[u32], bandwidth: u32) -> u32 {
    let enough = |(&figure, &bit): (&u32, &u32)| !(figure.wrapping_sub(bandwidth) as i32 >> 31) as u32 & bit;
    figures.iter().zip(&BITS).map(enough).fold(0, |mask, bit| mask | bit)
}

const HALF: usize = ROW / 2;
static BITS: [u32; HALF] = bits();

const fn bits() -> [u32; HALF] {
    let mut bits = [0; HALF];
    let mut place = 0;
    while place < bits.len() {
        bits[place] = 1 << place;
        place += 1;
    }
    bits
}
