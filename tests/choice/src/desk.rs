//! A desk as a list of bookings, with no table: what each link has free in each minute, and the tables that follow.

use crate::{LinkEnds, Tables, EVENTS, LINKS};

#[derive(Clone, Debug)]
pub struct Link {
    pub from: u32,
    pub to: u32,
    pub capacity: u32,
}

#[derive(Clone, Debug)]
pub struct Booking {
    pub start: u32,
    pub end: u32,
    pub bandwidth: u32,
    pub links: Vec<usize>,
}

#[derive(Clone, Debug)]
pub struct Desk {
    pub clock: u32,
    pub links: Vec<Link>,
    pub bookings: Vec<Booking>,
}

impl Desk {
    /// What a link has free in a minute.
    pub fn free(&self, link: usize, minute: u32) -> u32 {
        let holds = |b: &&Booking| b.start <= minute && minute < b.end && b.links.contains(&link);
        self.links[link].capacity - self.bookings.iter().filter(holds).map(|b| b.bandwidth).sum::<u32>()
    }

    /// Whether a link has the bandwidth in each minute that the booking holds it.
    pub fn fits(&self, booking: &Booking) -> bool {
        let changes = |link: &usize| {
            let inside = |minute: &u32| booking.start <= *minute && *minute < booking.end;
            let starts = self.bookings.iter().map(|b| b.start).filter(inside);
            std::iter::once(booking.start).chain(starts).all(|minute| self.free(*link, minute) >= booking.bandwidth)
        };
        booking.links.iter().all(changes)
    }

    /// The clock and every later start and end, each once, rising.
    pub fn events(&self) -> Vec<u32> {
        let times = self.bookings.iter().flat_map(|b| [b.start, b.end]).filter(|&t| self.clock < t);
        let mut events: Vec<u32> = std::iter::once(self.clock).chain(times).collect();
        events.sort_unstable();
        events.dedup();
        events
    }

    pub fn ends(&self) -> LinkEnds {
        let mut ends = LinkEnds { count: self.links.len(), from: [0; LINKS], to: [0; LINKS] };
        for (place, link) in self.links.iter().enumerate() {
            ends.from[place] = link.from;
            ends.to[place] = link.to;
        }
        ends
    }

    pub fn tables(&self) -> Tables {
        let mut tables = Tables { events: self.events(), free: vec![0; EVENTS * LINKS] };
        for (row, &event) in tables.events.iter().enumerate() {
            for link in 0..self.links.len() {
                tables.free[row * LINKS + link] = self.free(link, event);
            }
        }
        tables.events.resize(EVENTS, 0);
        tables
    }
}
