//! Document 01's tables, counted minute by minute from a list of bookings. Nothing here is kept from one call to the next.

use crate::{EVENTS, FIGURES, LINKS};

/// A booking of one link.
#[derive(Clone, Copy, Debug)]
pub struct Booking {
    pub start: u32,
    pub end: u32,
    pub link: u32,
    pub bandwidth: u32,
}

/// A desk: its clock, the capacities of its links and its bookings.
#[derive(Clone, Debug)]
pub struct Desk {
    pub clock: u32,
    pub capacities: Vec<u32>,
    pub bookings: Vec<Booking>,
}

impl Desk {
    /// What a link has free in a minute: its capacity less what the bookings hold then, and 0 where they hold more.
    pub fn free(&self, link: u32, minute: u32) -> u32 {
        let held = |b: &&Booking| b.link == link && b.start <= minute && minute < b.end;
        let taken: u64 = self.bookings.iter().filter(held).map(|b| b.bandwidth as u64).sum();
        (self.capacities[link as usize] as u64).saturating_sub(taken) as u32
    }

    /// The clock and every later start and end, each once, rising.
    pub fn events(&self) -> Vec<u32> {
        let mut times: Vec<u32> = self.bookings.iter().flat_map(|b| [b.start, b.end]).collect();
        times.retain(|&m| m > self.clock);
        times.push(self.clock);
        times.sort_unstable();
        times.dedup();
        times
    }

    /// The event table: the events, and zeros.
    pub fn event_table(&self) -> [u32; EVENTS] {
        let mut table = [0; EVENTS];
        for (place, event) in self.events().into_iter().enumerate() {
            table[place] = event;
        }
        table
    }

    /// The free table: for each event the figures of its minute; unused rows and columns are zero.
    pub fn free_table(&self) -> [u32; FIGURES] {
        let mut table = [0; FIGURES];
        for (row, event) in self.events().into_iter().enumerate() {
            for link in 0..self.capacities.len() {
                table[row * LINKS + link] = self.free(link as u32, event);
            }
        }
        table
    }
}
