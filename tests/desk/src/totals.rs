//! Questions for sold work, and how often other rules would have told another figure.

use crate::plain::{Answer, Booking, Call, Desk};
use crate::Refused;

/// How often each of these has occurred.
#[derive(Default)]
pub struct Counts {
    /// Questions answered, by the kind of the last other call.
    pub by_last_call: [u32; Call::KINDS - 1],
    /// Figures that are not zero; and that are above 32 bits.
    pub not_zero: u32,
    pub large: u32,
    /// Figures that would be more with the guard counted; that have a running booking; and one in its guard.
    pub guard_left_out: u32,
    pub running: u32,
    pub in_guard: u32,
    /// Right after a clock move that drops a booking of the link; and after a cancellation of one.
    pub after_drop: u32,
    pub after_cancel: u32,
    /// Refused for the link right behind the list; and for one further off it.
    pub right_behind: u32,
    pub far_off: u32,
    last: LastCall,
}

/// The last call that was no question: its kind, and the links that it took bookings from.
#[derive(Default)]
struct LastCall {
    kind: usize,
    dropped: u64,
    cancelled: u64,
}

impl Counts {
    /// Adds a call with the desk before and after it.
    pub fn add(&mut self, before: &Desk, call: &Call, answer: &Answer, after: &Desk) {
        match (call, answer) {
            (Call::Sold { link }, Answer::Sold(work)) => self.add_figure(after, *link, *work),
            (Call::Sold { link }, Answer::Refused(Refused { number: 4, .. })) => {
                let right_behind = *link as usize == after.links.len();
                self.right_behind += right_behind as u32;
                self.far_off += !right_behind as u32;
            }
            _ => {
                let gone = before.bookings.iter().filter(|booking| !after.stands(booking.number));
                let links = gone.flat_map(|booking| &booking.path).fold(0u64, |links, link| links | 1 << link);
                self.last = LastCall {
                    kind: call.kind(),
                    dropped: if matches!(call, Call::MoveClock(_)) { links } else { 0 },
                    cancelled: if matches!(call, Call::Cancel(_)) { links } else { 0 },
                };
            }
        }
    }

    fn add_figure(&mut self, desk: &Desk, link: u32, work: u64) {
        let on_link = || desk.bookings.iter().filter(|booking| booking.path.contains(&link));
        let running = |booking: &Booking| booking.start < desk.clock && desk.clock < booking.end();
        self.by_last_call[self.last.kind] += 1;
        self.not_zero += (work > 0) as u32;
        self.large += (work > u64::from(u32::MAX)) as u32;
        self.guard_left_out += (work > 0 && desk.guard > 0) as u32;
        self.running += on_link().any(running) as u32;
        self.in_guard += on_link().any(|booking| booking.end() <= desk.clock) as u32;
        self.after_drop += (self.last.dropped >> link & 1) as u32;
        self.after_cancel += (self.last.cancelled >> link & 1) as u32;
    }

    /// The counts, for print.
    pub fn told(&self) -> String {
        format!(
            "{} questions for sold work, by the last other call {:?}; {} not zero, {} above 32 bits; {} without the guard, {} \
             with a running booking, {} with one in its guard; {} after a clock move that drops a booking of the link, {} \
             after a cancellation; {} refused right behind the list, {} further off",
            self.by_last_call.iter().sum::<u32>(),
            self.by_last_call,
            self.not_zero,
            self.large,
            self.guard_left_out,
            self.running,
            self.in_guard,
            self.after_drop,
            self.after_cancel,
            self.right_behind,
            self.far_off
        )
    }

    /// The same, each with the least that will do.
    pub fn enough(&self) -> [(&'static str, u32, u32); 10] {
        [
            ("sold work after each call", *self.by_last_call.iter().min().expect("a call"), 500),
            ("sold work", self.not_zero, 50_000),
            ("sold work above 32 bits", self.large, 500),
            ("sold work that leaves a guard out", self.guard_left_out, 50_000),
            ("sold work of a running booking", self.running, 10_000),
            ("sold work of a booking in its guard", self.in_guard, 10_000),
            ("sold work after a drop", self.after_drop, 1_000),
            ("sold work after a cancellation", self.after_cancel, 1_000),
            ("sold work right behind the list", self.right_behind, 300),
            ("sold work far off the list", self.far_off, 300),
        ]
    }
}
