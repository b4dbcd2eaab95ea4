//! What a guard alone brings about: told from the same bookings on a desk without one.

use crate::plain::{valid_link, Answer, Booking, Call, Desk, Start, Walk};
use crate::{Refused, LINKS, MAX_DURATION, MAX_GUARD, MAX_MINUTE, MAX_SHOWN};

/// The guards there are.
pub const GUARDS: usize = MAX_GUARD as usize + 1;

/// How often each of these has occurred. A booking is in its guard from its end until its guarded end.
#[derive(Default, Debug)]
pub struct Counts {
    /// Calls by the guard of the desk that is asked.
    pub by_guard: [u32; GUARDS],
    /// Bookings and offers that start later than they would without a guard; at the same minute, but over other links; and
    /// that are refused 8, where they would have a start.
    pub moved: u32,
    pub led_over_other_links: u32,
    pub refused: u32,
    /// Bookings refused 6 for the number of a booking in its guard; and 7 where some of the 64 are in theirs.
    pub number_in_guard: u32,
    pub full_by_guards: u32,
    /// Clock moves that keep a booking in its guard; and to the very minute at which a guard of a minute or more ends.
    pub kept: u32,
    pub moved_to_guarded_end: u32,
    /// Cancellations of bookings in their guard.
    pub cancelled_in_guard: u32,
    /// Listings with other ranges than without a guard.
    pub listed_otherwise: u32,
    /// Showings of less than without a guard; of minutes that could not be shown without one; of the last minute; and of the
    /// one behind it, which are refused.
    pub less_shown: u32,
    pub late_shown: u32,
    pub last_shown: u32,
    pub past_last: u32,
    /// Bookings that hold their links in minutes which could not be shown without a guard.
    pub late_guards: u32,
    /// Set-ups accepted, by their guard; refused 1, 4 and 2; 1 with a guard that is too long; and 4 with a bad link.
    pub set_up: [u32; GUARDS],
    pub set_up_refused: [u32; 5],
    pub one_before_four: u32,
    pub four_before_two: u32,
}

impl Counts {
    /// Adds a call with the desk before and after it.
    pub fn add(&mut self, before: &Desk, call: &Call, answer: &Answer, after: &Desk) {
        self.by_guard[before.guard as usize] += 1;
        let unguarded = Desk { guard: 0, ..before.clone() };
        let start = |request| unguarded.choose(request, Walk::ToLastEvent);
        let in_guard = |booking: &Booking| booking.end() <= after.clock;
        match (call, answer) {
            (Call::Book(_, request), Answer::Booked(guarded)) => {
                self.add_start(guarded, start(request));
                let late = MAX_MINUTE + MAX_DURATION < guarded.minute + request.duration + before.guard;
                self.late_guards += late as u32;
            }
            (Call::Offer(request), Answer::Offered(guarded)) => self.add_start(guarded, start(request)),
            (Call::Book(_, request) | Call::Offer(request), Answer::Refused(Refused { number: 8, .. })) => {
                self.refused += start(request).is_some() as u32;
            }
            (Call::Book(number, _), Answer::Refused(Refused { number: 6, .. })) => {
                let number_in_guard = |booking| in_guard(booking) && booking.number == *number;
                self.number_in_guard += before.bookings.iter().any(number_in_guard) as u32;
            }
            (Call::Book(..), Answer::Refused(Refused { number: 7, .. })) => {
                self.full_by_guards += before.bookings.iter().any(in_guard) as u32;
            }
            (Call::MoveClock(minute), Answer::Moved) => {
                self.kept += after.bookings.iter().any(in_guard) as u32;
                let ends_now = |booking| before.guarded_end(booking) == *minute;
                self.moved_to_guarded_end += (before.guard > 0 && before.bookings.iter().any(ends_now)) as u32;
            }
            (Call::Cancel(number), Answer::Cancelled) => {
                let cancelled = |booking: &&Booking| booking.number == *number;
                self.cancelled_in_guard += before.bookings.iter().find(cancelled).is_some_and(in_guard) as u32;
            }
            (Call::List(_, request), Answer::Listed(ranges)) => {
                self.listed_otherwise += (unguarded.ranges(request, Walk::ToLastEvent) != *ranges) as u32;
            }
            (Call::Show { link, minute }, Answer::Shown(free)) => {
                self.less_shown += (i64::from(*free) < unguarded.residual(*link, *minute)) as u32;
                self.late_shown += (MAX_MINUTE + MAX_DURATION < *minute) as u32;
                self.last_shown += (*minute == MAX_SHOWN) as u32;
            }
            (Call::Show { minute, .. }, Answer::Refused(Refused { number: 4, .. })) => {
                self.past_last += (*minute == MAX_SHOWN + 1) as u32;
            }
            (Call::SetUp { guard, .. }, Answer::SetUp) => self.set_up[*guard as usize] += 1,
            (Call::SetUp { links, guard }, Answer::Refused(refused)) => {
                self.set_up_refused[refused.number as usize] += 1;
                let too_long = *guard > MAX_GUARD;
                let bad_size = links.is_empty() || links.len() > LINKS;
                self.one_before_four += (bad_size && too_long) as u32;
                self.four_before_two += (!bad_size && too_long && !links.iter().all(valid_link)) as u32;
            }
            _ => {}
        }
    }

    /// What bears on orders, for print.
    pub fn of_orders(&self) -> String {
        format!(
            "by guards alone: {} starts later, {} over other links, {} refused 8, {} refused 6 and {} refused 7, {} clock \
             moves keep a booking; {} clock moves to the end of a guard, {} cancelled in their guard, {} held late",
            self.moved,
            self.led_over_other_links,
            self.refused,
            self.number_in_guard,
            self.full_by_guards,
            self.kept,
            self.moved_to_guarded_end,
            self.cancelled_in_guard,
            self.late_guards
        )
    }

    /// The same as counts, each with the least that will do.
    pub fn of_orders_enough(&self) -> [(&'static str, u32, u32); 9] {
        [
            ("moved by a guard", self.moved, 1_000),
            ("led over other links by a guard", self.led_over_other_links, 100),
            ("refused 8 by a guard", self.refused, 300),
            ("refused 6 by a number in its guard", self.number_in_guard, 300),
            ("refused 7 by bookings in their guard", self.full_by_guards, 300),
            ("clock moves that keep a booking in its guard", self.kept, 1_000),
            ("clock moves to the end of a guard", self.moved_to_guarded_end, 300),
            ("cancelled in its guard", self.cancelled_in_guard, 300),
            ("held behind minute 1,000,525,599", self.late_guards, 20),
        ]
    }

    /// What bears on any call, for print.
    pub fn of_calls(&self) -> String {
        let [_, sizes, links, _, guards] = self.set_up_refused;
        format!(
            "{}\nby guards alone: {} listed otherwise, {} less shown; minutes shown: {} behind 1,000,525,600, {} the last, {} \
             refused past it\nset-ups: by guard {:?}, {sizes} refused 1, {guards} refused 4, {links} refused 2; {} refused 1 \
             before 4, {} refused 4 before 2",
            self.of_orders(),
            self.listed_otherwise,
            self.less_shown,
            self.late_shown,
            self.last_shown,
            self.past_last,
            self.set_up,
            self.one_before_four,
            self.four_before_two
        )
    }

    fn add_start(&mut self, guarded: &Start, unguarded: Option<Start>) {
        let unguarded = unguarded.expect("a start without a guard");
        assert!(unguarded.minute <= guarded.minute, "an earlier start under a guard");
        self.moved += (unguarded.minute < guarded.minute) as u32;
        self.led_over_other_links += (unguarded.minute == guarded.minute && unguarded.path != guarded.path) as u32;
    }
}
