//! Soundness in one pass and without scratch tables: the lent events are searched for the starts and ends of the book, and the
//! lent figures are compared with sums that run over the rows.

use desk_tests::{Head, Link, BOOKINGS, EVENTS, PLACE, ROW, TOTALS};

use crate::shared::{add_work, all_zero, guarded_end, path, valid_booking, valid_head, valid_link, Tables};
use crate::shared::{BANDWIDTH, NUMBER, START};

/// The number of events, if the tables are sound.
pub fn sound(links: &[Link], tables: &Tables) -> Option<usize> {
    if !valid_head(links, tables.head) || !links.iter().all(valid_link) {
        return None;
    }
    let rows = count_events(tables.events, tables.head.clock)?;
    let (used, unused) = tables.book.split_at(tables.head.bookings as usize * PLACE);
    let (free, behind) = tables.free.split_at(rows * ROW);
    let changes = Changes::new(links, tables.head, used, &tables.events[..rows])?;
    let same = tables.totals == changes.totals && changes.make(links, used, free);
    (same && all_zero(unused) && all_zero(behind)).then_some(rows)
}

/// The number of events, if they rise from the clock on with zeros behind them.
fn count_events(events: &[u32], clock: u32) -> Option<usize> {
    let rows = 1 + events.windows(2).take_while(|pair| pair[0] < pair[1]).count();
    (events[0] == clock && all_zero(&events[rows..])).then_some(rows)
}

/// What a book changes.
struct Changes {
    /// The last change of each row.
    last: [u8; EVENTS],
    /// The change of the same row before each: 2 * place + 1 for a start, 2 * place + 2 for an end, and 0 before the first.
    before: [u8; 2 * BOOKINGS + 1],
    totals: [u64; TOTALS],
}

impl Changes {
    /// The changes of a valid book in rising order, if the events are the clock and the minutes that it changes.
    fn new(links: &[Link], head: &Head, used: &[u32], events: &[u32]) -> Option<Changes> {
        let mut changes = Changes { last: [0; EVENTS], before: [0; 2 * BOOKINGS + 1], totals: [0; TOTALS] };
        let mut number = 0;
        for (place, figures) in used.chunks_exact(PLACE).enumerate() {
            if figures[NUMBER] <= number || !valid_booking(links, head.clock, head.guard, figures) {
                return None;
            }
            number = figures[NUMBER];
            let start = events.binary_search(&figures[START].max(head.clock)).ok()?;
            let end = events.binary_search(&guarded_end(figures, head.guard)).ok()?;
            changes.chain(2 * place + 1, start);
            changes.chain(2 * place + 2, end);
            add_work(figures, &mut changes.totals);
        }
        (!changes.last[1..events.len()].contains(&0)).then_some(changes)
    }

    fn chain(&mut self, change: usize, row: usize) {
        self.before[change] = self.last[row];
        self.last[row] = change as u8;
    }

    /// Whether the changes make these rows of the capacities, with no link oversold.
    fn make(&self, links: &[Link], used: &[u32], free: &[u32]) -> bool {
        const SIGN: u32 = 1 << 31;
        let mut level = [0; ROW];
        links.iter().zip(&mut level).for_each(|(link, figure)| *figure = link.capacity);
        let mut wrong = 0;
        for (row, lent) in free.chunks_exact(ROW).enumerate() {
            self.apply(row, used, &mut level);
            let differs = |any, (&level, &lent): (&u32, &u32)| any | level ^ lent | level & SIGN;
            wrong |= level.iter().zip(lent).fold(0, differs);
        }
        wrong == 0
    }

    /// Applies the changes of a row: a start takes its bandwidth, and an end gives it back.
    fn apply(&self, row: usize, used: &[u32], level: &mut [u32; ROW]) {
        let mut change = self.last[row] as usize;
        while change != 0 {
            let place = &used[(change - 1) / 2 * PLACE..][..PLACE];
            let starts = change % 2 == 1;
            let given = if starts { place[BANDWIDTH].wrapping_neg() } else { place[BANDWIDTH] };
            for &link in path(place) {
                let figure = &mut level[link as usize % ROW];
                *figure = figure.wrapping_add(given);
            }
            change = self.before[change] as usize;
        }
    }
}
