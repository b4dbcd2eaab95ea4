//! Nanoseconds for each choice on the fullest tables, 129 events and 64 links, by the proved library and by plain Rust of
//! the same work, in one run; and beside plain Rust with another search. The tables are made before the clock starts, and both read the same ones.

mod plain;

use std::hint::black_box;

use choice_tests::{Asked, ChoiceRecord, LinkEnds, Question, Tables, EVENTS, LINKS};
use timing::compare;

/// Minutes between two events.
const STEP: u32 = 10;
type Plain = fn(&LinkEnds, &Tables, &Question) -> ChoiceRecord;

const PLENTY: u32 = 1_000_000;

/// Two links from each of the 32 nodes to the next: the way from 0 to 31 has 31 links, and the search is the longest.
fn line() -> LinkEnds {
    ends(|link| (link % 32, (link + 1) % 32))
}

/// A link from node 0 to each other node and one back, and two more: no path has more than 2 links.
fn star() -> LinkEnds {
    ends(|link| match link {
        62 | 63 => (0, 1),
        _ if link % 2 == 0 => (0, link / 2 + 1),
        _ => (link / 2 + 1, 0),
    })
}

fn ends(link: impl Fn(u32) -> (u32, u32)) -> LinkEnds {
    let mut ends = LinkEnds { count: LINKS, from: [0; LINKS], to: [0; LINKS] };
    for place in 0..LINKS {
        (ends.from[place], ends.to[place]) = link(place as u32);
    }
    ends
}

/// 129 events, and in each row the figure that `figure` gives each link.
fn tables(figure: impl Fn(usize, usize) -> u32) -> Tables {
    let events = (0..EVENTS as u32).map(|row| row * STEP).collect();
    let free = (0..EVENTS * LINKS).map(|place| figure(place / LINKS, place % LINKS)).collect();
    Tables { events, free }
}

/// A question with an open latest start.
fn ask(source: u32, destination: u32, duration: u32) -> Question {
    Question { source, destination, bandwidth: 7, duration, low: 1, latest: 1_000_000_000 }
}

fn run(what: &str, choices: u32, ends: &LinkEnds, tables: &Tables, q: Question) {
    let asked = Asked::new(ends, tables, q);
    let again = |choose: &dyn Fn()| (0..choices).for_each(|_| choose());
    for (how, plain) in [("", plain::in_rounds as Plain), (", beside a search with a queue", plain::with_queue)] {
        assert_eq!(asked.choose_start(), plain(ends, tables, &q), "{what}");
        let ours = || {
            black_box(black_box(&asked).choose_start());
        };
        let plain = || {
            black_box(plain(black_box(ends), black_box(tables), black_box(&q)));
        };
        compare(&format!("{what}{how}"), choices, || again(&ours), || again(&plain));
    }
}

fn main() {
    let all_rows = EVENTS as u32 * STEP;
    let all_free = tables(|_, _| PLENTY);
    run("best case, start at low, a path of one link, one row", 500, &star(), &all_free, ask(0, 31, 1));
    run("start at low, a path of one link, all rows", 100, &star(), &all_free, ask(0, 31, all_rows));
    run("start at low, a path of 31 links, all rows", 100, &line(), &all_free, ask(0, 31, all_rows));
    // the one link to node 31 lacks the bandwidth everywhere
    let last_closed = tables(|_, link| if link == 60 { 6 } else { PLENTY });
    run("no start, short searches, one row", 10, &star(), &last_closed, ask(0, 31, 1));
    run("no start, short searches, all rows", 2, &star(), &last_closed, ask(0, 31, all_rows));
    // each other link lacks it from an event of its own on, and that one from the hundredth: 64 searches for where it breaks off
    let fewer = tables(|row, link| if row > if link == 60 { 100 } else { link } { 6 } else { PLENTY });
    let at_once = Question { latest: 1, ..ask(0, 31, all_rows) };
    run("no start in a window of one minute, a link less at each event", 10, &star(), &fewer, at_once);
    // the two links out of node 0 lack it everywhere: each search goes on to node 1
    let first_closed = tables(|_, link| if link % 32 == 0 { 6 } else { PLENTY });
    run("worst case, no start, long searches, all rows", 2, &line(), &first_closed, ask(0, 31, all_rows));
}
