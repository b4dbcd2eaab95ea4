//! The desks that are timed, each with what is asked of it.

use desk_tests::plain::{Booking, Call, Desk};
use desk_tests::sessions::chain;
use desk_tests::{Link, Request};
use desk_tests::{BOOKINGS, EVENTS, LINKS, LIST_FIGURES, MAX_CAPACITY, MAX_MINUTE, PATH_LINKS};

/// A call that is timed on a desk.
pub struct Work {
    pub what: String,
    pub desk: Desk,
    pub call: Call,
}

impl Work {
    fn new(what: &str, desk: &Desk, call: Call) -> Work {
        Work { what: what.to_string(), desk: desk.clone(), call }
    }
}

/// The calls on the fullest desk; the clock moves past all starts.
pub fn fullest() -> Vec<Work> {
    let desk = chain(LINKS as u32, BOOKINGS as u32);
    let request = behind_all(&desk);
    calls(&desk, request, Request { from: request.to, to: request.from, ..request }, 500)
}

/// A day on a ring of eight nodes with links both ways: 24 bookings of one to four hours, and two hours asked for; the clock moves
/// to noon.
pub fn typical_day() -> Vec<Work> {
    let ring = |node: u32| {
        let (from, to, capacity) = (node, (node + 1) % 8, 1_000);
        [Link { from, to, capacity }, Link { from: to, to: from, capacity }]
    };
    let links: Vec<Link> = (0..8).flat_map(ring).collect();
    let mut desk = Desk::set_up(&links, 0).expect("valid links");
    for number in 1..=24 {
        let (from, to) = (number % 8, (number + 1 + number % 3) % 8);
        let (bandwidth, duration, earliest) = (300 + 100 * (number % 5), 60 * (1 + number % 4), number * 7 % 24 * 60);
        let booking = Request { from, to, bandwidth, duration, earliest, latest: MAX_MINUTE };
        desk.book(number, &booking).expect("a later start");
    }
    let day = Request { from: 0, to: 3, bandwidth: 600, duration: 120, earliest: 0, latest: 1_440 };
    let at_low = Request { earliest: 540, ..day };
    let no_start = Request { earliest: 60, latest: 290, ..day };
    let mut all = calls(&desk, at_low, no_start, 720);
    all.push(Work::new("list", &desk, listing(day)));
    all
}

/// Some of the calls on desks with more and more bookings and links.
pub fn growth() -> Vec<Work> {
    let sizes = [(64, 1), (64, 8), (64, 64), (8, 64), (1, 64)];
    let named = |(links, bookings)| {
        let desk = chain(links, bookings);
        let grown = some_calls(&desk, behind_all(&desk), 500);
        grown.map(|work| Work { what: format!("{}: links {links}, bookings {bookings}", work.what), ..work })
    };
    sizes.into_iter().flat_map(named).collect()
}

/// The calls but for the listing, with a request that starts at low, one that has no start, and a later minute. The last booking
/// is cancelled.
fn calls(desk: &Desk, at_low: Request, no_start: Request, later: u32) -> Vec<Work> {
    let (links, guard) = (desk.links.clone(), desk.guard);
    let others = [
        Work::new("offer, no start", desk, Call::Offer(no_start)),
        Work::new("sold work", desk, Call::Sold { link: 0 }),
        Work::new("cancel", desk, Call::Cancel(last(desk))),
        Work::new("move the clock", desk, Call::MoveClock(later)),
        Work::new("set up", desk, Call::SetUp { links, guard }),
    ];
    some_calls(desk, at_low, later).into_iter().chain(others).collect()
}

/// A showing, an offer, and a booking in place of the last one.
fn some_calls(desk: &Desk, at_low: Request, later: u32) -> [Work; 3] {
    let mut room = desk.clone();
    room.cancel(last(desk)).expect("it stands");
    [
        Work::new("show", desk, Call::Show { link: 0, minute: later }),
        Work::new("offer at low", desk, Call::Offer(at_low)),
        Work::new("book", &room, Call::Book(last(desk), at_low)),
    ]
}

fn last(desk: &Desk) -> u32 {
    desk.bookings.iter().map(|booking| booking.number).max().expect("bookings")
}

/// A request over all of a chain, from its last start on.
fn behind_all(desk: &Desk) -> Request {
    let to = desk.links.iter().map(|link| link.to).max().expect("links");
    let earliest = desk.bookings.len() as u32;
    Request { from: 0, to, bandwidth: 10_000, duration: 999, earliest, latest: MAX_MINUTE }
}

/// The listing that costs most: a line of 32 nodes, 63 bookings of all its 31 hops and one of the first, and 129 events. The
/// request lasts so long that each event but the last is tried twice, in a span that ends with it, with all rows before it,
/// and in one that begins with it, with all rows behind it. The former have a path of 31 links; the latter meet the last
/// booking, which takes the first link. The 33 spare links lead back from the last node, and the line is listed behind them
/// from its end: of the nets that were tried the slowest to search. A desk that searches only where other links last than
/// before does so with `in_turn`, as each spare link is taken by a booking of its own, in place of one of the line.
fn longest_listing(in_turn: bool) -> (Desk, Request) {
    let last = PATH_LINKS as u32;
    let (spares, others) = (LINKS as u32 - last, BOOKINGS as u32 - 1);
    let (bandwidth, duration) = (1_000, 1_000);
    let spare = |link: u32| Link { from: last, to: link % last, capacity: bandwidth };
    let hop = |from: u32| Link { from, to: from + 1, capacity: MAX_CAPACITY };
    let links: Vec<Link> = (0..spares).map(spare).chain((0..last).rev().map(hop)).collect();
    let line: Vec<u32> = (spares..LINKS as u32).rev().collect();
    let mut desk = Desk::set_up(&links, 0).expect("valid links");
    for number in 1..=others {
        let path = if in_turn && number <= spares { vec![number - 1] } else { line.clone() };
        desk.bookings.push(Booking { number, start: duration + number, duration: others, bandwidth, path });
    }
    let first = Booking {
        number: others + 1,
        start: duration + 2 * others + 1,
        duration: 1,
        bandwidth: MAX_CAPACITY,
        path: line[..1].to_vec(),
    };
    desk.bookings.push(first);
    assert_eq!(desk.events().len(), EVENTS);
    (desk, Request { from: 0, to: last, bandwidth, duration, earliest: 0, latest: MAX_MINUTE })
}

/// An offer whose one start breaks off after 35 searches: on the line of the longest listing each of the 33 spare links lacks the
/// bandwidth from a minute of its own on, and then the first link of the line.
fn late_break_off() -> (Desk, Request) {
    let (mut desk, request) = longest_listing(true);
    let spares = LINKS as u32 - PATH_LINKS as u32;
    desk.bookings.retain(|booking| booking.number <= spares || booking.number == BOOKINGS as u32);
    desk.bookings.iter_mut().for_each(|booking| booking.duration = request.duration);
    let (low, duration) = (request.duration, 2 * request.duration);
    (desk, Request { earliest: low, latest: low, duration, ..request })
}

/// What takes long on a line: the longest listing, and the offer that breaks off late.
pub fn long_line() -> Vec<Work> {
    let (longest, of_longest) = longest_listing(false);
    let (in_turn, of_in_turn) = longest_listing(true);
    let (broken, of_broken) = late_break_off();
    vec![
        Work::new("list, the longest", &longest, listing(of_longest)),
        Work::new("list, links in turn", &in_turn, listing(of_in_turn)),
        Work::new("offer, no start, a link less at each event", &broken, Call::Offer(of_broken)),
    ]
}

fn listing(request: Request) -> Call {
    Call::List(LIST_FIGURES, request)
}
