//! Histories worked out by hand from document 01: its session, its examples and the faults that it names; listings by
//! document 02's Job 1; offers after cancellations by its Job 4; guards by its Job 5; where paths break off by its Job 6; and
//! sold work by its Job 7.

use crate::plain::{Answer, Call, Range, Start};
use crate::{Link, Request, BOOKINGS, LINKS, LIST_FIGURES, MAX_BANDWIDTH, MAX_DURATION, MAX_GUARD, MAX_MINUTE};

pub struct Case {
    pub name: &'static str,
    pub links: Vec<Link>,
    pub guard: u32,
    pub steps: Vec<(Call, Answer)>,
}

/// Links 0 to 1, 1 to 2 and 0 to 2 of document 01's session.
fn triangle() -> Vec<Link> {
    links(&[(0, 1, 10), (1, 2, 10), (0, 2, 4)])
}

fn links(list: &[(u32, u32, u32)]) -> Vec<Link> {
    list.iter().map(|&(from, to, capacity)| Link { from, to, capacity }).collect()
}

/// A request from node 0 to node `to`.
fn request(to: u32, bandwidth: u32, duration: u32, earliest: u32, latest: u32) -> Request {
    Request { from: 0, to, bandwidth, duration, earliest, latest }
}

fn booked(number: u32, request: Request, minute: u32, path: &[u32]) -> (Call, Answer) {
    (Call::Book(number, request), Answer::Booked(Start { minute, path: path.to_vec() }))
}

fn offered(request: Request, minute: u32, path: &[u32]) -> (Call, Answer) {
    (Call::Offer(request), Answer::Offered(Start { minute, path: path.to_vec() }))
}

/// A listing with its ranges, each as first and last.
fn listed(request: Request, ranges: &[(u32, u32)]) -> (Call, Answer) {
    let ranges = ranges.iter().map(|&(first, last)| Range { first, last }).collect();
    (Call::List(LIST_FIGURES, request), Answer::Listed(ranges))
}

fn cancelled(number: u32) -> (Call, Answer) {
    (Call::Cancel(number), Answer::Cancelled)
}

fn clock(minute: u32) -> (Call, Answer) {
    (Call::MoveClock(minute), Answer::Moved)
}

fn shown(link: u32, minute: u32, free: u32) -> (Call, Answer) {
    (Call::Show { link, minute }, Answer::Shown(free))
}

/// Every link is asked for its sold work, and is refused the one behind them.
fn all_sold(works: &[u64]) -> Vec<(Call, Answer)> {
    let behind = refused(Call::Sold { link: works.len() as u32 }, 4);
    (0..).zip(works).map(|(link, &work)| (Call::Sold { link }, Answer::Sold(work))).chain([behind]).collect()
}

/// Each step, and then the sold work of every link.
fn selling<const N: usize>(steps: Vec<((Call, Answer), [u64; N])>) -> Vec<(Call, Answer)> {
    steps.into_iter().flat_map(|(step, works)| [vec![step], all_sold(&works)].concat()).collect()
}

fn refused(call: Call, refusal: u32) -> (Call, Answer) {
    (call, Answer::refused(refusal))
}

/// Refusal 8, with the minute at which every path breaks off.
fn no_start(call: Call, at: u32) -> (Call, Answer) {
    (call, Answer::no_start(at))
}

fn set_up(links: Vec<Link>, guard: u32) -> (Call, Answer) {
    (Call::SetUp { links, guard }, Answer::SetUp)
}

fn no_set_up(links: Vec<Link>, guard: u32, refusal: u32) -> (Call, Answer) {
    refused(Call::SetUp { links, guard }, refusal)
}

/// A desk without a guard.
fn case(name: &'static str, links: Vec<Link>, steps: Vec<(Call, Answer)>) -> Case {
    Case { name, links, guard: 0, steps }
}

fn guarded(name: &'static str, guard: u32, links: Vec<Link>, steps: Vec<(Call, Answer)>) -> Case {
    Case { name, links, guard, steps }
}

/// Document 01's session is the first.
pub fn cases() -> Vec<Case> {
    [desk_cases(), listing_cases(), guard_cases(), break_off_cases(), sold_cases()].into_iter().flatten().collect()
}

fn desk_cases() -> Vec<Case> {
    vec![
        case("document 01's session", triangle(), session()),
        case("the free figure is accepted, one more is refused 8", links(&[(0, 1, 9)]), free_figure()),
        case("the largest free figure below the largest bandwidth", links(&[(0, 1, 999_999)]), largest_figure()),
        case("a window before the clock is refused 5, one that ends at the clock is tried", triangle(), window()),
        case("a standing number on a full book is refused 6, before 7", links(&[(0, 1, 1_000)]), full_book()),
        case("source equal to destination is refused 4", triangle(), equal_ends()),
        case("a duration of 525,600 is tried, 525,601 is refused 4", triangle(), durations()),
        case("fault 1: taking bandwidth in the row that begins at the end", links(&[(0, 1, 10)]), row_at_the_end()),
        case("fault 2: an event for the end only", links(&[(0, 1, 10)]), start_inside_a_row()),
        case("fault 3: removing an event that another booking needs", links(&[(0, 1, 10)]), shared_event()),
        case("fault 4: forgetting low", links(&[(0, 1, 10)]), low_inside_a_row()),
        case("fault 5: links that are each free at some time", links(&[(0, 1, 10), (1, 2, 10)]), free_throughout()),
        case("fewest links, then the lower link numbers", parallel_links(), best_of_many()),
        case("the order of a request's checks", links(&[(0, 1, 5)]), order_of_checks()),
        case("the last minutes", links(&[(0, 1, 5)]), last_minutes()),
        case("what cancelling, clock and showing refuse", triangle(), small_refusals()),
        case("an ended booking's number and room are used again", links(&[(0, 1, 5)]), used_again()),
    ]
}

fn listing_cases() -> Vec<Case> {
    vec![
        case("every start in document 01's session", triangle(), listed_session()),
        case("what a listing refuses", triangle(), listing_refusals()),
        case("one range over two paths in turn", links(&[(0, 1, 10), (0, 1, 10)]), paths_in_turn()),
        case("a gap where no path lasts", links(&[(0, 1, 10), (0, 1, 10)]), paths_too_short()),
        case("the most ranges there are", links(&[(0, 1, 10)]), most_ranges()),
        case("listings to the last minute", links(&[(0, 1, 5)]), listed_last_minutes()),
        case("an offer after cancellations: the same, earlier, by fewer links", triangle(), cancelled_between()),
    ]
}

fn guard_cases() -> Vec<Case> {
    vec![
        guarded(
            "sold full for minutes 0 to 9 under guard 2, the next starts at 12",
            2,
            links(&[(0, 1, 10)]),
            sold_full(),
        ),
        guarded("a guard before a later booking", 3, links(&[(0, 1, 10)]), guard_before_a_booking()),
        guarded("a gap of five minutes under guard 2", 2, links(&[(0, 1, 10)]), guarded_gap()),
        guarded("document 01's session under guard 2", 2, triangle(), guarded_session()),
        guarded("a booking stands until its guard ends", 4, links(&[(0, 1, 5)]), stands_in_its_guard()),
        guarded("a full book of guards", MAX_GUARD, links(&[(0, 1, 1_000)]), full_of_guards()),
        guarded("a guarded end that another booking needs", 2, links(&[(0, 1, 10)]), shared_guarded_end()),
        guarded("durations under the longest guard", MAX_GUARD, triangle(), guarded_durations()),
        guarded("the last minutes under the longest guard", MAX_GUARD, links(&[(0, 1, 5)]), guarded_last_minutes()),
        guarded("the most ranges under guard 1", 1, links(&[(0, 1, 10)]), most_guarded_ranges()),
        guarded("what set-up refuses for a guard, and the guard that it sets", 0, triangle(), set_up_guards()),
    ]
}

fn break_off_cases() -> Vec<Case> {
    let one = || links(&[(0, 1, 10)]);
    vec![
        case("a break-off at the first minute that is missing, of low's span alone", one(), broken_twice()),
        case("a break-off at one minute more than is free", one(), broken_by_one_more()),
        case("a break-off from the clock on", one(), broken_from_the_clock()),
        case("a break-off where another link is free, in turn", links(&[(0, 1, 10), (0, 1, 10)]), broken_in_turn()),
        case("a break-off of the link that lasts longest", links(&[(0, 1, 10); 3]), broken_one_by_one()),
        case("a break-off of the longer path, which lasts longer", triangle(), broken_detour()),
        case("a break-off at low where no chain leads", triangle(), broken_without_a_chain()),
        guarded("a break-off in the guard's minutes", 2, one(), broken_in_the_guard()),
        guarded("the last break-offs under the longest guard", MAX_GUARD, one(), broken_last_minutes()),
    ]
}

fn sold_cases() -> Vec<Case> {
    let full = || links(&[(0, 1, MAX_BANDWIDTH)]);
    vec![
        case("sold work in document 01's session", triangle(), sold_session()),
        guarded("sold work without the guard", 3, triangle(), sold_without_the_guard()),
        guarded("sold work until the guard has ended", 3, triangle(), sold_until_the_guard_ends()),
        guarded("sold work without what is cancelled", 3, triangle(), sold_without_the_cancelled()),
        case("the largest sum of sold work", full(), largest_sum(0)),
        guarded("the largest sum of sold work under the longest guard", MAX_GUARD, full(), largest_sum(MAX_GUARD)),
        case("sold work of 64 links", links(&[(0, 1, 1_000); LINKS]), sold_on_all_links()),
        guarded("sold work before and after set-ups", 2, triangle(), sold_between_set_ups()),
    ]
}

fn session() -> Vec<(Call, Answer)> {
    let third = request(2, 5, 4, 2, 4);
    vec![
        booked(7, request(2, 4, 10, 0, MAX_MINUTE), 0, &[2]),
        booked(9, request(2, 6, 5, 0, MAX_MINUTE), 0, &[0, 1]),
        no_start(Call::Book(3, third), 2),
        booked(3, Request { latest: 5, ..third }, 5, &[0, 1]),
        cancelled(9),
        offered(request(2, 4, 3, 0, 0), 0, &[0, 1]),
        clock(10),
        refused(Call::Cancel(7), 9),
    ]
}

fn free_figure() -> Vec<(Call, Answer)> {
    vec![
        booked(1, request(1, 4, 10, 0, 0), 0, &[0]),
        no_start(Call::Book(2, request(1, 6, 10, 0, 0)), 0),
        booked(2, request(1, 5, 10, 0, 0), 0, &[0]),
        no_start(Call::Book(3, request(1, 1, 1, 9, 9)), 9),
        booked(3, request(1, 9, 1, 10, 10), 10, &[0]),
    ]
}

fn largest_figure() -> Vec<(Call, Answer)> {
    vec![
        no_start(Call::Book(1, request(1, MAX_BANDWIDTH, 1, 0, 0)), 0),
        booked(1, request(1, 999_999, 1, 0, 0), 0, &[0]),
        no_start(Call::Offer(request(1, 1, 1, 0, 0)), 0),
    ]
}

fn window() -> Vec<(Call, Answer)> {
    vec![
        clock(5),
        refused(Call::Book(1, request(2, 4, 1, 0, 4)), 5),
        refused(Call::Offer(request(2, 4, 1, 0, 4)), 5),
        offered(request(2, 4, 1, 0, 5), 5, &[2]),
        booked(1, request(2, 4, 1, 0, 5), 5, &[2]),
    ]
}

/// 64 bookings stand; a repeated number is refused 6, another one 7, and after a cancellation another one is accepted.
fn full_book() -> Vec<(Call, Answer)> {
    let one = request(1, 1, 10, 0, 0);
    let mut steps: Vec<_> = (1..=64).map(|number| booked(number, one, 0, &[0])).collect();
    steps.extend([
        refused(Call::Book(64, one), 6),
        refused(Call::Book(65, one), 7),
        refused(Call::Book(65, request(1, 1_001, 10, 0, 0)), 7),
        offered(request(1, 936, 10, 0, 0), 0, &[0]),
        no_start(Call::Offer(request(1, 937, 10, 0, 0)), 0),
        cancelled(30),
        booked(65, one, 0, &[0]),
        refused(Call::Book(30, one), 7),
    ]);
    steps
}

fn equal_ends() -> Vec<(Call, Answer)> {
    let same = Request { from: 1, ..request(1, 1, 1, 0, 0) };
    vec![refused(Call::Book(1, same), 4), refused(Call::Offer(same), 4)]
}

fn durations() -> Vec<(Call, Answer)> {
    vec![
        refused(Call::Book(1, request(2, 4, MAX_DURATION + 1, 0, 0)), 4),
        refused(Call::Offer(request(2, 4, MAX_DURATION + 1, 0, 0)), 4),
        booked(1, request(2, 4, MAX_DURATION, 0, 0), 0, &[2]),
        booked(2, request(2, 10, MAX_DURATION, 0, MAX_MINUTE), 0, &[0, 1]),
        booked(3, request(2, 1, 1, 0, MAX_MINUTE), MAX_DURATION, &[2]),
        no_start(Call::Offer(request(2, 1, 1, 0, MAX_DURATION - 1)), 0),
    ]
}

/// Two bookings that hold the whole link, one right behind the other.
fn row_at_the_end() -> Vec<(Call, Answer)> {
    vec![
        booked(1, request(1, 10, 5, 0, 0), 0, &[0]),
        shown(0, 4, 0),
        shown(0, 5, 10),
        booked(2, request(1, 10, 5, 5, 5), 5, &[0]),
        shown(0, 9, 0),
        shown(0, 10, 10),
    ]
}

/// A booking of minutes 3 and 4 leaves minutes 0 to 2 free.
fn start_inside_a_row() -> Vec<(Call, Answer)> {
    vec![
        booked(1, request(1, 6, 2, 3, 3), 3, &[0]),
        shown(0, 0, 10),
        shown(0, 2, 10),
        shown(0, 3, 4),
        shown(0, 4, 4),
        shown(0, 5, 10),
        booked(2, request(1, 10, 3, 0, 0), 0, &[0]),
    ]
}

/// Minute 5 is the end of booking 1 and the start of booking 2, and stays an event after 1 is cancelled. So it does, as
/// the start of 4, when 2 goes.
fn shared_event() -> Vec<(Call, Answer)> {
    vec![
        booked(1, request(1, 3, 5, 0, 0), 0, &[0]),
        booked(2, request(1, 4, 5, 5, 5), 5, &[0]),
        cancelled(1),
        shown(0, 4, 10),
        shown(0, 5, 6),
        booked(4, request(1, 1, 3, 5, 5), 5, &[0]),
        cancelled(2),
        shown(0, 4, 10),
        shown(0, 5, 9),
        shown(0, 8, 10),
    ]
}

/// The only free minutes are 2 to 9: low is no event, and the next event is too late.
fn low_inside_a_row() -> Vec<(Call, Answer)> {
    vec![
        booked(1, request(1, 10, 2, 0, 0), 0, &[0]),
        booked(2, request(1, 10, 5, 10, 10), 10, &[0]),
        offered(request(1, 10, 6, 4, 9), 4, &[0]),
        no_start(Call::Offer(request(1, 10, 6, 5, 14)), 10),
        offered(request(1, 10, 6, 5, 15), 15, &[0]),
        offered(request(1, 10, 8, 0, MAX_MINUTE), 2, &[0]),
    ]
}

/// Link 0 is taken in minutes 0 to 4, link 1 in minutes 7 to 9: each is free in some minutes of a span of 5, but until
/// minute 10 never both throughout.
fn free_throughout() -> Vec<(Call, Answer)> {
    let second = Request { from: 1, ..request(2, 10, 3, 7, 7) };
    vec![
        booked(1, request(1, 10, 5, 0, 0), 0, &[0]),
        booked(2, second, 7, &[1]),
        offered(request(2, 1, 2, 0, MAX_MINUTE), 5, &[0, 1]),
        offered(request(2, 1, 5, 0, MAX_MINUTE), 10, &[0, 1]),
        no_start(Call::Offer(request(2, 1, 5, 0, 9)), 0),
    ]
}

/// From 0 to 3: over 1 or over 2, each hop with two links; link 6 goes all the way with little capacity.
fn parallel_links() -> Vec<Link> {
    links(&[(2, 3, 10), (1, 3, 10), (0, 2, 10), (0, 1, 10), (0, 1, 20), (1, 3, 20), (0, 3, 2)])
}

fn best_of_many() -> Vec<(Call, Answer)> {
    vec![
        offered(request(3, 2, 1, 0, 0), 0, &[6]),
        // Of the paths with two links the one that begins with the lowest number.
        booked(1, request(3, 10, 10, 0, 0), 0, &[2, 0]),
        booked(2, request(3, 10, 10, 0, 0), 0, &[3, 1]),
        booked(3, request(3, 15, 10, 0, 0), 0, &[4, 5]),
        // Link 6 is full in minutes 0 to 4; an earlier start comes before fewer links.
        booked(4, request(3, 2, 5, 0, 0), 0, &[6]),
        offered(request(3, 5, 1, 0, MAX_MINUTE), 0, &[4, 5]),
        offered(request(3, 2, 1, 0, MAX_MINUTE), 0, &[4, 5]),
        offered(request(3, 2, 1, 5, MAX_MINUTE), 5, &[6]),
    ]
}

/// Each request has two reasons to be refused, and the first one counts.
fn order_of_checks() -> Vec<(Call, Answer)> {
    let good = request(1, 5, 10, 0, 10);
    vec![
        booked(1, good, 0, &[0]),
        clock(2),
        refused(Call::Book(0, Request { latest: 1, ..good }), 4),
        refused(Call::Book(1, Request { latest: 1, ..good }), 5),
        refused(Call::Book(1, Request { latest: 2, ..good }), 6),
        no_start(Call::Book(2, Request { latest: 2, ..good }), 2),
        refused(Call::Offer(Request { from: 32, latest: 1, ..good }), 4),
        refused(Call::Offer(Request { latest: MAX_MINUTE + 1, ..good }), 4),
        refused(Call::Offer(Request { earliest: MAX_MINUTE + 1, ..good }), 4),
        refused(Call::Offer(Request { bandwidth: 0, ..good }), 4),
        refused(Call::Offer(Request { bandwidth: MAX_BANDWIDTH + 1, ..good }), 4),
        refused(Call::Offer(Request { duration: 0, ..good }), 4),
        refused(Call::Book(16_384, good), 4),
        booked(16_383, good, 10, &[0]),
    ]
}

fn last_minutes() -> Vec<(Call, Answer)> {
    let last = request(1, 5, MAX_DURATION, MAX_MINUTE, MAX_MINUTE);
    vec![
        booked(1, last, MAX_MINUTE, &[0]),
        clock(MAX_MINUTE),
        no_start(Call::Offer(Request { bandwidth: 1, duration: 1, ..last }), MAX_MINUTE),
        refused(Call::MoveClock(MAX_MINUTE + 1), 4),
        shown(0, MAX_MINUTE + MAX_DURATION - 1, 0),
        shown(0, MAX_MINUTE + MAX_DURATION, 5),
        shown(0, 1_000_525_615, 5),
        refused(Call::Show { link: 0, minute: 1_000_525_616 }, 4),
        cancelled(1),
        offered(Request { earliest: 0, ..last }, MAX_MINUTE, &[0]),
    ]
}

fn small_refusals() -> Vec<(Call, Answer)> {
    vec![
        refused(Call::Cancel(0), 4),
        refused(Call::Cancel(16_384), 4),
        refused(Call::Cancel(16_383), 9),
        clock(3),
        clock(3),
        refused(Call::MoveClock(2), 10),
        refused(Call::MoveClock(MAX_MINUTE + 1), 4),
        refused(Call::Show { link: 3, minute: 3 }, 4),
        refused(Call::Show { link: 0, minute: 2 }, 4),
        shown(2, 3, 4),
        no_set_up(Vec::new(), 0, 1),
        no_set_up(vec![Link { from: 0, to: 1, capacity: 1 }; 65], 0, 1),
        no_set_up(vec![Link { from: 0, to: 32, capacity: 1 }; 65], 0, 1),
        no_set_up(links(&[(0, 1, 1), (0, 32, 1)]), 0, 2),
        no_set_up(links(&[(1, 1, 1)]), 0, 2),
        no_set_up(links(&[(0, 1, 0)]), 0, 2),
        no_set_up(links(&[(0, 1, 1_000_001)]), 0, 2),
        shown(2, 3, 4),
        set_up(links(&[(0, 1, 7)]), 0),
        shown(0, 0, 7),
    ]
}

/// A booking of minutes 0 to 4 stands until the clock is 5.
fn used_again() -> Vec<(Call, Answer)> {
    let whole = request(1, 5, 5, 0, MAX_MINUTE);
    vec![
        booked(1, whole, 0, &[0]),
        clock(4),
        refused(Call::Book(1, whole), 6),
        shown(0, 4, 0),
        clock(5),
        booked(1, whole, 5, &[0]),
        clock(7),
        cancelled(1),
        shown(0, 7, 5),
        booked(1, whole, 7, &[0]),
    ]
}

/// The session, with what can be started before and after each of its orders.
fn listed_session() -> Vec<(Call, Answer)> {
    let third = request(2, 5, 4, 2, 4);
    let open = |bandwidth, duration| request(2, bandwidth, duration, 0, MAX_MINUTE);
    vec![
        // Nothing is booked: 10 Mb/s over links 0 and 1 at all times, 11 never.
        listed(open(10, 10), &[(0, MAX_MINUTE)]),
        listed(open(11, 10), &[]),
        booked(7, request(2, 4, 10, 0, MAX_MINUTE), 0, &[2]),
        booked(9, request(2, 6, 5, 0, MAX_MINUTE), 0, &[0, 1]),
        // Links 0 and 1 have 4 Mb/s left in minutes 0 to 4 and 10 from 5 on, link 2 none in 0 to 9 and then 4.
        listed(third, &[]),
        listed(Request { latest: 5, ..third }, &[(5, 5)]),
        listed(open(5, 4), &[(5, MAX_MINUTE)]),
        listed(open(4, 10), &[(0, MAX_MINUTE)]),
        no_start(Call::Book(3, third), 2),
        booked(3, Request { latest: 5, ..third }, 5, &[0, 1]),
        // Links 0 and 1 have 5 left in 5 to 8.
        listed(open(5, 4), &[(5, MAX_MINUTE)]),
        listed(open(6, 4), &[(9, MAX_MINUTE)]),
        cancelled(9),
        // Links 0 and 1 have 10 in 0 to 4, 5 in 5 to 8, and 10 from 9 on. A span of 2 minutes that starts in 4 meets 5.
        listed(open(6, 1), &[(0, 4), (9, MAX_MINUTE)]),
        listed(open(6, 2), &[(0, 3), (9, MAX_MINUTE)]),
        listed(open(6, 5), &[(0, 0), (9, MAX_MINUTE)]),
        listed(open(6, 6), &[(9, MAX_MINUTE)]),
        listed(request(2, 6, 2, 2, 9), &[(2, 3), (9, 9)]),
        listed(request(2, 6, 2, 4, 8), &[]),
        listed(request(2, 4, 3, 0, 0), &[(0, 0)]),
        offered(request(2, 4, 3, 0, 0), 0, &[0, 1]),
        clock(10),
        // Nothing stands any more, and the window begins at the clock.
        listed(request(2, 6, 2, 2, 10), &[(10, 10)]),
        listed(open(10, 10), &[(10, MAX_MINUTE)]),
        refused(Call::List(LIST_FIGURES, request(2, 6, 2, 2, 9)), 5),
        refused(Call::Cancel(7), 9),
    ]
}

/// The list's length comes first, then what an offer refuses through 5; 8 is never said.
fn listing_refusals() -> Vec<(Call, Answer)> {
    let good = request(2, 4, 10, 0, 20);
    let of = |figures, request| Call::List(figures, request);
    let bad_field = Request { bandwidth: 0, earliest: 9, latest: 8, ..good };
    let empty = Request { earliest: 9, latest: 8, ..good };
    let mut steps: Vec<_> = [0, 1, 129, 257, 259, 516].map(|figures| refused(of(figures, good), 13)).to_vec();
    steps.extend([
        refused(of(257, bad_field), 13),
        refused(of(257, empty), 13),
        refused(of(258, bad_field), 4),
        refused(of(258, empty), 5),
        refused(of(258, Request { to: 0, ..good }), 4),
        refused(of(258, Request { duration: MAX_DURATION + 1, ..good }), 4),
        refused(of(258, Request { latest: MAX_MINUTE + 1, ..good }), 4),
        no_start(Call::Offer(Request { bandwidth: 11, ..good }), 0),
        listed(Request { bandwidth: 11, ..good }, &[]),
        listed(good, &[(0, 20)]),
    ]);
    steps
}

/// Link 0 is free in minutes 0 to 4 and link 1 in 5 to 9: a span of one minute always has one of them, and the ranges 0 to 4
/// and 5 to 9 touch. A span of two has none at 4. Then both are free from 10 on.
fn paths_in_turn() -> Vec<(Call, Answer)> {
    vec![
        booked(1, request(1, 10, 5, 5, 5), 5, &[0]),
        booked(2, request(1, 10, 5, 0, 0), 0, &[0]),
        booked(3, request(1, 10, 5, 0, 0), 0, &[1]),
        cancelled(2),
        listed(request(1, 10, 1, 0, 30), &[(0, 30)]),
        listed(request(1, 10, 2, 0, 30), &[(0, 3), (5, 30)]),
        listed(request(1, 10, 5, 0, 30), &[(0, 0), (5, 30)]),
        listed(request(1, 10, 6, 0, 30), &[(5, 30)]),
    ]
}

/// Link 0 is free in minutes 0 to 4 and link 1 from 7 on: no link in 5 and 6. A span of 3 fits at 0 to 2 and from 7 on; at
/// 3 it would have link 0 for two minutes only.
fn paths_too_short() -> Vec<(Call, Answer)> {
    vec![
        booked(1, request(1, 10, 5, 5, 5), 5, &[0]),
        booked(2, request(1, 10, 5, 0, 0), 0, &[0]),
        booked(3, request(1, 10, 7, 0, 0), 0, &[1]),
        cancelled(2),
        listed(request(1, 10, 3, 0, MAX_MINUTE), &[(0, 2), (7, MAX_MINUTE)]),
        listed(request(1, 10, 1, 3, 8), &[(3, 4), (7, 8)]),
        listed(request(1, 10, 1, 5, 6), &[]),
        listed(request(1, 10, 6, 0, MAX_MINUTE), &[(7, MAX_MINUTE)]),
    ]
}

/// 64 bookings hold the only link in every odd minute of 1 to 127, so that 65 ranges are left: 64 even minutes, and 128 to
/// the latest. There can't be more: a range that doesn't begin at low begins where a booking ends, since only then some link
/// has more than the minute before, and 64 bookings have 64 ends.
fn most_ranges() -> Vec<(Call, Answer)> {
    let numbers = 1..=BOOKINGS as u32;
    let minutes = 2 * BOOKINGS as u32;
    let book = |number: u32| booked(number, request(1, 10, 1, 2 * number - 1, 2 * number - 1), 2 * number - 1, &[0]);
    let mut steps: Vec<_> = numbers.clone().map(book).collect();
    let mut even: Vec<(u32, u32)> = numbers.map(|number| (2 * number - 2, 2 * number - 2)).collect();
    steps.push(listed(request(1, 1, 1, 0, minutes - 1), &even));
    even.push((minutes, MAX_MINUTE));
    steps.push(listed(request(1, 1, 1, 0, MAX_MINUTE), &even));
    steps.push(listed(request(1, 1, 1, 1, MAX_MINUTE), &even[1..]));
    steps.push(listed(request(1, 1, 2, 0, MAX_MINUTE), &[(minutes, MAX_MINUTE)]));
    steps.push(listed(request(1, 1, 2, 0, minutes - 1), &[]));
    steps.push(clock(7));
    steps.push(listed(request(1, 10, 1, 0, MAX_MINUTE), &even[4..]));
    steps
}

/// A booking of the last minute and a year: a start must end before it.
fn listed_last_minutes() -> Vec<(Call, Answer)> {
    let open = |duration| request(1, 1, duration, 999_400_000, MAX_MINUTE);
    vec![
        listed(open(MAX_DURATION), &[(999_400_000, MAX_MINUTE)]),
        booked(1, request(1, 5, MAX_DURATION, MAX_MINUTE, MAX_MINUTE), MAX_MINUTE, &[0]),
        listed(open(1), &[(999_400_000, 999_999_999)]),
        listed(open(2), &[(999_400_000, 999_999_998)]),
        listed(open(MAX_DURATION), &[(999_400_000, 999_474_400)]),
        listed(request(1, 1, 1, MAX_MINUTE, MAX_MINUTE), &[]),
        clock(MAX_MINUTE),
        listed(open(1), &[]),
        cancelled(1),
        listed(open(MAX_DURATION), &[(MAX_MINUTE, MAX_MINUTE)]),
    ]
}

/// The offer waits for link 2 until minute 10. Cancelling 3 changes nothing, 9 frees the links around it from minute 0 on,
/// and 7 link 2 itself.
fn cancelled_between() -> Vec<(Call, Answer)> {
    let offer = request(2, 4, 5, 0, MAX_MINUTE);
    vec![
        booked(7, request(2, 4, 10, 0, MAX_MINUTE), 0, &[2]),
        booked(9, request(2, 10, 20, 0, MAX_MINUTE), 0, &[0, 1]),
        booked(3, request(1, 1, 5, 100, 100), 100, &[0]),
        offered(offer, 10, &[2]),
        cancelled(3),
        offered(offer, 10, &[2]),
        cancelled(9),
        offered(offer, 0, &[0, 1]),
        cancelled(7),
        offered(offer, 0, &[2]),
    ]
}

/// Minutes 0 to 9, and the guard in 10 and 11. The next booking holds 12 to 16, and its guard 17 and 18.
fn sold_full() -> Vec<(Call, Answer)> {
    vec![
        booked(1, request(1, 10, 10, 0, 0), 0, &[0]),
        shown(0, 9, 0),
        shown(0, 10, 0),
        shown(0, 11, 0),
        shown(0, 12, 10),
        no_start(Call::Book(2, request(1, 1, 1, 0, 11)), 0),
        offered(request(1, 1, 1, 0, 12), 12, &[0]),
        listed(request(1, 10, 5, 0, MAX_MINUTE), &[(12, MAX_MINUTE)]),
        booked(2, request(1, 10, 5, 0, MAX_MINUTE), 12, &[0]),
        shown(0, 18, 0),
        shown(0, 19, 10),
    ]
}

/// Booking 1 holds minutes 20 to 24 and its guard of three until 27. Whatever starts before it ends with its own guard at
/// or before 20.
fn guard_before_a_booking() -> Vec<(Call, Answer)> {
    vec![
        booked(1, request(1, 10, 5, 20, 20), 20, &[0]),
        offered(request(1, 1, 17, 0, MAX_MINUTE), 0, &[0]),
        offered(request(1, 1, 18, 0, MAX_MINUTE), 28, &[0]),
        listed(request(1, 1, 5, 0, 40), &[(0, 12), (28, 40)]),
        no_start(Call::Offer(request(1, 1, 5, 13, 27)), 20),
        booked(2, request(1, 4, 17, 0, 0), 0, &[0]),
        shown(0, 19, 6),
        shown(0, 20, 0),
    ]
}

/// Booking 1 is held to minute 6 and booking 2 from 12 on: minutes 7 to 11 are free, of which two are for a guard.
fn guarded_gap() -> Vec<(Call, Answer)> {
    let in_gap = |duration| request(1, 10, duration, 0, 18);
    vec![
        booked(1, request(1, 10, 5, 0, 0), 0, &[0]),
        booked(2, request(1, 10, 5, 12, 12), 12, &[0]),
        listed(in_gap(1), &[(7, 9)]),
        listed(in_gap(2), &[(7, 8)]),
        listed(in_gap(3), &[(7, 7)]),
        listed(in_gap(4), &[]),
        no_start(Call::Book(3, in_gap(4)), 0),
        booked(3, in_gap(3), 7, &[0]),
        listed(request(1, 1, 1, 0, MAX_MINUTE), &[(19, MAX_MINUTE)]),
    ]
}

/// Booking 9 holds links 0 and 1 to minute 6, so that booking 3 starts at 7; booking 7 stands at minute 10.
fn guarded_session() -> Vec<(Call, Answer)> {
    let third = request(2, 5, 4, 2, 5);
    vec![
        booked(7, request(2, 4, 10, 0, MAX_MINUTE), 0, &[2]),
        booked(9, request(2, 6, 5, 0, MAX_MINUTE), 0, &[0, 1]),
        no_start(Call::Book(3, third), 2),
        booked(3, Request { latest: 7, ..third }, 7, &[0, 1]),
        cancelled(9),
        offered(request(2, 4, 3, 0, 0), 0, &[0, 1]),
        offered(request(2, 6, 5, 0, 0), 0, &[0, 1]),
        // Minutes 7 to 12 have 5 Mb/s left.
        offered(request(2, 6, 6, 0, MAX_MINUTE), 13, &[0, 1]),
        clock(10),
        shown(2, 11, 0),
        shown(2, 12, 4),
        cancelled(7),
        shown(2, 11, 4),
    ]
}

/// Minutes 0 to 4, and the guard in 5 to 8: the number stands until the clock is 9. A booking that is cancelled in its guard
/// holds nothing any more.
fn stands_in_its_guard() -> Vec<(Call, Answer)> {
    let whole = request(1, 5, 5, 0, MAX_MINUTE);
    vec![
        booked(1, whole, 0, &[0]),
        clock(5),
        refused(Call::Book(1, whole), 6),
        shown(0, 5, 0),
        offered(whole, 9, &[0]),
        clock(8),
        refused(Call::Book(1, whole), 6),
        shown(0, 8, 0),
        shown(0, 9, 5),
        clock(9),
        shown(0, 9, 5),
        refused(Call::Cancel(1), 9),
        booked(1, whole, 9, &[0]),
        clock(15),
        offered(whole, 18, &[0]),
        cancelled(1),
        offered(whole, 15, &[0]),
        shown(0, 15, 5),
        booked(1, whole, 15, &[0]),
    ]
}

/// 64 bookings of minute 0 stand until minute 16.
fn full_of_guards() -> Vec<(Call, Answer)> {
    let one = request(1, 1, 1, 0, 20);
    let mut steps: Vec<_> = (1..=64).map(|number| booked(number, one, 0, &[0])).collect();
    steps.extend([
        clock(1),
        refused(Call::Book(65, one), 7),
        clock(15),
        refused(Call::Book(64, one), 6),
        refused(Call::Book(65, one), 7),
        offered(request(1, 936, 1, 0, 15), 15, &[0]),
        offered(request(1, 937, 1, 0, 20), 16, &[0]),
        cancelled(30),
        booked(65, one, 15, &[0]),
        refused(Call::Book(30, one), 7),
        clock(16),
        booked(30, one, 16, &[0]),
        booked(64, one, 16, &[0]),
        shown(0, 30, 997),
        shown(0, 31, 998),
    ]);
    steps
}

/// Minute 7 is the guarded end of booking 1 and the start of booking 2, and stays an event after 1 is cancelled. So it does,
/// as the start of 4, when 2 goes.
fn shared_guarded_end() -> Vec<(Call, Answer)> {
    vec![
        booked(1, request(1, 3, 5, 0, 0), 0, &[0]),
        booked(2, request(1, 4, 5, 7, 7), 7, &[0]),
        shown(0, 6, 7),
        cancelled(1),
        shown(0, 6, 10),
        shown(0, 7, 6),
        shown(0, 13, 6),
        shown(0, 14, 10),
        booked(4, request(1, 1, 3, 7, 7), 7, &[0]),
        cancelled(2),
        shown(0, 6, 10),
        shown(0, 7, 9),
        shown(0, 11, 9),
        shown(0, 12, 10),
    ]
}

/// The longest duration is a request's own, without the guard.
fn guarded_durations() -> Vec<(Call, Answer)> {
    vec![
        refused(Call::Book(1, request(2, 4, MAX_DURATION + 1, 0, 0)), 4),
        booked(1, request(2, 4, MAX_DURATION, 0, 0), 0, &[2]),
        booked(2, request(2, 10, MAX_DURATION, 0, MAX_MINUTE), 0, &[0, 1]),
        no_start(Call::Offer(request(2, 1, 1, 0, 525_614)), 0),
        booked(3, request(2, 1, 1, 0, MAX_MINUTE), 525_615, &[2]),
    ]
}

/// The booking ends at 1,000,525,600, and its guard fifteen minutes later.
fn guarded_last_minutes() -> Vec<(Call, Answer)> {
    let last = request(1, 5, MAX_DURATION, MAX_MINUTE, MAX_MINUTE);
    vec![
        booked(1, last, MAX_MINUTE, &[0]),
        listed(request(1, 1, 1, 999_999_900, MAX_MINUTE), &[(999_999_900, 999_999_984)]),
        clock(MAX_MINUTE),
        shown(0, 1_000_525_599, 0),
        shown(0, 1_000_525_600, 0),
        shown(0, 1_000_525_614, 0),
        shown(0, 1_000_525_615, 5),
        refused(Call::Show { link: 0, minute: 1_000_525_616 }, 4),
        no_start(Call::Offer(Request { bandwidth: 1, duration: 1, ..last }), MAX_MINUTE),
        cancelled(1),
        shown(0, 1_000_525_614, 5),
        offered(last, MAX_MINUTE, &[0]),
    ]
}

/// 64 bookings of one minute, each held for two, with two minutes between them: a minute and its guard fit into these at
/// their first.
fn most_guarded_ranges() -> Vec<(Call, Answer)> {
    let numbers = 1..=BOOKINGS as u32;
    let book = |number: u32| booked(number, request(1, 10, 1, 4 * number - 2, 4 * number - 2), 4 * number - 2, &[0]);
    let mut steps: Vec<_> = numbers.clone().map(book).collect();
    let mut firsts: Vec<(u32, u32)> = numbers.map(|number| (4 * number - 4, 4 * number - 4)).collect();
    steps.push(listed(request(1, 1, 1, 0, 255), &firsts));
    firsts.push((256, MAX_MINUTE));
    steps.push(listed(request(1, 1, 1, 0, MAX_MINUTE), &firsts));
    steps.push(listed(request(1, 1, 1, 1, MAX_MINUTE), &firsts[1..]));
    steps.push(listed(request(1, 1, 2, 0, MAX_MINUTE), &[(256, MAX_MINUTE)]));
    steps
}

/// A set-up is refused 1 before 4 and 4 before 2, and the guard stays. An accepted one brings its own.
fn set_up_guards() -> Vec<(Call, Answer)> {
    let good = || links(&[(0, 1, 7)]);
    let looped = || links(&[(1, 1, 7)]);
    vec![
        no_set_up(Vec::new(), 16, 1),
        no_set_up(vec![Link { from: 1, to: 1, capacity: 7 }; 65], 16, 1),
        no_set_up(looped(), 16, 4),
        no_set_up(looped(), u32::MAX, 4),
        no_set_up(good(), 16, 4),
        no_set_up(good(), u32::MAX, 4),
        no_set_up(looped(), 15, 2),
        booked(1, request(2, 4, 10, 0, 0), 0, &[2]),
        shown(2, 10, 4),
        set_up(good(), 15),
        booked(1, request(1, 7, 1, 0, 0), 0, &[0]),
        shown(0, 15, 0),
        shown(0, 16, 7),
        set_up(good(), 1),
        booked(1, request(1, 7, 1, 0, 0), 0, &[0]),
        shown(0, 1, 0),
        shown(0, 2, 7),
        no_set_up(good(), 16, 4),
        booked(2, request(1, 7, 3, 0, MAX_MINUTE), 2, &[0]),
        shown(0, 5, 0),
        shown(0, 6, 7),
    ]
}

/// Minutes 3 and 4 are taken, and 8 and 9.
fn broken_twice() -> Vec<(Call, Answer)> {
    vec![
        booked(1, request(1, 10, 2, 3, 3), 3, &[0]),
        booked(2, request(1, 10, 2, 8, 8), 8, &[0]),
        no_start(Call::Offer(request(1, 1, 20, 0, 2)), 3),
        no_start(Call::Offer(request(1, 1, 20, 5, 5)), 8),
        no_start(Call::Offer(request(1, 1, 20, 6, 9)), 8),
        // The last minute of the span from 5 on.
        no_start(Call::Offer(request(1, 1, 4, 5, 9)), 8),
        offered(request(1, 1, 3, 5, 9), 5, &[0]),
        // A start at 5 would last to 7, but low alone counts.
        no_start(Call::Book(3, request(1, 1, 5, 3, 7)), 3),
        no_start(Call::Book(3, request(1, 1, 5, 4, 9)), 4),
        no_start(Call::Book(3, request(1, 1, 5, 1, 9)), 3),
        // What is refused before has no minute.
        refused(Call::Book(2, request(1, 1, 20, 0, 2)), 6),
        refused(Call::Offer(request(1, 1, 20, 3, 2)), 5),
        refused(Call::Offer(request(1, 0, 20, 0, 2)), 4),
    ]
}

/// 6 Mb/s are left in minutes 6 to 10, and 7 in 12 and 13.
fn broken_by_one_more() -> Vec<(Call, Answer)> {
    vec![
        booked(1, request(1, 4, 5, 6, 6), 6, &[0]),
        booked(2, request(1, 3, 2, 12, 12), 12, &[0]),
        offered(request(1, 6, 20, 0, 0), 0, &[0]),
        no_start(Call::Offer(request(1, 7, 20, 0, 0)), 6),
        offered(request(1, 7, 20, 11, 11), 11, &[0]),
        no_start(Call::Offer(request(1, 8, 20, 11, 11)), 12),
        no_start(Call::Offer(request(1, 11, 20, 11, MAX_MINUTE)), 11),
        no_start(Call::Offer(request(1, 11, 1, 0, MAX_MINUTE)), 0),
    ]
}

/// Minutes 10 to 14 are taken.
fn broken_from_the_clock() -> Vec<(Call, Answer)> {
    vec![
        booked(1, request(1, 10, 5, 10, 10), 10, &[0]),
        clock(4),
        no_start(Call::Offer(request(1, 1, 8, 0, 6)), 10),
        clock(12),
        no_start(Call::Offer(request(1, 1, 8, 0, 13)), 12),
        no_start(Call::Book(2, request(1, 1, 8, 14, 14)), 14),
        cancelled(1),
        offered(request(1, 1, 8, 0, 13), 12, &[0]),
    ]
}

/// Link 0 is free in minutes 0 to 4 and link 1 in 5 to 9, as in `paths_in_turn`: each minute has a free link, and no link has
/// both 4 and 5.
fn broken_in_turn() -> Vec<(Call, Answer)> {
    vec![
        booked(1, request(1, 10, 5, 5, 5), 5, &[0]),
        booked(2, request(1, 10, 5, 0, 0), 0, &[0]),
        booked(3, request(1, 10, 5, 0, 0), 0, &[1]),
        cancelled(2),
        offered(request(1, 10, 5, 0, 0), 0, &[0]),
        no_start(Call::Offer(request(1, 10, 6, 0, 0)), 5),
        no_start(Call::Offer(request(1, 1, 10, 2, 4)), 5),
        no_start(Call::Offer(request(1, 1, MAX_DURATION, 4, 4)), 5),
        no_start(Call::Offer(request(1, 1, 2, 4, 4)), 5),
        offered(request(1, 10, 6, 0, 5), 5, &[1]),
    ]
}

/// Link 0 is free to minute 3, link 1 to 4 and link 2 to 6.
fn broken_one_by_one() -> Vec<(Call, Answer)> {
    let open = request(1, 1, 50, 0, 0);
    vec![
        booked(1, request(1, 10, 10, 4, 4), 4, &[0]),
        booked(2, request(1, 10, 10, 5, 5), 5, &[1]),
        booked(3, request(1, 10, 10, 7, 7), 7, &[2]),
        no_start(Call::Offer(open), 7),
        no_start(Call::Offer(Request { earliest: 5, latest: 5, ..open }), 7),
        no_start(Call::Offer(Request { earliest: 7, latest: 13, ..open }), 7),
        offered(Request { duration: 7, ..open }, 0, &[2]),
        cancelled(3),
        offered(open, 0, &[2]),
        booked(3, request(1, 10, 10, 4, 4), 4, &[2]),
        no_start(Call::Offer(open), 5),
    ]
}

/// Link 2 is free to minute 2, and links 0 and 1 to 7: the path with fewest links breaks off first.
fn broken_detour() -> Vec<(Call, Answer)> {
    let open = request(2, 4, 20, 0, 0);
    vec![
        booked(1, request(2, 4, 10, 3, 3), 3, &[2]),
        booked(2, Request { from: 1, ..request(2, 10, 2, 8, 8) }, 8, &[1]),
        offered(Request { duration: 3, ..open }, 0, &[2]),
        offered(Request { duration: 8, ..open }, 0, &[0, 1]),
        no_start(Call::Offer(Request { duration: 9, ..open }), 8),
        no_start(Call::Offer(open), 8),
        no_start(Call::Offer(Request { bandwidth: 5, ..open }), 8),
        // Link 0 has 3 Mb/s left in minute 6.
        booked(3, request(1, 7, 1, 6, 6), 6, &[0]),
        no_start(Call::Offer(open), 6),
        no_start(Call::Offer(Request { bandwidth: 3, ..open }), 8),
        no_start(Call::Offer(Request { bandwidth: 11, ..open }), 0),
    ]
}

fn broken_without_a_chain() -> Vec<(Call, Answer)> {
    let back = Request { from: 2, to: 0, bandwidth: 1, duration: 5, earliest: 0, latest: MAX_MINUTE };
    let elsewhere = Request { from: 3, to: 31, ..back };
    vec![
        no_start(Call::Offer(back), 0),
        no_start(Call::Book(1, elsewhere), 0),
        no_start(Call::Offer(Request { earliest: 7, ..back }), 7),
        no_start(Call::Offer(Request { earliest: MAX_MINUTE, duration: MAX_DURATION, ..back }), MAX_MINUTE),
        clock(9),
        no_start(Call::Offer(Request { earliest: 7, ..back }), 9),
        no_start(Call::Book(1, Request { earliest: 10, ..elsewhere }), 10),
    ]
}

/// Minutes 20 to 24 are taken, and 25 and 26 for the guard.
fn broken_in_the_guard() -> Vec<(Call, Answer)> {
    let at = |earliest| request(1, 1, 10, earliest, earliest);
    vec![
        booked(1, request(1, 10, 5, 20, 20), 20, &[0]),
        // The guard's minutes are 18 and 19, then 19 and 20, then 20 and 21; and 20 is of the duration itself.
        offered(at(8), 8, &[0]),
        no_start(Call::Offer(at(9)), 20),
        no_start(Call::Offer(at(10)), 20),
        no_start(Call::Offer(at(11)), 20),
        no_start(Call::Book(2, Request { latest: 26, ..at(9) }), 20),
        offered(Request { latest: 27, ..at(9) }, 27, &[0]),
        no_start(Call::Offer(at(24)), 24),
        no_start(Call::Offer(request(1, 1, 1, 25, 26)), 25),
        cancelled(1),
        offered(at(9), 9, &[0]),
    ]
}

/// A minute and its guard of fifteen, and a year and its guard, up to a booking of one minute: the last minute of the span.
fn broken_last_minutes() -> Vec<(Call, Answer)> {
    let minute = |earliest| request(1, 1, 1, earliest, earliest);
    let year = request(1, 1, MAX_DURATION, 0, 0);
    vec![
        booked(1, request(1, 10, 1, 525_615, 525_615), 525_615, &[0]),
        offered(year, 0, &[0]),
        no_start(Call::Offer(Request { earliest: 1, latest: 525_599, ..year }), 525_615),
        no_start(Call::Book(2, Request { earliest: 1, latest: 1, ..year }), 525_615),
        booked(2, request(1, 10, 1, MAX_MINUTE, MAX_MINUTE), MAX_MINUTE, &[0]),
        offered(minute(999_999_984), 999_999_984, &[0]),
        no_start(Call::Offer(minute(999_999_985)), MAX_MINUTE),
        no_start(Call::Offer(Request { latest: MAX_MINUTE, ..minute(999_999_985) }), MAX_MINUTE),
        no_start(Call::Offer(Request { duration: MAX_DURATION, ..minute(MAX_MINUTE) }), MAX_MINUTE),
    ]
}

/// 4 Mb/s for 10 minutes on link 2, 6 for 5 and 5 for 4 on links 0 and 1.
fn sold_session() -> Vec<(Call, Answer)> {
    let works =
        [[0, 0, 40], [30, 30, 40], [30, 30, 40], [50, 50, 40], [20, 20, 40], [20, 20, 40], [0, 0, 0], [0, 0, 0]];
    selling(session().into_iter().zip(works).collect())
}

/// 6 Mb/s for 5 minutes on links 0 and 1, and 4 for 10 on link 0.
fn two_sold() -> [(Call, Answer); 2] {
    [booked(1, request(2, 6, 5, 0, 0), 0, &[0, 1]), booked(2, request(1, 4, 10, 0, 0), 0, &[0])]
}

/// What is refused, offered, listed and shown sells nothing.
fn sold_without_the_guard() -> Vec<(Call, Answer)> {
    let [first, second] = two_sold();
    let mut steps = all_sold(&[0, 0, 0]);
    steps.extend(selling(vec![
        (first, [30, 30, 0]),
        (no_start(Call::Book(2, request(1, 5, 10, 0, 0)), 0), [30, 30, 0]),
        (second, [70, 30, 0]),
        (refused(Call::Book(2, request(2, 4, 1, 0, 0)), 6), [70, 30, 0]),
        (offered(request(2, 4, 1, 0, 0), 0, &[2]), [70, 30, 0]),
        (listed(request(2, 4, 1, 0, 20), &[(0, 20)]), [70, 30, 0]),
        (shown(0, 12, 6), [70, 30, 0]),
        (refused(Call::Sold { link: LINKS as u32 - 1 }, 4), [70, 30, 0]),
        (refused(Call::Sold { link: LINKS as u32 }, 4), [70, 30, 0]),
        (refused(Call::Sold { link: u32::MAX }, 4), [70, 30, 0]),
    ]));
    steps
}

/// Booking 1 ends at 5 and its guard at 8, booking 2 at 10 and 13. Until then both count whole.
fn sold_until_the_guard_ends() -> Vec<(Call, Answer)> {
    let [first, second] = two_sold();
    selling(vec![
        (first, [30, 30, 0]),
        (second, [70, 30, 0]),
        (clock(4), [70, 30, 0]),
        (clock(5), [70, 30, 0]),
        (clock(7), [70, 30, 0]),
        (refused(Call::MoveClock(6), 10), [70, 30, 0]),
        (clock(8), [40, 0, 0]),
        (clock(12), [40, 0, 0]),
        (booked(1, request(2, 1, 2, 0, 12), 12, &[2]), [40, 0, 2]),
        (clock(13), [0, 0, 2]),
        (clock(MAX_MINUTE), [0, 0, 0]),
    ])
}

/// Cancelled before its start, while it runs, and in its guard.
fn sold_without_the_cancelled() -> Vec<(Call, Answer)> {
    let [first, second] = two_sold();
    selling(vec![
        (first, [30, 30, 0]),
        (second, [70, 30, 0]),
        (booked(3, request(2, 10, 100, 50, 50), 50, &[0, 1]), [1_070, 1_030, 0]),
        (refused(Call::Cancel(4), 9), [1_070, 1_030, 0]),
        (cancelled(3), [70, 30, 0]),
        (refused(Call::Cancel(3), 9), [70, 30, 0]),
        (clock(2), [70, 30, 0]),
        (cancelled(2), [30, 30, 0]),
        (clock(6), [30, 30, 0]),
        (cancelled(1), [0, 0, 0]),
    ])
}

/// 64 bookings of 1,000,000 Mb/s for 525,600 minutes, one behind the other and its guard.
fn largest_sum(guard: u32) -> Vec<(Call, Answer)> {
    const ONE: u64 = 525_600_000_000;
    let start = |place: u32| place * (MAX_DURATION + guard);
    let whole = |place| request(1, MAX_BANDWIDTH, MAX_DURATION, start(place), start(place));
    let book = |place: u32| (booked(place + 1, whole(place), start(place), &[0]), [ONE * u64::from(place + 1)]);
    let mut steps: Vec<_> = (0..BOOKINGS as u32).map(book).collect();
    steps.extend([
        (refused(Call::Book(65, whole(64)), 7), [33_638_400_000_000]),
        (clock(start(1) - 1), [33_638_400_000_000]),
        (clock(start(1)), [33_112_800_000_000]),
        (booked(65, whole(64), start(64), &[0]), [33_638_400_000_000]),
        (cancelled(33), [33_112_800_000_000]),
        (clock(start(64)), [ONE]),
        (cancelled(65), [0]),
    ]);
    selling(steps)
}

/// Each booking takes a whole link: number n the link n - 1, for n minutes.
fn sold_on_all_links() -> Vec<(Call, Answer)> {
    let book = |number: u32| booked(number, request(1, 1_000, number, 0, 0), 0, &[number - 1]);
    let mut steps: Vec<_> = (1..=LINKS as u32).map(book).collect();
    let mut works: Vec<u64> = (1..=LINKS as u64).map(|number| 1_000 * number).collect();
    steps.extend(all_sold(&works));
    steps.push(cancelled(64));
    works[63] = 0;
    steps.extend(all_sold(&works));
    steps.push(clock(2));
    works[..2].fill(0);
    steps.extend(all_sold(&works));
    steps.push(cancelled(63));
    works[62] = 0;
    steps.extend(all_sold(&works));
    steps
}

/// A refused set-up leaves what is sold, an accepted one leaves nothing of it.
fn sold_between_set_ups() -> Vec<(Call, Answer)> {
    let [first, second] = two_sold();
    let mut steps = selling(vec![
        (first, [30, 30, 0]),
        (second, [70, 30, 0]),
        (no_set_up(Vec::new(), 0, 1), [70, 30, 0]),
        (no_set_up(triangle(), 16, 4), [70, 30, 0]),
        (no_set_up(links(&[(1, 1, 7)]), 0, 2), [70, 30, 0]),
    ]);
    steps.extend(selling(vec![
        (set_up(links(&[(0, 1, 7)]), 0), [0]),
        (booked(1, request(1, 7, 2, 0, 0), 0, &[0]), [14]),
        (set_up(links(&[(0, 1, 7)]), 0), [0]),
    ]));
    steps
}
