//! The library beside the chooser that tries every minute, on the tables of random bookings.

use choice_tests::desk::{Booking, Desk, Link};
use choice_tests::{choose_start, minutes, ChoiceRecord, Question, LAST_MINUTE};
use support::{assert_enough, Random};

const CASES: u64 = 24_000;

/// A desk of up to `links` links and `bookings` bookings, none oversold, most of them within 300 minutes of the clock.
fn desk(random: &mut Random, links: u64, bookings: u64) -> Desk {
    let nodes = random.within(2, 6);
    let clock = [0, random.below(20), LAST_MINUTE as u64 - random.within(100, 600)][random.below(3) as usize] as u32;
    let links: Vec<Link> = (0..random.within(3, links))
        .map(|_| {
            let from = random.below(nodes);
            let to = (from + random.within(1, nodes - 1)) % nodes;
            Link { from: from as u32, to: to as u32, capacity: random.within(3, 12) as u32 }
        })
        .collect();
    let mut desk = Desk { clock, links, bookings: vec![] };
    for _ in 0..random.below(bookings + 1) {
        let booking = booking(random, &desk);
        if desk.fits(&booking) && desk.bookings.len() < 64 {
            desk.bookings.push(booking);
        }
    }
    desk
}

/// A booking that stands at the clock: it may run already, and it ends after the clock.
fn booking(random: &mut Random, desk: &Desk) -> Booking {
    let start = (desk.clock + random.below(300) as u32).saturating_sub(30);
    let end = start.max(desk.clock) + random.within(1, 80) as u32;
    let some = random.within(1, 4);
    let mut links: Vec<usize> = (0..some).map(|_| random.below(desk.links.len() as u64) as usize).collect();
    links.sort_unstable();
    links.dedup();
    Booking { start, end, bandwidth: random.within(2, 9) as u32, links }
}

fn question(random: &mut Random, desk: &Desk) -> Question {
    let long = if random.once_in(50) { 525_600 } else { 90 };
    let low = (desk.clock + random.below(150) as u32).min(LAST_MINUTE);
    // near an event as often as not, so that starts just fit and just fail
    let events = desk.events();
    let near = (events[random.below(events.len() as u64) as usize] + random.below(3) as u32).saturating_sub(1);
    let latest = if low <= near || random.once_in(10) { near } else { low + random.below(300) as u32 };
    let mut link = || &desk.links[random.below(desk.links.len() as u64) as usize];
    let (source, destination) = (link().from, link().to);
    Question {
        source,
        destination,
        bandwidth: random.within(2, 9) as u32,
        duration: random.within(1, long) as u32,
        low,
        latest: latest.min(LAST_MINUTE),
    }
}

/// How often each kind of answer has occurred.
#[derive(Default, Debug)]
struct Counts {
    at_low: u32,
    later: u32,
    /// Refusals whose minute is low; is later; is where a link is free again that was not before; is the end of low's span, of
    /// an empty window.
    broken_at_low: u32,
    broken_later: u32,
    link_free_again: u32,
    lasting: u32,
}

impl Counts {
    fn add(&mut self, desk: &Desk, q: &Question, answer: &ChoiceRecord) {
        if answer.refusal == 0 {
            self.at_low += (answer.start == q.low) as u32;
            self.later += (q.low < answer.start) as u32;
            return;
        }
        let end = q.low + q.duration;
        let again = |&link: &usize| {
            let mut before =
                desk.events().into_iter().filter(|&event| q.low < event && event < answer.at).chain([q.low]);
            q.bandwidth <= desk.free(link, answer.at) && before.any(|minute| desk.free(link, minute) < q.bandwidth)
        };
        let later = q.low < answer.at && answer.at < end;
        self.broken_at_low += (answer.at == q.low) as u32;
        self.broken_later += later as u32;
        self.link_free_again += (later && (0..desk.links.len()).any(|link| again(&link))) as u32;
        self.lasting += (answer.at == end) as u32;
    }
}

#[test]
fn random_desks() {
    let mut counts = Counts::default();
    for seed in 0..CASES {
        let mut random = Random::new(seed);
        let (links, bookings) = if seed % 8 == 0 { (64, 90) } else { (12, 40) };
        let desk = desk(&mut random, links, bookings);
        let q = question(&mut random, &desk);
        let ours = choose_start(&desk.ends(), &desk.tables(), &q);
        let plain = minutes::choose(&desk, &q);
        assert_eq!(ours, plain, "seed {seed}: {q:?} on {desk:?}");
        counts.add(&desk, &q, &ours);
    }
    println!("{counts:?}");
    let enough = [
        ("starts at low", counts.at_low, 2_000),
        ("later starts", counts.later, 1_000),
        ("broken off at low", counts.broken_at_low, 2_000),
        ("broken off later", counts.broken_later, 500),
        ("broken off where a link is free again", counts.link_free_again, 100),
        ("no break-off in low's span, of an empty window", counts.lasting, 100),
    ];
    assert_enough(&enough, 0);
}
