//! The choice and the listing of the independent desk against others: the same by their words, minute by minute and span by
//! span; with candidate minutes only; and paths found by listing all of them.

use desk_tests::break_offs;
use desk_tests::calls::often_short_guard;
use desk_tests::listings;
use desk_tests::plain::{best_path, Booking, Call, Desk, Range, Start, Walk};
use desk_tests::{Link, Request};
use support::{assert_enough, Random};

const SEED: u64 = 0x0DE5_0002;

/// All chains from a node to another that meet no node twice, over links that are usable.
fn paths(links: &[Link], usable: &dyn Fn(u32) -> bool, from: u32, to: u32, met: &mut Vec<u32>) -> Vec<Vec<u32>> {
    if from == to {
        return vec![Vec::new()];
    }
    met.push(from);
    let mut found = Vec::new();
    for (number, link) in links.iter().enumerate() {
        if link.from == from && !met.contains(&link.to) && usable(number as u32) {
            for mut rest in paths(links, usable, link.to, to, met) {
                rest.insert(0, number as u32);
                found.push(rest);
            }
        }
    }
    met.pop();
    found
}

/// The best of all paths: fewest links, then the lower number at the first place where two differ.
fn best(links: &[Link], usable: &dyn Fn(u32) -> bool, from: u32, to: u32) -> Option<Vec<u32>> {
    paths(links, usable, from, to, &mut Vec::new()).into_iter().min_by_key(|path| (path.len(), path.clone()))
}

/// The choice in the words of documents 01 and 02: every minute of the window, every minute of the guarded span.
fn literal(desk: &Desk, request: &Request) -> Option<Start> {
    (desk.low(request)..=request.latest).find_map(|minute| {
        let end = minute + request.duration + desk.guard;
        let enough = |link: u32| (minute..end).all(|m| desk.residual(link, m) >= request.bandwidth as i64);
        best(&desk.links, &enough, request.from, request.to).map(|path| Start { minute, path })
    })
}

/// The break-off in the words of document 02: the first minute from low on such that no single path has the bandwidth free
/// throughout low to it. Paths are tried one by one.
fn literal_break_off(desk: &Desk, request: &Request) -> u32 {
    let low = desk.low(request);
    let lasts = |minute: u32| {
        let enough = |link: u32| (low..=minute).all(|m| desk.residual(link, m) >= request.bandwidth as i64);
        !paths(&desk.links, &enough, request.from, request.to, &mut Vec::new()).is_empty()
    };
    (low..low + request.duration + desk.guard).find(|&minute| !lasts(minute)).expect("no path from low on lasts")
}

/// Whether a listing is right in document 02's words: each possible minute of the window is in exactly one range and no
/// other minute is in any, the ranges rise, and each is as long as it can be.
fn right_listing(desk: &Desk, request: &Request, ranges: &[Range]) -> bool {
    let possible = |minute: u32| {
        let end = minute + request.duration + desk.guard;
        let enough = |link: u32| (minute..end).all(|m| desk.residual(link, m) >= request.bandwidth as i64);
        !paths(&desk.links, &enough, request.from, request.to, &mut Vec::new()).is_empty()
    };
    let (low, latest) = (desk.low(request), request.latest);
    let listed = |minute: u32| ranges.iter().filter(|range| (range.first..=range.last).contains(&minute)).count();
    let longest = |range: &Range| {
        let before = range.first == low || !possible(range.first - 1);
        let behind = range.last == latest || !possible(range.last + 1);
        low <= range.first && range.first <= range.last && range.last <= latest && before && behind
    };
    (low..=latest).all(|minute| listed(minute) == possible(minute) as usize)
        && ranges.iter().all(longest)
        && ranges.windows(2).all(|pair| pair[0].first < pair[1].first)
}

/// The choice among low and the events in the window, over the events of the guarded span.
fn by_candidates(desk: &Desk, request: &Request) -> Option<Start> {
    let low = desk.low(request);
    let events = desk.events();
    let later = events.iter().copied().filter(|&event| event > low && event <= request.latest);
    std::iter::once(low).chain(later).find_map(|minute| {
        let end = minute + request.duration + desk.guard;
        let in_span = |event: &&u32| minute < **event && **event < end;
        let enough = |link: u32| {
            let inside = events.iter().filter(in_span).copied();
            inside.chain([minute]).all(|m| desk.residual(link, m) >= request.bandwidth as i64)
        };
        best(&desk.links, &enough, request.from, request.to).map(|path| Start { minute, path })
    })
}

fn net(random: &mut Random, nodes: u64, links: u64) -> Vec<Link> {
    let link = |random: &mut Random| {
        let from = random.below(nodes);
        let to = (from + random.within(1, nodes - 1)) % nodes;
        Link { from: from as u32, to: to as u32, capacity: random.within(3, 8) as u32 }
    };
    (0..links).map(|_| link(random)).collect()
}

/// A desk with bookings on single links or pairs of them, wherever they fit, at a clock among them.
fn busy(random: &mut Random, breadth: u64) -> Desk {
    let (nodes, links) = (random.within(2, 5), random.within(1, 9));
    let links = net(random, nodes, links);
    let guard = often_short_guard(random);
    let mut desk = Desk { links, guard, clock: 0, bookings: Vec::new() };
    for number in 1..=random.below(12) as u32 {
        let from = random.below(desk.links.len() as u64) as u32;
        let mut path = vec![from];
        let joined =
            |other: &Link| other.from == desk.links[from as usize].to && other.to != desk.links[from as usize].from;
        if let Some(next) = desk.links.iter().position(joined).filter(|_| random.once_in(2)) {
            path.push(next as u32);
        }
        let (start, duration) = (random.below(breadth) as u32, random.within(1, breadth) as u32);
        let fits = |&bandwidth: &u32| {
            let span = start..start + duration + guard;
            path.iter().all(|&link| span.clone().all(|minute| desk.residual(link, minute) >= bandwidth as i64))
        };
        if let Some(bandwidth) = Some(random.within(1, 8) as u32).filter(fits) {
            desk.bookings.push(Booking { number, start, duration, bandwidth, path });
        }
    }
    desk.move_clock(random.below(breadth) as u32).expect("a later minute");
    desk
}

fn request(random: &mut Random, desk: &Desk, breadth: u64) -> Request {
    let ends = [0; 2].map(|_| desk.links[random.below(desk.links.len() as u64) as usize]);
    let to = if ends[1].to == ends[0].from { ends[0].to } else { ends[1].to };
    let earliest = random.below(breadth) as u32;
    let (bandwidth, duration) = (random.within(1, 6) as u32, random.within(1, 1 + breadth / 2) as u32);
    let latest = earliest + random.below(3 * breadth) as u32;
    Request { from: ends[0].from, to, bandwidth, duration, earliest, latest }
}

#[test]
fn every_minute_agrees_with_the_words_and_with_candidates() {
    let (mut possible, mut at_low, mut impossible) = (0, 0, 0);
    for turn in 0..20_000 {
        let mut random = Random::new(SEED + turn);
        let breadth = random.within(2, 24);
        let desk = busy(&mut random, breadth);
        let request = request(&mut random, &desk, breadth);
        let what = format!("seed {:#x}, {request:?}, {desk:?}", SEED + turn);
        let chosen = desk.choose(&request, Walk::ToLastEvent);
        assert_eq!(chosen, desk.choose(&request, Walk::ToLatest), "both walks, {what}");
        assert_eq!(chosen, literal(&desk, &request), "by the words, {what}");
        if request.latest >= desk.clock {
            assert_eq!(chosen, by_candidates(&desk, &request), "by candidates, {what}");
        }
        match chosen {
            Some(start) if start.minute == desk.low(&request) => at_low += 1,
            Some(_) => possible += 1,
            None => impossible += 1,
        }
    }
    println!("{at_low} starts at low, {possible} later, {impossible} impossible");
    assert!(at_low > 2_000 && possible > 2_000 && impossible > 2_000, "{at_low}, {possible}, {impossible}");
}

#[test]
fn break_offs_agree_with_the_words() {
    let mut counts = break_offs::Counts::default();
    for turn in 0..300_000 {
        let seed = SEED + 0x40_0000 + turn;
        let mut random = Random::new(seed);
        let (desk, request) = small(&mut random);
        let short = Request { latest: desk.low(&request) + random.below(4) as u32, ..request };
        if desk.choose(&short, Walk::ToLatest).is_some() {
            continue;
        }
        let at = desk.break_off(&short);
        assert_eq!(at, literal_break_off(&desk, &short), "seed {seed:#x}, {short:?}, {desk:?}");
        counts.add(&desk, &Call::Offer(short), &desk.clone().answer(&Call::Offer(short)));
    }
    println!("{}", counts.told());
    assert_enough(&counts.enough(), SEED);
}

fn small(random: &mut Random) -> (Desk, Request) {
    let breadth = random.within(2, 24);
    let desk = busy(random, breadth);
    let request = request(random, &desk, breadth);
    (desk, request)
}

/// A desk whose bookings leave gaps, and a window short enough to be tried by the words.
fn gapped(random: &mut Random) -> (Desk, Request) {
    let kind = if random.once_in(40) { listings::Kind::Full } else { listings::Kind::Few };
    let desk = listings::desk(random, kind);
    let request = listings::request(random, kind, &desk);
    let duration = request.duration.min(9);
    let earliest = request.earliest.min(desk.clock + 30);
    let latest = request.latest.min(earliest.max(desk.clock) + random.within(10, 60) as u32);
    (desk, Request { duration, earliest, latest, ..request })
}

#[test]
fn ranges_agree_with_the_words() {
    let mut by_count = [0; 5];
    for turn in 0..30_000 {
        let seed = SEED + 0x20_0000 + turn;
        let mut random = Random::new(seed);
        let (desk, request) = if turn % 2 == 0 { small(&mut random) } else { gapped(&mut random) };
        if request.latest < desk.low(&request) {
            continue;
        }
        let what = format!("seed {seed:#x}, {request:?}, {desk:?}");
        let ranges = desk.ranges(&request, Walk::ToLastEvent);
        assert_eq!(ranges, desk.ranges(&request, Walk::ToLatest), "both walks, {what}");
        assert!(right_listing(&desk, &request, &ranges), "by the words, {ranges:?}, {what}");
        assert_eq!(listings::fault(&mut random, &desk, &request, &ranges), None, "{what}");
        assert_eq!(ranges.first().map(|range| range.first), desk.choose(&request, Walk::ToLatest).map(|s| s.minute));
        by_count[ranges.len().min(4)] += 1;
    }
    println!("listings by number of ranges, the last four or more: {by_count:?}");
    assert!(by_count.iter().all(|&count| count >= 100), "{by_count:?}");
}

/// Each range and each gap made longer or shorter by a minute at either end is found out, and so are two ranges for one, in
/// windows that are sampled.
#[test]
fn a_wrong_listing_is_found_out() {
    let mut found = 0;
    for turn in 0..2_000 {
        let seed = SEED + 0x30_0000 + turn;
        let mut random = Random::new(seed);
        let kind = listings::KINDS[turn as usize % listings::KINDS.len()];
        let desk = listings::desk(&mut random, kind);
        let request = listings::request(&mut random, kind, &desk);
        let last_tried = desk.last_tried(&request, Walk::ToLastEvent);
        if last_tried - desk.low(&request) > 50_000 {
            continue;
        }
        let right = desk.ranges(&request, Walk::ToLastEvent);
        assert_eq!(listings::fault(&mut random, &desk, &request, &right), None, "seed {seed:#x}");
        for wrong in wrong_listings(&right) {
            let fault = listings::fault(&mut random, &desk, &request, &wrong);
            assert!(fault.is_some(), "seed {seed:#x}: {wrong:?} for {right:?}");
            found += 1;
        }
    }
    println!("{found} wrong listings found out");
    assert!(found > 5_000, "{found}");
}

/// Listings with one mistake: a range left out, its end a minute off, or cut in two.
fn wrong_listings(right: &[Range]) -> Vec<Vec<Range>> {
    let mut wrong = Vec::new();
    for (place, &Range { first, last }) in right.iter().enumerate() {
        let mut with = |ranges: &[Range]| wrong.push([&right[..place], ranges, &right[place + 1..]].concat());
        with(&[]);
        with(&[Range { first: first + 1, last }]);
        with(&[Range { first, last: last + 1 }]);
        if first > 0 {
            with(&[Range { first: first - 1, last }]);
        }
        if last > 0 {
            with(&[Range { first, last: last - 1 }]);
        }
        with(&[Range { first, last: first }, Range { first: first + 1, last }]);
    }
    wrong
}

#[test]
fn the_best_path_is_the_least_of_all_paths() {
    let mut lengths = [0; 8];
    for turn in 0..20_000 {
        let seed = SEED + 0x10_0000 + turn;
        let mut random = Random::new(seed);
        let (nodes, links) = (random.within(2, 7), random.within(1, 18));
        let links = net(&mut random, nodes, links);
        let usable = random.next() | random.next() | random.next();
        let (from, to) = (random.below(nodes) as u32, random.below(nodes) as u32);
        if from == to {
            continue;
        }
        let least = best(&links, &|link| usable >> link & 1 == 1, from, to);
        assert_eq!(best_path(&links, usable, from, to), least, "seed {seed:#x}, {links:?}");
        lengths[least.map_or(0, |path| path.len())] += 1;
    }
    println!("paths by number of links, none first: {lengths:?}");
    assert!(lengths[..4].iter().all(|&count| count >= 300) && lengths[4] >= 50, "{lengths:?}");
}

#[test]
fn a_path_of_31_links() {
    let links: Vec<Link> = (0..31).rev().map(|node| Link { from: node, to: node + 1, capacity: 1 }).collect();
    assert_eq!(best_path(&links, u64::MAX, 0, 31), Some((0..31).rev().collect()));
    assert_eq!(best_path(&links, u64::MAX, 31, 0), None);
}
