//! The exported calls of the proved desk against the independent one: every answer, and every figure of every table after
//! each call.

use desk_tests::break_offs;
use desk_tests::calls::{bad_link, guard, list_size, long_guard, net, pick, style};
use desk_tests::cases::cases;
use desk_tests::damages::{
    damage, forged, other_guards, resize, unsound, wrong_events, wrong_totals, WRONG_TOTALS,
};
use desk_tests::exported::{self, fresh};
use desk_tests::guards;
use desk_tests::plain::{Answer, Call, Desk};
use desk_tests::sessions::{each_desk, History};
use desk_tests::tables::{self, Tables};
use desk_tests::totals;
use desk_tests::{listings, Link, Request, LINKS, LIST_FIGURES, MAX_GUARD};
use support::{assert_enough, Random, Seed};

const SEED: u64 = 0xDE5_C000;

/// The call is answered as the independent desk answers it, and leaves the tables that document 01 prescribes.
fn same(links: &[Link], held: &mut Tables, call: &Call, expected: &Answer, desk: &Desk, what: &str) {
    let before = held.clone();
    let answer = exported::answer(links, held, call);
    assert_eq!(answer, *expected, "{what}: {call:?}");
    if matches!(answer, Answer::Refused(_)) {
        assert!(*held == before, "{what}: {call:?} is refused and writes");
    }
    assert!(*held == tables::of(desk), "{what}: {call:?} leaves other tables");
}

#[test]
fn the_worked_examples() {
    for case in cases() {
        let mut desk = Desk::set_up(&case.links, case.guard).expect("valid links and guard");
        let mut held = fresh(&desk, &mut Random::new(SEED));
        for (call, answer) in &case.steps {
            let links = desk.links.clone();
            assert_eq!(desk.answer(call), *answer, "{}", case.name);
            same(&links, &mut held, call, answer, &desk, case.name);
        }
    }
}

#[test]
fn random_histories() {
    let (mut calls, mut sampled, mut counts) = (0u32, 0u32, Listings::default());
    let (mut guards, mut break_offs) = (guards::Counts::default(), break_offs::Counts::default());
    let mut totals = totals::Counts::default();
    for seed in SEED.. {
        let (mut random, _seed) = (Random::new(seed), Seed(seed));
        let mut history = History::new(seed);
        let mut held = fresh(&history.desk, &mut random);
        for step in 0..500 {
            let what = format!("seed {seed:#x}, step {step}");
            let before = history.desk.clone();
            let (call, answer) = history.step();
            same(&before.links, &mut held, &call, &answer, &history.desk, &what);
            counts.add(&call, &answer);
            guards.add(&before, &call, &answer, &history.desk);
            break_offs.add(&before, &call, &answer);
            totals.add(&before, &call, &answer, &history.desk);
            if random.once_in(20) {
                every_total(&history.desk, &mut held, &mut totals, &what);
            }
            if random.once_in(10) {
                let request = history.listed();
                sampled += right_listing(&mut random, &history.desk, &mut held, &request, &what);
            }
            calls += 1;
        }
        if calls >= 240_000 {
            break;
        }
    }
    let Listings { accepted, ranges, several, refused } = counts;
    println!("{calls} calls compared, with every table figure, and beside them {sampled} listings of any window");
    println!("of the calls {accepted} listings with {ranges} ranges, {several} of them with more than one");
    println!("refused listings: {} refused 13, {} refused 4, {} refused 5", refused[13], refused[4], refused[5]);
    assert!(accepted >= 10_000 && several >= 500 && sampled >= 10_000, "{accepted}, {several}, {sampled}");
    assert!([4, 5, 13].iter().all(|&refusal: &usize| refused[refusal] >= 100), "{refused:?}");
    println!("calls by guard: {:?}", guards.by_guard);
    println!("{}", guards.of_calls());
    println!("{}", break_offs.told());
    println!("{}", totals.told());
    let enough = [
        ("calls under each guard", *guards.by_guard.iter().min().expect("a guard"), 5_000),
        ("listed otherwise by a guard", guards.listed_otherwise, 1_000),
        ("less shown by a guard", guards.less_shown, 300),
        ("shown behind minute 1,000,525,600", guards.late_shown, 300),
        ("shown at the last minute", guards.last_shown, 300),
        ("refused past the last minute", guards.past_last, 300),
    ];
    assert_enough(&enough, SEED);
    assert_enough(&guards.of_orders_enough(), SEED);
    assert_enough(&break_offs.enough(), SEED);
    assert_enough(&totals.enough(), SEED);
}

/// How often the calls were listings, and what these answered.
#[derive(Default)]
struct Listings {
    accepted: u32,
    ranges: usize,
    several: u32,
    refused: [u32; 14],
}

impl Listings {
    fn add(&mut self, call: &Call, answer: &Answer) {
        match (call, answer) {
            (Call::List(..), Answer::Listed(ranges)) => {
                self.accepted += 1;
                self.ranges += ranges.len();
                self.several += (ranges.len() > 1) as u32;
            }
            (Call::List(..), Answer::Refused(refused)) => self.refused[refused.number as usize] += 1,
            _ => {}
        }
    }
}

/// Every link and the one behind them are asked for their sold work, which writes nothing.
fn every_total(desk: &Desk, held: &mut Tables, counts: &mut totals::Counts, what: &str) {
    for link in 0..=desk.links.len() as u32 {
        let call = Call::Sold { link };
        let answer = exported::answer(&desk.links, held, &call);
        let expected = desk.sold_work(link).map_or_else(Answer::refused, Answer::Sold);
        assert_eq!(answer, expected, "{what}: {call:?}");
        counts.add(desk, &call, &answer, desk);
    }
    assert!(*held == tables::of(desk), "{what}: questions for sold work leave other tables");
}

/// A listing whose window may be too long to try every minute: it is refused as the independent desk refuses, or right where
/// it is sampled, and begins with the start that an offer gets. Answers 1 for a listing, 0 for a refusal.
fn right_listing(random: &mut Random, desk: &Desk, held: &mut Tables, request: &Request, what: &str) -> u32 {
    let call = Call::List(LIST_FIGURES, *request);
    let answer = exported::answer(&desk.links, held, &call);
    assert!(*held == tables::of(desk), "{what}: {call:?} leaves other tables");
    match (desk.check(request), answer) {
        (Err(refusal), answer) => assert_eq!(answer, Answer::refused(refusal), "{what}: {call:?}"),
        (Ok(()), Answer::Listed(ranges)) => {
            assert_eq!(listings::fault(random, desk, request, &ranges), None, "{what}: {call:?}");
            let offered = exported::offer(&desk.links, held, request);
            let offered = offered.map(|start| start.minute).map_err(|refused| refused.number);
            assert_eq!(ranges.first().map(|range| range.first).ok_or(8), offered, "{what}: {call:?} and the offer");
            return 1;
        }
        (Ok(()), answer) => panic!("{what}: {call:?} is answered {answer:?}"),
    }
    0
}

/// Any call on tables that may be damaged: refused by the rule for these tables with nothing written, or answered by what
/// they hold. A list of another length comes between the two refusals of tables.
fn judged(links: &[Link], held: &mut Tables, call: &Call, what: &str) -> u32 {
    let another_length = matches!(call, Call::List(figures, _) if *figures != LIST_FIGURES);
    match tables::read(links, held) {
        Err(refusal) => {
            let refusal = if refusal == 3 && another_length { 13 } else { refusal };
            let before = held.clone();
            assert_eq!(exported::answer(links, held, call), Answer::refused(refusal), "{what}: {call:?}");
            assert!(*held == before, "{what}: {call:?} is refused and writes");
            refusal
        }
        Ok(mut desk) => {
            let expected = desk.answer(call);
            same(links, held, call, &expected, &desk, what);
            0
        }
    }
}

/// A call that any desk can be asked, and that ends soon.
fn any_call(random: &mut Random, desk: &Desk) -> Call {
    let number = desk.bookings.first().map_or(1, |booking| booking.number);
    let nodes = [0, 1, 2, 31];
    let request = Request {
        from: *pick(random, &nodes),
        to: *pick(random, &nodes),
        bandwidth: 1,
        duration: 1,
        earliest: desk.clock,
        latest: desk.clock.saturating_add(random.below(20) as u32),
    };
    match random.below(7) {
        0 => Call::Book(random.within(1, 16_383) as u32, request),
        1 => Call::Offer(request),
        2 => Call::Cancel(number),
        3 => Call::MoveClock(desk.clock),
        4 if random.once_in(3) => Call::List(list_size(random), request),
        4 => Call::List(LIST_FIGURES, request),
        5 => Call::Sold { link: random.within(0, desk.links.len() as u64) as u32 },
        _ => Call::Show { link: 0, minute: desk.clock },
    }
}

#[test]
fn damaged_and_forged_tables() {
    let mut random = Random::new(SEED + 1);
    let (mut damages, mut by_refusal) = (0u32, [0u32; 14]);
    for seed in SEED.. {
        let _seed = Seed(seed);
        let mut history = History::new(seed);
        for step in 0..60 {
            history.step();
            let desk = &history.desk;
            let (mut links, mut held) = (desk.links.clone(), tables::of(desk));
            let what = damage(&mut random, &mut links, &mut held);
            let call = any_call(&mut random, desk);
            by_refusal[judged(&links, &mut held, &call, &format!("seed {seed:#x}, step {step}, {what}")) as usize] += 1;
            let (mut held, what) = forged(&mut random, desk);
            let call = any_call(&mut random, desk);
            judged(&desk.links, &mut held, &call, &format!("seed {seed:#x}, step {step}, {what}"));
            damages += 1;
        }
        if damages >= 50_000 {
            break;
        }
    }
    let [sound, sizes, _, unsound, .., lists] = by_refusal;
    println!("{damages} damages: {sizes} refused 1, {lists} refused 13, {unsound} refused 3, {sound} sound");
    assert!(sizes > 1_000 && lists > 1_000 && unsound > 10_000, "{by_refusal:?}");
}

/// The head's guard changed to each other one, on tables of any bookings: refused 3 if some stand or it is above 15, else a
/// desk with that guard.
#[test]
fn damages_of_the_guard() {
    let mut random = Random::new(SEED + 2);
    let (mut sound, mut with_bookings, mut too_long) = (0u32, 0u32, 0u32);
    each_desk(SEED, |desk, place| {
        for guard in other_guards(desk.guard) {
            let mut held = tables::of(desk);
            held.head.guard = guard;
            let call = any_call(&mut random, desk);
            let refusal = judged(&desk.links, &mut held, &call, &format!("{place}, guard {guard}"));
            let accepted = guard <= MAX_GUARD && desk.bookings.is_empty();
            assert_eq!(refusal == 0, accepted, "{place}, guard {guard}: {call:?}");
            let count = match (accepted, guard > MAX_GUARD) {
                (true, _) => &mut sound,
                (false, true) => &mut too_long,
                (false, false) => &mut with_bookings,
            };
            *count += 1;
        }
    });
    println!("another guard: {with_bookings} refused with bookings, {too_long} refused above 15, {sound} sound");
    assert!(sound > 1_000 && with_bookings > 10_000 && too_long > 10_000, "{sound}, {with_bookings}, {too_long}");
}

/// Totals with a mistake: refused 3 by every call, or 13 for a list of another length.
#[test]
fn damages_of_the_totals() {
    let mut random = Random::new(SEED + 3);
    let mut kinds = std::collections::BTreeMap::new();
    each_desk(SEED, |desk, place| {
        for (what, totals) in wrong_totals(&mut random, desk) {
            let mut held = Tables { totals, ..tables::of(desk) };
            let call = any_call(&mut random, desk);
            let refusal = judged(&desk.links, &mut held, &call, &format!("{place}, {what}"));
            assert_ne!(refusal, 0, "{place}, {what}: {call:?}");
            *kinds.entry(what).or_insert(0) += (refusal == 3) as u32;
        }
    });
    println!("{} wrong totals refused 3: {kinds:?}", kinds.values().sum::<u32>());
    assert!(kinds.len() == WRONG_TOTALS && kinds.values().all(|&count| count >= 50), "{kinds:?}");
}

/// Events with a mistake, each row moved with its event: refused 3 by every call, or 13 for a list of another length.
#[test]
fn damages_of_the_events() {
    let mut random = Random::new(SEED + 4);
    let mut kinds = std::collections::BTreeMap::new();
    each_desk(SEED, |desk, place| {
        for (what, mut held) in wrong_events(&mut random, desk) {
            let call = any_call(&mut random, desk);
            let refusal = judged(&desk.links, &mut held, &call, &format!("{place}, {what}"));
            assert_ne!(refusal, 0, "{place}, {what}: {call:?}");
            *kinds.entry(what).or_insert(0) += (refusal == 3) as u32;
        }
    });
    println!("{} tables with wrong events refused 3: {kinds:?}", kinds.values().sum::<u32>());
    assert!(kinds.len() == 4 && kinds.values().all(|&count| count >= 1_000), "{kinds:?}");
}

/// The refusals of a question for sold work, in the order in which they are tried.
const SOLD_REFUSALS: [u32; 3] = [1, 3, 4];

/// Every set of reasons to refuse a question for sold work: the first reason is answered, and nothing is written.
#[test]
fn sold_work_is_refused_in_order() {
    let mut by_refusal = [0u32; 5];
    for seed in SEED..SEED + 500 {
        let (mut random, _seed) = (Random::new(seed), Seed(seed));
        let mut history = History::new(seed);
        (0..1 + seed % 60).for_each(|_| {
            history.step();
        });
        let desk = &history.desk;
        for reasons in 0..1u32 << SOLD_REFUSALS.len() {
            let has = |refusal| {
                SOLD_REFUSALS.iter().position(|&one: &u32| one == refusal).is_some_and(|i| reasons >> i & 1 == 1)
            };
            let (mut links, mut held) = (desk.links.clone(), tables::of(desk));
            if has(3) {
                (links, held) = unsound(&mut random, desk);
            }
            if has(1) {
                resize(&mut random, &mut links, &mut held);
            }
            let count = desk.links.len() as u32;
            let off_the_list = *pick(&mut random, &[count, LINKS as u32, 1_000, u32::MAX]);
            let link = if has(4) { off_the_list } else { random.below(count as u64) as u32 };
            let what = format!("seed {seed:#x}, reasons {reasons:#b}, link {link} of {count}");
            let before = held.clone();
            let refusal = exported::sold_work(&links, &held, link).err().unwrap_or(0);
            let expected = SOLD_REFUSALS.into_iter().find(|&refusal| has(refusal)).unwrap_or(0);
            assert_eq!(refusal, expected, "{what}");
            assert!(held == before, "{what}: the question writes");
            by_refusal[refusal as usize] += 1;
        }
    }
    let [accepted, sizes, _, unsound, links] = by_refusal;
    println!("sold work: {sizes} refused 1, {unsound} refused 3, {links} refused 4, {accepted} accepted");
}

/// The refusals of a set-up, in the order in which they are tried.
const SET_UP_REFUSALS: [u32; 3] = [1, 4, 2];

/// Every set of reasons to refuse a set-up, on tables of any figures: the first reason is answered and nothing is written.
/// With none the tables are those of an empty desk with that guard.
#[test]
fn set_ups() {
    let (mut by_refusal, mut by_guard) = ([[0u32; 5]; 1 << SET_UP_REFUSALS.len()], [0u32; guards::GUARDS]);
    for seed in SEED..SEED + 2_000 {
        let (mut random, _seed) = (Random::new(seed), Seed(seed));
        let style = style(&mut random);
        for reasons in 0..1 << SET_UP_REFUSALS.len() {
            let has =
                |refusal| SET_UP_REFUSALS.iter().position(|&one| one == refusal).is_some_and(|i| reasons >> i & 1 == 1);
            let (mut links, mut held) = (net(&mut random, style), any_tables(&mut random, seed));
            if has(2) {
                let bad = random.below(links.len() as u64) as usize;
                links[bad] = bad_link(&mut random);
            }
            if has(1) {
                resize(&mut random, &mut links, &mut held);
            }
            let guard = if has(4) { long_guard(&mut random) } else { guard(&mut random) };
            let what = format!("seed {seed:#x}, reasons {reasons:#b}, {} links, guard {guard}", links.len());
            let before = held.clone();
            let refusal = exported::set_up(&links, &mut held, guard).err().unwrap_or(0);
            let expected = SET_UP_REFUSALS.into_iter().find(|&refusal| has(refusal)).unwrap_or(0);
            assert_eq!(refusal, expected, "{what}");
            match Desk::set_up(&links, guard) {
                Ok(desk) if refusal == 0 => {
                    assert!(held == tables::of(&desk), "{what}: other tables");
                    by_guard[guard as usize] += 1;
                }
                _ => assert!(held == before, "{what}: a refused set-up writes"),
            }
            by_refusal[reasons][refusal as usize] += 1;
        }
    }
    for (reasons, counts) in by_refusal.iter().enumerate() {
        let reasons: Vec<u32> = (0..3).filter(|i| reasons >> i & 1 == 1).map(|i| SET_UP_REFUSALS[i]).collect();
        let [accepted, sizes, links, _, guards] = counts;
        println!("reasons {reasons:?}: {sizes} refused 1, {guards} refused 4, {links} refused 2, {accepted} accepted");
    }
    println!("accepted by guard: {by_guard:?}");
    assert!(by_guard.iter().all(|&count| count >= 50), "{by_guard:?}");
}

/// Tables that hold one figure everywhere, or the desk of some history.
fn any_tables(random: &mut Random, seed: u64) -> Tables {
    if random.once_in(2) {
        return Tables::filled_with(random.next() as u32);
    }
    let mut history = History::new(seed);
    (0..random.below(20)).for_each(|_| {
        history.step();
    });
    tables::of(&history.desk)
}

#[test]
fn two_histories_to_the_same_bookings() {
    let mut detours = 0u32;
    for seed in SEED + 2..SEED + 202 {
        let _seed = Seed(seed);
        let mut history = History::new(seed);
        let mut straight = fresh(&history.desk, &mut Random::new(seed));
        let mut around = fresh(&history.desk, &mut Random::new(seed + 1));
        for step in 0..100 {
            let links = history.desk.links.clone();
            for (call, answer) in history.detour().into_iter().flatten() {
                assert_eq!(exported::answer(&links, &mut around, &call), answer, "seed {seed:#x}, step {step}");
                detours += 1;
            }
            let (call, answer) = history.step();
            assert_eq!(exported::answer(&links, &mut straight, &call), answer, "seed {seed:#x}, step {step}");
            assert_eq!(exported::answer(&links, &mut around, &call), answer, "seed {seed:#x}, step {step}");
            assert!(straight == around, "seed {seed:#x}, step {step}: equal bookings, other tables");
        }
    }
    assert!(detours > 1_000, "{detours}");
}
