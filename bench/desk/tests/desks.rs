//! The unverified desks, and the library, against the independent one: random histories, damages and listings, every table figure
//! compared; and sessions through the unverified programs.

use std::io::Write;
use std::process::{Command, Stdio};

use desk_bench::{FAST, SETS};
use desk_tests::cases::cases;
use desk_tests::damages::{damage, forged, wrong_events, wrong_totals};
use desk_tests::exported;
use desk_tests::lines::output;
use desk_tests::listings::{self, KINDS};
use desk_tests::plain::{Answer, Call, Desk};
use desk_tests::sessions::{each_desk, session, History};
use desk_tests::tables::{self, Tables};
use desk_tests::{Link, Request, LIST_FIGURES};
use support::{Random, Seed};

const SEED: u64 = 0x0DE5_5000;

/// What answers a call on tables of a desk with these links.
type Answering = fn(&[Link], &mut Tables, &Call) -> Answer;

const DESKS: [(&str, Answering); 3] = [
    ("the library", exported::answer),
    ("the desk as it stands", |links, tables, call| FAST.answer(links, tables, call)),
    ("the desk by sets", |links, tables, call| SETS.answer(links, tables, call)),
];

/// A desk just set up with the links and the guard of another, on tables that held anything.
fn fresh(answer: Answering, desk: &Desk, figure: u32) -> Tables {
    let mut tables = Tables::filled_with(figure);
    let set_up = Call::SetUp { links: desk.links.clone(), guard: desk.guard };
    assert_eq!(answer(&[], &mut tables, &set_up), Answer::SetUp);
    tables
}

#[test]
fn cases_by_hand() {
    for case in cases() {
        for (which, answering) in DESKS {
            let mut desk = Desk::set_up(&case.links, case.guard).expect("a valid net and guard");
            let mut tables = fresh(answering, &desk, u32::MAX);
            for (place, (call, answer)) in case.steps.iter().enumerate() {
                let what = format!("{which}, {}, step {place}: {call:?}", case.name);
                let links = desk.links.clone();
                desk.answer(call);
                assert_eq!(answering(&links, &mut tables, call), *answer, "{what}");
                assert_eq!(tables, tables::of(&desk), "{what}");
            }
        }
    }
}

#[test]
fn histories() {
    for seed in SEED..SEED + 200 {
        let _seed = Seed(seed);
        let mut history = History::new(seed);
        let mut held = DESKS.map(|(_, answering)| fresh(answering, &history.desk, seed as u32));
        for step in 0..500 {
            let links = history.desk.links.clone();
            let (call, answer) = history.step();
            let expected = tables::of(&history.desk);
            for ((which, answering), tables) in DESKS.into_iter().zip(&mut held) {
                assert_eq!(answering(&links, tables, &call), answer, "{which}, seed {seed:#x}, step {step}: {call:?}");
                assert!(*tables == expected, "the tables, {which}, seed {seed:#x}, step {step}: {call:?}");
            }
        }
    }
}

#[test]
fn damages() {
    for seed in SEED..SEED + 250 {
        let _seed = Seed(seed);
        let mut history = History::new(seed);
        (0..1 + seed % 100).for_each(|_| {
            history.step();
        });
        let whole = tables::of(&history.desk);
        let mut random = Random::new(seed);
        for turn in 0..100 {
            let (mut links, mut tables) = (history.desk.links.clone(), whole.clone());
            let what = damage(&mut random, &mut links, &mut tables);
            refused_alike(&links, tables, &format!("seed {seed:#x}, turn {turn}: {what}"));
            let (tables, what) = forged(&mut random, &history.desk);
            refused_alike(&history.desk.links, tables, &format!("seed {seed:#x}, turn {turn}: {what}"));
        }
    }
}

/// Events or totals with a mistake are refused.
#[test]
fn wrong_events_and_totals_are_refused() {
    let mut random = Random::new(SEED);
    each_desk(SEED, |desk, place| {
        let totals = wrong_totals(&mut random, desk).into_iter();
        let totals = totals.map(|(what, totals)| (what, Tables { totals, ..tables::of(desk) }));
        for (what, tables) in totals.chain(wrong_events(&mut random, desk)) {
            refused_alike(&desk.links, tables, &format!("{place}: {what}"));
        }
    });
}

/// Tables that aren't sound are refused by every call but set-up, and nothing is written; sound ones are shown.
fn refused_alike(links: &[Link], mut tables: Tables, what: &str) {
    let before = tables.clone();
    let show = Call::Show { link: 0, minute: tables.head.clock };
    let expected = match tables::read(links, &tables) {
        Err(refusal) => Answer::refused(refusal),
        Ok(mut desk) => desk.answer(&show),
    };
    for (which, answering) in DESKS {
        let mut asked = |call: &Call, expected: &Answer| {
            assert_eq!(answering(links, &mut tables, call), *expected, "{which}, {what}, {call:?}");
        };
        asked(&show, &expected);
        if let Answer::Refused(_) = expected {
            let request = Request::default();
            let list = Call::List(LIST_FIGURES, request);
            let sold = Call::Sold { link: u32::MAX };
            for call in [Call::Cancel(1), Call::MoveClock(0), Call::Book(0, request), Call::Offer(request), list, sold]
            {
                asked(&call, &expected);
            }
            let another_length = Call::List(LIST_FIGURES + 1, request);
            let thirteen = Answer::refused(13);
            asked(&another_length, if expected == Answer::refused(3) { &thirteen } else { &expected });
        }
        assert!(tables == before, "a refusal writes, {which}, {what}");
    }
}

#[test]
fn listings_on_desks_of_many_kinds() {
    let (mut count, mut ranges) = (0, 0);
    for seed in SEED..SEED + 4_000 {
        let _seed = Seed(seed);
        let mut random = Random::new(seed);
        let kind = KINDS[seed as usize % KINDS.len()];
        let desk = listings::desk(&mut random, kind);
        let mut tables = tables::of(&desk);
        for turn in 0..5 {
            let request = listings::request(&mut random, kind, &desk);
            let what = format!("seed {seed:#x}, turn {turn}, {request:?}");
            let [listed, fast, sets] = DESKS.map(|(which, answering)| {
                let answer = answering(&desk.links, &mut tables, &Call::List(LIST_FIGURES, request));
                let Answer::Listed(listed) = answer else { panic!("{which}, {what}: {answer:?}") };
                listed
            });
            assert_eq!(listings::fault(&mut random, &desk, &request, &listed), None, "{what}");
            assert!(fast == listed && sets == listed, "{what}: {listed:?} by the library, {fast:?}, {sets:?}");
            (count, ranges) = (count + 1, ranges + listed.len());
        }
    }
    println!("{count} listings with {ranges} ranges");
}

#[test]
fn sessions_through_the_programs() {
    for seed in SEED..SEED + 300 {
        let _seed = Seed(seed);
        let input = session(seed);
        let expected = output(&input);
        for path in [env!("CARGO_BIN_EXE_fast_orders"), env!("CARGO_BIN_EXE_sets_orders")] {
            let mut program =
                Command::new(path).stdin(Stdio::piped()).stdout(Stdio::piped()).spawn().expect("the program starts");
            program.stdin.take().expect("a pipe").write_all(&input).expect("the program reads all");
            let printed = program.wait_with_output().expect("the program ends").stdout;
            assert_eq!(String::from_utf8_lossy(&printed), expected, "{path}, seed {seed:#x}");
        }
    }
}
