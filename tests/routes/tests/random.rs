//! The compiled search against the two reference searches, and its rounds against the reference without rounds, on random
//! graphs with fixed seeds.

use routes_tests::graphs::{full_question, question};
use routes_tests::reference::{by_length, of_all_simple_paths, without_rounds, TooMany};
use routes_tests::{as_path, distances, find_route, Question};

const GRAPHS: u64 = 60_000;
const FULL_GRAPHS: u64 = 10_000;
const STEPS: u32 = 20_000;

struct Compared {
    count: u32,
    rounds: u32,
    tried_all: bool,
}

/// Compares on one question: the count of links and of rounds, and whether all simple paths could be tried.
fn compare(kind: &str, seed: u64, q: &Question) -> Compared {
    let in_range = q.in_range().unwrap();
    let answer = find_route(&in_range);
    assert_eq!(answer, as_path(by_length(q)), "{kind}, seed {seed}: by length");
    let all = of_all_simple_paths(q, STEPS);
    let tried_all = all != Err(TooMany);
    if let Ok(best) = all {
        assert_eq!(answer, as_path(best), "{kind}, seed {seed}: of all simple paths");
    }
    let done = distances(&in_range);
    assert_eq!(done, without_rounds(q), "{kind}, seed {seed}: rounds");
    Compared { count: answer.count, rounds: done.number, tried_all }
}

#[test]
fn agrees_with_the_references() {
    let mut tried_all = 0;
    let mut found = [0; 32];
    let mut rounds = [0; 33];
    for seed in 0..GRAPHS {
        let compared = compare("question", seed, &question(seed));
        tried_all += compared.tried_all as u32;
        found[compared.count as usize] += 1;
        rounds[compared.rounds as usize] += 1;
    }
    println!("{GRAPHS} graphs, all simple paths tried on {tried_all}; routes by count of links: {found:?}");
    println!("searches by number of rounds: {rounds:?}");
    assert!(tried_all > GRAPHS as u32 / 2);
    assert!(found[0] > 5_000 && found[1] > 5_000 && found[2] > 1_000 && found[20..].iter().sum::<u32>() > 100);
    assert!(rounds[1..8].iter().all(|&n| n > 1_000) && rounds[32] > 10);
}

#[test]
fn agrees_on_full_graphs() {
    let tried_all =
        (0..FULL_GRAPHS).filter(|&seed| compare("full question", seed, &full_question(seed)).tried_all).count();
    println!("{FULL_GRAPHS} graphs of 32 nodes and 64 links, all simple paths tried on {tried_all}");
}
