//! The compiled search on graphs whose routes are known, and the rounds beneath it.

use routes_tests::graphs::line_question;
use routes_tests::{distances, LinkEnds, LinkSet, Path, Question, FAR, LINKS, NODES, PATH_LINKS};

fn ask(links: &[(u32, u32)], source: u32, destination: u32) -> Question {
    let mut ends = LinkEnds { count: links.len(), from: [7; LINKS], to: [9; LINKS] };
    for (link, &(from, to)) in links.iter().enumerate() {
        ends.from[link] = from;
        ends.to[link] = to;
    }
    Question { ends, set: LinkSet::ALL, source, destination }
}

fn find_route(q: &Question) -> Path {
    routes_tests::find_route(&q.in_range().unwrap())
}

fn path(links: &[u32]) -> Path {
    routes_tests::as_path(Some(links.to_vec()))
}

/// Node n to node n + 1, and the last to the first.
fn ring(nodes: usize) -> Vec<(u32, u32)> {
    (0..nodes).map(|n| (n as u32, ((n + 1) % nodes) as u32)).collect()
}

#[test]
fn session_of_document_01() {
    let links = [(0, 1), (1, 2), (0, 2)];
    let mut q = ask(&links, 0, 2);
    assert_eq!(find_route(&q), path(&[2]));
    q.set.put(2, false);
    assert_eq!(find_route(&q), path(&[0, 1]));
    q.set.put(1, false);
    assert_eq!(find_route(&q), path(&[]));
}

#[test]
fn lower_number_at_the_first_difference() {
    // links 0 and 3 lead by node 1, links 1 and 2 by node 3: the first difference decides, not the last
    assert_eq!(find_route(&ask(&[(0, 1), (0, 3), (3, 2), (1, 2)], 0, 2)), path(&[0, 3]));
    // parallel links
    assert_eq!(find_route(&ask(&[(1, 0), (0, 1), (0, 1)], 0, 1)), path(&[1]));
    // fewer links come before lower numbers
    assert_eq!(find_route(&ask(&[(0, 1), (1, 2), (0, 2)], 0, 2)), path(&[2]));
}

#[test]
fn longest_routes() {
    let all = ring(NODES);
    let line: Vec<u32> = (0..PATH_LINKS as u32).collect();
    assert_eq!(find_route(&ask(&all, 0, NODES as u32 - 1)), path(&line));
    // back to the source: 31 links fit a path, 32 do not
    assert_eq!(find_route(&ask(&ring(NODES - 1), 0, 0)), path(&line));
    assert_eq!(find_route(&ask(&all, 0, 0)), path(&[]));
}

#[test]
fn nothing_to_use() {
    let mut q = ask(&ring(5), 0, 3);
    q.set = LinkSet::NONE;
    assert_eq!(find_route(&q), path(&[]));
    q.ends.count = 0;
    assert_eq!(find_route(&q), path(&[]));
}

fn rounds(q: &Question) -> u32 {
    let done = distances(&q.in_range().unwrap());
    assert!(!done.reached);
    done.number
}

#[test]
fn one_round_more_than_the_most_links_needed() {
    // document 01's session: both other nodes are one link away, and the second round reaches nothing
    assert_eq!(rounds(&ask(&[(0, 1), (1, 2), (0, 2)], 0, 2)), 2);
    // a ring of 8 nodes both ways: the node opposite needs 4 links
    let both_ways: Vec<(u32, u32)> = ring(8).into_iter().flat_map(|(a, b)| [(a, b), (b, a)]).collect();
    assert_eq!(rounds(&ask(&both_ways, 0, 4)), 5);
    // the longest: 31 rounds that each reach a node, and one that reaches none
    assert_eq!(rounds(&line_question()), 32);
    assert_eq!(rounds(&ask(&ring(NODES), 30, 31)), 32);
}

#[test]
fn rounds_go_on_beyond_the_source() {
    // 3 to 2 to 1 to 0: the source, node 1, is reached by the first round
    let q = ask(&[(3, 2), (2, 1), (1, 0)], 1, 0);
    assert_eq!(find_route(&q), path(&[2]));
    let done = distances(&q.in_range().unwrap());
    assert_eq!(done.table[..5], [0, 1, 2, 3, FAR]);
    assert_eq!(done.number, 4);
}

#[test]
fn one_round_that_reaches_nothing() {
    let mut q = ask(&ring(5), 0, 3);
    q.set = LinkSet::NONE;
    assert_eq!(rounds(&q), 1);
    q.ends.count = 0;
    assert_eq!(rounds(&q), 1);
    // a destination that no link can have
    assert_eq!(rounds(&ask(&ring(5), 0, NODES as u32)), 1);
}
