//! Random questions, each made from a seed.

use crate::{LinkEnds, LinkSet, Question, LINKS, NODES};
use support::Random;

/// How the links of a question lie.
#[derive(Clone, Copy, Debug, PartialEq, Eq)]
pub enum Shape {
    /// Ends drawn from all nodes.
    Any,
    /// Most links lead from a node to the next, so that routes are long; the others lie anywhere.
    Line,
    /// Few pairs of nodes, so that many links are parallel.
    Parallel,
    /// Two links in three lead into the source or out of the destination.
    Against,
}

pub const SHAPES: [Shape; 4] = [Shape::Any, Shape::Line, Shape::Parallel, Shape::Against];

/// A question of 2 to 32 nodes and 1 to 64 links. Half have 49 links or more, and half have every
/// link usable. Places past the last link hold any number. Some ask for the way from a node back to
/// itself, and one in 64 for a node that no link can have.
pub fn question(seed: u64) -> Question {
    let mut random = Random::new(seed);
    let shape = SHAPES[random.below(4) as usize];
    let nodes = 2 + random.below(NODES as u64 - 1);
    let sparse = random.once_in(2);
    let count = if sparse { 1 + random.below(LINKS as u64) } else { LINKS as u64 - random.below(16) } as usize;
    let source = random.below(nodes);
    let destination = if random.once_in(16) { source } else { random.below(nodes) };
    let mut ends = LinkEnds { count, from: [0; LINKS], to: [0; LINKS] };
    for link in 0..LINKS {
        let (from, to) = if link < count {
            link_of(&mut random, shape, nodes, link as u64, source, destination)
        } else {
            (random.next() >> 32, random.next() >> 32)
        };
        ends.from[link] = from as u32;
        ends.to[link] = to as u32;
    }
    let share = if random.once_in(2) { 8 } else { random.below(9) };
    let mut set = LinkSet::NONE;
    for link in 0..LINKS {
        set.put(link, random.below(8) < share);
    }
    let past = random.once_in(64);
    Question {
        ends,
        set,
        source: source as u32,
        destination: if past { NODES as u32 + random.below(9) as u32 } else { destination as u32 },
    }
}

fn link_of(random: &mut Random, shape: Shape, nodes: u64, link: u64, source: u64, destination: u64) -> (u64, u64) {
    let from = random.below(nodes);
    let to = random.below(nodes);
    match shape {
        Shape::Any => (from, to),
        Shape::Line if random.once_in(24) => (from, to),
        Shape::Line => (link % nodes, (link + 1) % nodes),
        Shape::Parallel => (from % 4, to % 4),
        Shape::Against if random.once_in(3) => (from, source),
        Shape::Against if random.once_in(2) => (destination, to),
        Shape::Against => (from, to),
    }
}

/// A question of 32 nodes and 64 links between different nodes, from a node to another; one link in eight can't be used.
pub fn full_question(seed: u64) -> Question {
    random_question(seed, NODES, LINKS)
}

/// The same of so many nodes, and links.
pub fn random_question(seed: u64, nodes: usize, count: usize) -> Question {
    let mut random = Random::new(seed);
    let nodes = nodes as u64;
    let other = |random: &mut Random, node: u64| (node + 1 + random.below(nodes - 1)) % nodes;
    let mut ends = LinkEnds { count, from: [0; LINKS], to: [0; LINKS] };
    let mut set = LinkSet::ALL;
    for link in 0..count {
        let from = random.below(nodes);
        ends.from[link] = from as u32;
        ends.to[link] = other(&mut random, from) as u32;
        set.put(link, !random.once_in(8));
    }
    let source = random.below(nodes);
    let destination = other(&mut random, source);
    Question { ends, set, source: source as u32, destination: destination as u32 }
}

/// The longest search: 32 nodes in a line, a link each way between neighbours, from one end to the other.
pub fn line_question() -> Question {
    let last = NODES as u32 - 1;
    let mut ends = LinkEnds { count: 2 * (NODES - 1), from: [0; LINKS], to: [0; LINKS] };
    for node in 0..last {
        let link = 2 * node as usize;
        (ends.from[link], ends.to[link]) = (node, node + 1);
        (ends.from[link + 1], ends.to[link + 1]) = (node + 1, node);
    }
    Question { ends, set: LinkSet::ALL, source: 0, destination: last }
}
