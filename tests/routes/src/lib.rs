//! The compiled path search, called from Rust, with graphs to try it on. `reference` has searches written apart from it.

pub mod graphs;
pub mod reference;

/// The most links of a desk.
pub const LINKS: usize = 64;
/// The nodes that there may be.
pub const NODES: usize = 32;
/// The most links of a path.
pub const PATH_LINKS: usize = 31;
/// The figure of a node from which no chain leads to the destination.
pub const FAR: u32 = 32;

#[repr(C)]
#[derive(Clone, Copy)]
pub struct LinkEnds {
    pub count: usize,
    pub from: [u32; LINKS],
    pub to: [u32; LINKS],
}

#[repr(C)]
#[derive(Clone, Copy)]
pub struct LinkSet {
    pub bits: u64,
}

impl LinkSet {
    /// Every link.
    pub const ALL: LinkSet = LinkSet { bits: u64::MAX };

    /// No link.
    pub const NONE: LinkSet = LinkSet { bits: 0 };

    /// Whether the link is in the set.
    pub fn has(self, link: usize) -> bool {
        self.bits >> link & 1 == 1
    }

    /// Puts the link into the set, or takes it out.
    pub fn put(&mut self, link: usize, has: bool) {
        self.bits = self.bits & !(1 << link) | u64::from(has) << link;
    }
}

#[repr(C)]
#[derive(Clone, Copy, Debug, PartialEq, Eq)]
pub struct Path {
    pub count: u32,
    pub links: [u32; PATH_LINKS],
}

/// The rounds of a search: for each node the fewest links to the destination, or `FAR`; their number; and whether the last
/// reached a node.
#[repr(C)]
#[derive(Clone, Copy, Debug, PartialEq, Eq)]
pub struct RoundsDone {
    pub table: [u32; NODES],
    pub number: u32,
    pub reached: bool,
}

mod exported {
    use super::{LinkEnds, LinkSet, Path, RoundsDone};

    extern "C" {
        pub fn find_route(ends: LinkEnds, set: LinkSet, source: u32, destination: u32) -> Path;
        pub fn distances(ends: LinkEnds, set: LinkSet, destination: u32) -> RoundsDone;
    }
}

/// A question to the search.
#[derive(Clone, Copy)]
pub struct Question {
    pub ends: LinkEnds,
    pub set: LinkSet,
    pub source: u32,
    pub destination: u32,
}

impl Question {
    /// The links out of the node that can be used, in rising number.
    pub fn links_out(&self, node: u32) -> impl Iterator<Item = usize> + '_ {
        (0..self.ends.count).filter(move |&link| self.set.has(link) && self.ends.from[link] == node)
    }

    /// The question, where it meets what the compiled search requires: at most 64 links, their nodes 0 to 31.
    pub fn in_range(self) -> Option<InRange> {
        let node = |n: &u32| (*n as usize) < NODES;
        let count = self.ends.count;
        let fits = count <= LINKS && self.ends.from[..count].iter().chain(&self.ends.to[..count]).all(node);
        fits.then_some(InRange(self))
    }
}

/// A question that meets what the compiled search requires.
#[derive(Clone, Copy)]
pub struct InRange(Question);

impl InRange {
    /// The question itself, for other searches.
    pub fn question(&self) -> &Question {
        &self.0
    }
}

/// The compiled search.
pub fn find_route(InRange(q): &InRange) -> Path {
    // Safe: the question meets the `requires`, and the declaration is that of crates/path_search/src/lib.rt.
    unsafe { exported::find_route(q.ends, q.set, q.source, q.destination) }
}

/// The rounds beneath it.
pub fn distances(InRange(q): &InRange) -> RoundsDone {
    // Safe as above: `distances` requires the same.
    unsafe { exported::distances(q.ends, q.set, q.destination) }
}

/// A list of links as the search answers it: zero past its last link, and no link where there is no route.
pub fn as_path(links: Option<Vec<u32>>) -> Path {
    let list = links.unwrap_or_default();
    let mut path = Path { count: list.len() as u32, links: [0; PATH_LINKS] };
    path.links[..list.len()].copy_from_slice(&list);
    path
}
