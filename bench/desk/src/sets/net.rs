//! The path search on sets of links and of nodes as bits.

use desk_tests::{Link, LINKS, NODES, PATH_LINKS};

use crate::shared::{members, Path};

/// The number of links, their ends, and the links out of each node and into it.
pub struct Net {
    pub count: usize,
    from: [u8; LINKS],
    to: [u8; LINKS],
    out: [u64; NODES],
    into: [u64; NODES],
}

/// A path, and its links as a set.
pub struct Route {
    pub path: Path,
    pub count: u32,
    pub set: u64,
}

impl Net {
    /// The net of valid links, of which there are 64 at most.
    pub fn new(links: &[Link]) -> Net {
        let mut net = Net { count: links.len(), from: [0; LINKS], to: [0; LINKS], out: [0; NODES], into: [0; NODES] };
        for (number, link) in links.iter().enumerate() {
            (net.from[number], net.to[number]) = (link.from as u8, link.to as u8);
            net.out[link.from as usize % NODES] |= 1 << number;
            net.into[link.to as usize % NODES] |= 1 << number;
        }
        net
    }

    /// The best path over usable links; where there is none, a cut: links of which every path has one, none of them usable.
    pub fn search(&self, usable: u64, from: u32, to: u32) -> Result<Route, u64> {
        // For each number of hops the usable links into the nodes that are so far from the destination.
        let mut nearer = [0; NODES];
        let mut hops = 0;
        let mut reached = 1u32 << to;
        let mut met = reached;
        while met >> from & 1 == 0 {
            let links = self.into(reached) & usable;
            reached = self.sources(links) & !met;
            if reached == 0 {
                return Err(self.into(met) & !self.out(met));
            }
            met |= reached;
            nearer[hops % NODES] = links;
            hops += 1;
        }
        Ok(self.walk(from, &nearer[..hops]))
    }

    /// The walk from a node: at each the lowest link that leads one hop nearer.
    fn walk(&self, from: u32, nearer: &[u64]) -> Route {
        let mut route = Route { path: [0; PATH_LINKS], count: nearer.len() as u32, set: 0 };
        let mut node = from as usize;
        for (place, links) in route.path.iter_mut().zip(nearer.iter().rev()) {
            let link = (self.out[node % NODES] & links).trailing_zeros();
            *place = link;
            route.set |= 1 << link;
            node = self.to[link as usize % LINKS] as usize;
        }
        route
    }

    /// The links into any of the nodes.
    fn into(&self, nodes: u32) -> u64 {
        members(nodes.into()).fold(0, |links, node| links | self.into[node % NODES])
    }

    /// The links out of any of the nodes.
    fn out(&self, nodes: u32) -> u64 {
        members(nodes.into()).fold(0, |links, node| links | self.out[node % NODES])
    }

    /// The nodes that the links come from.
    fn sources(&self, links: u64) -> u32 {
        members(links).fold(0, |nodes, link| nodes | 1 << (self.from[link] % NODES as u8))
    }
}
