//! The path search in plain Rust, which the proved one is timed beside: distances to the destination, in rounds over the
//! links as the library makes them or breadth-first with a queue, and the walk along them; how long the links last, and where
//! every path breaks off.

/// The most links of a desk, and the figures of a row.
pub const LINKS: usize = 64;
/// The nodes that there may be.
pub const NODES: usize = 32;
/// The most links of a path.
pub const PATH_LINKS: usize = 31;

const FAR: u32 = NODES as u32;

/// The links that can be used.
pub type Usable = [bool; LINKS];
/// The distance of each node to the destination.
pub type Distances = [u32; NODES];
/// The minute of each link at which it lacks the bandwidth first.
pub type Minutes = [u32; LINKS];

/// The ends of the links, of which there are 64 at most.
#[derive(Clone, Copy)]
pub struct Ends<'a> {
    pub from: &'a [u32],
    pub to: &'a [u32],
}

/// A path: its count of links, and their numbers, zero past the last.
pub struct Path {
    pub count: usize,
    pub links: [u32; PATH_LINKS],
}

/// For each link the first minute from `start` on at which it has less than the bandwidth, by the events and rows of a span;
/// `end` where there is none. Rows are looked at from the last back, as the library looks at them.
pub fn until(events: &[u32], rows: &[u32], bandwidth: u32, start: u32, end: u32) -> Minutes {
    let mut until = [end; LINKS];
    for (&event, row) in events.iter().zip(rows.chunks_exact(LINKS)).rev() {
        let minute = event.max(start);
        for (until, &figure) in until.iter_mut().zip(row) {
            *until = if figure < bandwidth { minute } else { *until };
        }
    }
    until
}

/// The first minute from low on such that no path has the bandwidth throughout low to it, or `end`. Paths are searched only where
/// a link lacks it first, as in the library.
pub fn break_off(until: &Minutes, low: u32, end: u32, leads: impl Fn(&Usable) -> bool) -> u32 {
    let mut minute = low;
    while minute < end && leads(&until.map(|until| minute < until)) {
        minute = until.iter().copied().filter(|&until| minute < until).fold(end, u32::min);
    }
    minute
}

/// The distances in rounds over all links, until one reaches no node.
pub fn rounds(ends: Ends, usable: &Usable, destination: u32) -> Distances {
    let mut distance = [FAR; NODES];
    distance[destination as usize] = 0;
    let mut near = 0;
    let mut reached = true;
    while reached {
        reached = false;
        for ((&from, &to), &usable) in ends.from.iter().zip(ends.to).zip(usable) {
            let (from, to) = (from as usize, to as usize);
            if usable && distance[to] == near && near < distance[from] {
                distance[from] = near + 1;
                reached = true;
            }
        }
        near += 1;
    }
    distance
}

/// The same with a queue; the links into a node are chained through arrays.
pub fn queue(ends: Ends, usable: &Usable, destination: u32) -> Distances {
    const NONE: u8 = u8::MAX;
    let mut first_in = [NONE; NODES];
    let mut next_in = [NONE; LINKS];
    for (link, ((next, &to), &usable)) in next_in.iter_mut().zip(ends.to).zip(usable).enumerate() {
        if usable {
            *next = first_in[to as usize];
            first_in[to as usize] = link as u8;
        }
    }
    let mut distance = [FAR; NODES];
    distance[destination as usize] = 0;
    let mut queue = [0; NODES];
    queue[0] = destination;
    let (mut taken, mut put) = (0, 1);
    while taken < put {
        let node = queue[taken] as usize;
        taken += 1;
        let mut link = first_in[node];
        while link != NONE {
            let from = ends.from[link as usize] as usize;
            if distance[from] == FAR {
                distance[from] = distance[node] + 1;
                queue[put] = from as u32;
                put += 1;
            }
            link = next_in[link as usize];
        }
    }
    distance
}

/// The walk from the source: at each node the lowest usable link whose end is one nearer.
pub fn walk(ends: Ends, usable: &Usable, distance: &Distances, source: u32, destination: u32) -> Option<Path> {
    if distance[source as usize] == FAR {
        return None;
    }
    let mut path = Path { count: 0, links: [0; PATH_LINKS] };
    let mut node = source;
    while node != destination {
        let nearer = |&link: &usize| {
            usable[link] && ends.from[link] == node && distance[ends.to[link] as usize] + 1 == distance[node as usize]
        };
        let link = (0..ends.from.len()).find(nearer)?;
        path.links[path.count] = link as u32;
        path.count += 1;
        node = ends.to[link];
    }
    Some(path)
}
