//! The compiled path search beside plain Rust, in one run: searches in the same rounds, with a queue on arrays, and with lists
//! on the heap. Linked with the search of an earlier revision (`BEFORE=REVISION bash bench/run routes`) it times that too.
//! All answer the same questions, which are made before the clock starts.

use plain_search::{queue, rounds, walk, Distances, Ends, Usable};
use routes_tests::graphs::{line_question, random_question};
use routes_tests::{as_path, find_route, InRange, Path, Question, LINKS, NODES};
use std::collections::VecDeque;
use std::hint::black_box;
use timing::least;

const GRAPHS: u64 = 1_024;

/// A question, with the links that can be used as each way has them.
struct Asked {
    compiled: InRange,
    usable: Usable,
}

impl Asked {
    fn new(question: Question) -> Asked {
        let usable = std::array::from_fn(|link| question.set.has(link));
        Asked { compiled: question.in_range().unwrap(), usable }
    }

    fn question(&self) -> &Question {
        self.compiled.question()
    }
}

/// A way to answer a question.
type Way = fn(&Asked) -> Path;

fn compiled(asked: &Asked) -> Path {
    find_route(&asked.compiled)
}

/// The links that can be used, as the search of an earlier revision takes them.
#[cfg(before_flags)]
#[repr(C)]
struct SetBefore {
    has: Usable,
}

#[cfg(all(before, not(before_flags)))]
use routes_tests::LinkSet as SetBefore;

#[cfg(before_flags)]
fn set_before(asked: &Asked) -> SetBefore {
    SetBefore { has: asked.usable }
}

#[cfg(all(before, not(before_flags)))]
fn set_before(asked: &Asked) -> SetBefore {
    asked.question().set
}

/// The compiled search of an earlier revision.
#[cfg(before)]
fn before(asked: &Asked) -> Path {
    use routes_tests::LinkEnds;
    extern "C" {
        fn find_route_before(ends: LinkEnds, set: SetBefore, source: u32, destination: u32)
            -> Path;
    }
    let q = asked.question();
    // Safe: the question is in range, and the set has the form that the revision declares (bench/run looks).
    unsafe { find_route_before(q.ends, set_before(asked), q.source, q.destination) }
}

fn same_rounds(asked: &Asked) -> Path {
    on_arrays(asked, rounds)
}

fn with_queue(asked: &Asked) -> Path {
    on_arrays(asked, queue)
}

/// Plain Rust with no list on the heap.
#[inline(always)]
fn on_arrays(asked: &Asked, distances: impl Fn(Ends, &Usable, u32) -> Distances) -> Path {
    let q = asked.question();
    let ends = Ends { from: &q.ends.from[..q.ends.count], to: &q.ends.to[..q.ends.count] };
    let distance = distances(ends, &asked.usable, q.destination);
    match walk(ends, &asked.usable, &distance, q.source, q.destination) {
        Some(path) => Path { count: path.count as u32, links: path.links },
        None => as_path(None),
    }
}

/// Breadth-first from the destination, then the lowest link that leads one nearer.
fn on_the_heap(asked: &Asked) -> Path {
    let q = asked.question();
    let mut links_in: Vec<Vec<usize>> = vec![Vec::new(); NODES];
    for link in 0..q.ends.count {
        if q.set.has(link) {
            links_in[q.ends.to[link] as usize].push(link);
        }
    }
    let mut distance: Vec<Option<u32>> = vec![None; NODES];
    distance[q.destination as usize] = Some(0);
    let mut queue = VecDeque::from([(q.destination, 0)]);
    while let Some((node, links)) = queue.pop_front() {
        for &link in &links_in[node as usize] {
            let from = q.ends.from[link];
            if distance[from as usize].is_none() {
                distance[from as usize] = Some(links + 1);
                queue.push_back((from, links + 1));
            }
        }
    }
    let mut path = Vec::new();
    let mut node = q.source;
    while node != q.destination {
        let Some(links) = distance[node as usize] else {
            return as_path(None);
        };
        let nearer = |&link: &usize| distance[q.ends.to[link] as usize] == Some(links - 1);
        let link = q.links_out(node).find(nearer).unwrap();
        path.push(link as u32);
        node = q.ends.to[link];
    }
    as_path(Some(path))
}

/// Times every way on the questions, and prints the compiled search's time beside each.
fn run(what: &str, questions: impl Iterator<Item = Question>) {
    let asked: Vec<Asked> = questions.map(Asked::new).collect();
    let ways: &[(&str, Way)] = &[
        ("compiled", compiled),
        #[cfg(before)]
        ("compiled before", before),
        ("same rounds", same_rounds),
        ("queue on arrays", with_queue),
        ("lists on the heap", on_the_heap),
    ];
    for (name, way) in ways {
        for (seed, asked) in asked.iter().enumerate() {
            assert_eq!(way(asked), compiled(asked), "{what}, {name}, seed {seed}");
        }
    }
    let each = |way: &Way| {
        for asked in &asked {
            black_box(way(black_box(asked)));
        }
    };
    let mut work: Vec<_> = ways.iter().map(|(_, way)| move || each(way)).collect();
    let mut work: Vec<&mut dyn FnMut()> = work.iter_mut().map(|work| work as &mut dyn FnMut()).collect();
    let times = least(asked.len() as u32, &mut work);
    println!("{what}");
    for ((name, _), time) in ways.iter().zip(&times) {
        println!("  {name:18} {time:6.0} ns, ratio {:.2}", times[0] / time);
    }
}

fn main() {
    let random = |nodes: usize, links: usize| (0..GRAPHS).map(move |seed| random_question(seed, nodes, links));
    run("8 nodes, 16 links", random(8, 16));
    run("8 nodes, 64 links", random(8, LINKS));
    run("32 nodes in a line, 62 links", (0..GRAPHS).map(|_| line_question()));
    run("32 nodes, 64 links", random(NODES, LINKS));
}
