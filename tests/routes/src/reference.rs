//! Two searches written apart from the compiled one: all simple paths, one by one; and the lowest chain of each length. And
//! what its rounds are to answer, found without rounds.

use crate::{Question, RoundsDone, FAR, NODES, PATH_LINKS};

/// All simple paths were more than could be tried.
#[derive(Debug, PartialEq, Eq)]
pub struct TooMany;

struct Trial<'a> {
    question: &'a Question,
    met: [bool; NODES],
    path: Vec<u32>,
    best: Option<Vec<u32>>,
    steps_left: u32,
}

impl Trial<'_> {
    fn from(&mut self, node: u32) -> Result<(), TooMany> {
        for link in self.question.links_out(node) {
            self.steps_left = self.steps_left.checked_sub(1).ok_or(TooMany)?;
            let end = self.question.ends.to[link];
            self.path.push(link as u32);
            if end == self.question.destination {
                self.offer();
            } else if !self.met[end as usize] {
                self.met[end as usize] = true;
                self.from(end)?;
                self.met[end as usize] = false;
            }
            self.path.pop();
        }
        Ok(())
    }

    fn offer(&mut self) {
        let better = match &self.best {
            None => true,
            Some(best) => (self.path.len(), &self.path) < (best.len(), best),
        };
        if better && self.path.len() <= PATH_LINKS {
            self.best = Some(self.path.clone());
        }
    }
}

/// Of all simple paths, or ways back to the source, the one of fewest links, the lowest of these.
pub fn of_all_simple_paths(question: &Question, steps: u32) -> Result<Option<Vec<u32>>, TooMany> {
    let mut trial = Trial { question, met: [false; NODES], path: Vec::new(), best: None, steps_left: steps };
    if let Some(met) = trial.met.get_mut(question.source as usize) {
        *met = true;
    }
    trial.from(question.source)?;
    Ok(trial.best)
}

/// For each length in turn the lowest chain of that length from each node; the first length that the source has.
pub fn by_length(question: &Question) -> Option<Vec<u32>> {
    let mut lowest: Vec<Option<Vec<u32>>> = vec![None; NODES];
    if let Some(at) = lowest.get_mut(question.destination as usize) {
        *at = Some(Vec::new());
    }
    for _ in 0..PATH_LINKS {
        let longer = |node: u32| {
            question
                .links_out(node)
                .filter_map(|link| {
                    let rest = lowest[question.ends.to[link] as usize].as_ref()?;
                    Some(std::iter::once(link as u32).chain(rest.iter().copied()).collect::<Vec<u32>>())
                })
                .min()
        };
        let next: Vec<Option<Vec<u32>>> = (0..NODES as u32).map(longer).collect();
        if let Some(Some(found)) = next.get(question.source as usize) {
            return Some(found.clone());
        }
        lowest = next;
    }
    None
}

/// The fewest links between any two nodes, by the nodes that lie between; from there the links that each node needs to the
/// destination, and one more than the most that any needs.
pub fn without_rounds(question: &Question) -> RoundsDone {
    let mut links = [[None; NODES]; NODES];
    for from in 0..NODES {
        for link in question.links_out(from as u32) {
            links[from][question.ends.to[link] as usize] = Some(1);
        }
        links[from][from] = Some(0);
    }
    for between in 0..NODES {
        for from in 0..NODES {
            for to in 0..NODES {
                let by = links[from][between].zip(links[between][to]).map(|(a, b): (u32, u32)| a + b);
                links[from][to] = links[from][to].into_iter().chain(by).min();
            }
        }
    }
    let needed = links.map(|row| row.get(question.destination as usize).copied().flatten());
    let most = needed.iter().copied().flatten().max().unwrap_or(0);
    RoundsDone { table: needed.map(|links| links.unwrap_or(FAR)), number: most + 1, reached: false }
}
