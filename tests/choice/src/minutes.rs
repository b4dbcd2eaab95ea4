//! A chooser that tries every minute of the window, and for a refusal every minute of low's span, from the bookings alone, and
//! looks for a path by its length.

use crate::desk::Desk;
use crate::{ChoiceRecord, Question, PATH_LINKS};

/// The earliest minute with a path, with that path; or the minute at which every path from low on breaks off.
pub fn choose(desk: &Desk, q: &Question) -> ChoiceRecord {
    let lasts: Vec<Vec<u32>> = (0..desk.links.len()).map(|link| lasts(desk, link, q)).collect();
    for start in q.low..=q.latest {
        let usable = |link: usize| lasts[link][(start - q.low) as usize] >= q.duration;
        if let Some(path) = path(desk, &usable, q.source, q.destination) {
            return ChoiceRecord::start(start, &path);
        }
    }
    let from_low: Vec<u32> = lasts.iter().map(|minutes| minutes[0]).collect();
    ChoiceRecord::refused(break_off(desk, q, &from_low))
}

/// The first minute from low on such that no path has the bandwidth in each minute up to it, by the number of minutes from low on
/// in which each link has it; the end of low's span where a path has it throughout.
fn break_off(desk: &Desk, q: &Question, from_low: &[u32]) -> u32 {
    let mut searched = None;
    for minutes in 1..=q.duration {
        let usable: Vec<bool> = from_low.iter().map(|&lasts| minutes <= lasts).collect();
        // The same links have the same paths.
        if searched.as_ref() != Some(&usable) {
            if path(desk, &|link| usable[link], q.source, q.destination).is_none() {
                return q.low + minutes - 1;
            }
            searched = Some(usable);
        }
    }
    q.low + q.duration
}

/// For each minute from low to the latest start, and for low, the number of minutes from it on in which the link has the
/// bandwidth.
fn lasts(desk: &Desk, link: usize, q: &Question) -> Vec<u32> {
    let minutes = (q.latest.max(q.low) - q.low + q.duration) as usize;
    let mut taken = vec![0i64; minutes + 1];
    for b in desk.bookings.iter().filter(|b| b.links.contains(&link)) {
        let place = |minute: u32| (minute.saturating_sub(q.low) as usize).min(minutes);
        taken[place(b.start)] += b.bandwidth as i64;
        taken[place(b.end)] -= b.bandwidth as i64;
    }
    let mut sum = 0;
    let enough: Vec<bool> = taken[..minutes]
        .iter()
        .map(|change| {
            sum += change;
            desk.links[link].capacity as i64 - sum >= q.bandwidth as i64
        })
        .collect();
    let mut run = 0;
    let mut runs: Vec<u32> = enough
        .iter()
        .rev()
        .map(|&ok| {
            run = if ok { run + 1 } else { 0 };
            run
        })
        .collect();
    runs.reverse();
    runs
}

/// The first path, in the order of link numbers, of the least length that has one.
fn path(desk: &Desk, usable: &dyn Fn(usize) -> bool, source: u32, destination: u32) -> Option<Vec<u32>> {
    let links: Vec<usize> = (0..desk.links.len()).filter(|&l| usable(l)).collect();
    // hopeless[left][node]: no chain of `left` links leads from the node to the destination
    let mut hopeless = vec![[false; 32]; PATH_LINKS + 1];
    (1..=PATH_LINKS).find_map(|length| {
        let mut path = Vec::new();
        extend(desk, &links, source, destination, length, &mut hopeless, &mut path).then_some(path)
    })
}

fn extend(
    desk: &Desk,
    links: &[usize],
    node: u32,
    destination: u32,
    left: usize,
    hopeless: &mut [[bool; 32]],
    path: &mut Vec<u32>,
) -> bool {
    if left == 0 {
        return node == destination;
    }
    if hopeless[left][node as usize] {
        return false;
    }
    for &link in links.iter().filter(|&&l| desk.links[l].from == node) {
        path.push(link as u32);
        if extend(desk, links, desk.links[link].to, destination, left - 1, hopeless, path) {
            return true;
        }
        path.pop();
    }
    hopeless[left][node as usize] = true;
    false
}
