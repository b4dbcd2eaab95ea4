//! Times ways of the same work in one run, turn by turn, so that all meet the same machine.

use std::time::Instant;

/// Nanoseconds of a batch, and of all batches of the ways of one work.
const BATCH: f64 = 100e3;
const ALL: f64 = 1e9;

/// Runs `ours` and `plain` alternately and prints the least nanoseconds for each of `units` units of work, and their ratio.
pub fn compare(what: &str, units: u32, mut ours: impl FnMut(), mut plain: impl FnMut()) {
    let times = least(units, &mut [&mut ours, &mut plain]);
    let (ours, plain) = (times[0], times[1]);
    println!("{what}: proved {ours:.2} ns, plain Rust {plain:.2} ns, ratio {:.2}", ours / plain);
}

/// Runs the ways alternately; the least nanoseconds of each for one of `units` units of work.
pub fn least(units: u32, ways: &mut [&mut dyn FnMut()]) -> Vec<f64> {
    let mut best = vec![f64::MAX; ways.len()];
    for _ in 0..25 {
        for (best, way) in best.iter_mut().zip(ways.iter_mut()) {
            *best = best.min(nanoseconds(way));
        }
    }
    best.iter().map(|best| best / units as f64).collect()
}

/// Runs the ways in turn, each in batches of some 100 microseconds, for a second and 25 times at least; the least nanoseconds of each.
pub fn least_of_batches(ways: &mut [impl FnMut()]) -> Vec<f64> {
    let times = |way: &mut _| (BATCH / nanoseconds(way)).clamp(1.0, 100.0) as u32;
    ways.iter_mut().for_each(|way| way());
    let batches: Vec<u32> = ways.iter_mut().map(times).collect();
    let mut best = vec![f64::MAX; ways.len()];
    let start = Instant::now();
    let mut turn = 0;
    while turn < 25 || (start.elapsed().as_nanos() as f64) < ALL {
        for ((best, way), &times) in best.iter_mut().zip(ways.iter_mut()).zip(&batches) {
            *best = best.min(nanoseconds(&mut || (0..times).for_each(|_| way())) / f64::from(times));
        }
        turn += 1;
    }
    best
}

/// The nanoseconds that the work takes.
pub fn nanoseconds(work: &mut impl FnMut()) -> f64 {
    let start = Instant::now();
    work();
    start.elapsed().as_nanos() as f64
}

/// The heading of a table of ratios, with what its times are.
pub fn print_heading(times: &str) {
    println!("(i) proved / unverified as it stands, (ii) proved / unverified with the same algorithms; {times}");
    println!("{:<44}{:>10}{:>12}{:>18}{:>8}{:>8}", "", "proved", "unverified", "same algorithms", "(i)", "(ii)");
}

/// A row of it: the times of the proved work, the unverified as it stands, and that with the same algorithms.
pub fn print_ratios(what: &str, times: [f64; 3]) {
    let [proved, unverified, same] = times;
    let ratios = [proved / unverified, proved / same];
    println!("{what:<44}{proved:>10.2}{unverified:>12.2}{same:>18.2}{:>8.3}{:>8.2}", ratios[0], ratios[1]);
}
