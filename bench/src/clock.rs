//! Pieces of work measured side by side: batches of each by turns, so that what slows the machine slows all of them.
use std::time::Instant;

/// A piece of work.
pub type Work<'a> = &'a mut dyn FnMut();

const BATCHES: usize = 31;

/// A line of a table: what, then the Rust's time and ours, ratios first, over 1 where ours is faster. The first piece
/// of work is the Rust's; a time is the median of its batches in nanoseconds for each of `units` units.
pub fn race<const N: usize>(what: &str, units: usize, places: usize, mut works: [Work; N]) {
    let turns: Vec<usize> = works.iter_mut().map(turns).collect();
    let mut times = vec![Vec::new(); N];
    for _ in 0..BATCHES {
        for (i, work) in works.iter_mut().enumerate() {
            times[i].push(batch(work, turns[i]) / (turns[i] * units) as f64);
        }
    }
    let medians: Vec<f64> = times.into_iter().map(median).collect();
    let ratios: Vec<String> = medians[1..]
        .iter()
        .map(|ours| ratio(medians[0] / ours))
        .collect();
    let times: Vec<String> = medians.iter().map(|t| format!("{t:.places$}")).collect();
    println!(
        "| {} | {what} | {} |",
        ratios.join(" | "),
        times.join(" | ")
    );
}

/// Two digits where one would be 0.
fn ratio(ratio: f64) -> String {
    let places = if ratio < 0.1 { 2 } else { 1 };
    format!("{ratio:.places$}")
}

/// How many turns make a batch of two milliseconds or more.
fn turns(work: &mut Work) -> usize {
    let mut turns = 1;
    while batch(work, turns) < 2e6 {
        turns *= 2;
    }
    turns
}

fn batch(work: &mut Work, turns: usize) -> f64 {
    let begun = Instant::now();
    (0..turns).for_each(|_| work());
    begun.elapsed().as_nanos() as f64
}

fn median(mut times: Vec<f64>) -> f64 {
    times.sort_by(f64::total_cmp);
    times[times.len() / 2]
}
