//! The families' parts, worked on side by side.

use crate::desk::Desk;
use crate::families::{ALL, Family};
use crate::part::Part;
use crate::spoil::Spoil;
use std::panic::{AssertUnwindSafe, catch_unwind};
use std::sync::Mutex;
use std::sync::atomic::{AtomicUsize, Ordering};
use std::time::{Duration, Instant};

/// Each family is cut into so many parts, however many threads there are.
const PARTS: usize = 4;

/// Rounds of a long run, if no number is named: some 4 minutes on two cores; 80 take some 30.
pub const LONG: usize = 10;

/// What a family came to.
#[derive(Default, Clone, Copy)]
struct Sum {
    cases: u64,
    asked: u64,
    by: [u64; 15],
    time: Duration,
}

struct Job {
    family: usize,
    part: Part,
}

/// Runs all families, spoilt on purpose or not; exits with 1 at the first difference.
pub fn run(rounds: usize, long: bool, spoil: Option<Spoil>) {
    let jobs = jobs(rounds, long);
    let next = AtomicUsize::new(0);
    let sums = Mutex::new([Sum::default(); ALL.len()]);
    let threads = std::env::var("COMPARE_THREADS").map_or(2, |n| n.parse().expect("a count"));
    std::thread::scope(|scope| {
        for _ in 0..threads {
            scope.spawn(|| {
                while let Some(job) = jobs.get(next.fetch_add(1, Ordering::Relaxed)) {
                    let sum = worked(&ALL[job.family], job.part, spoil);
                    let mut sums = sums.lock().unwrap();
                    let of = &mut sums[job.family];
                    of.cases += sum.cases;
                    of.asked += sum.asked;
                    (0..15).for_each(|n| of.by[n] += sum.by[n]);
                    of.time += sum.time;
                }
            });
        }
    });
    told(&sums.into_inner().unwrap());
}

/// The families that are taken in full only in the first round.
fn jobs(rounds: usize, long: bool) -> Vec<Job> {
    let mut jobs = Vec::new();
    for round in 0..rounds {
        for (family, kind) in ALL.iter().enumerate() {
            for index in (0..PARTS).filter(|_| round == 0 || !kind.once) {
                let of = PARTS;
                let part = Part {
                    index,
                    of,
                    round,
                    long,
                };
                jobs.push(Job { family, part });
            }
        }
    }
    jobs
}

fn worked(family: &Family, part: Part, spoil: Option<Spoil>) -> Sum {
    let begun = Instant::now();
    let mut desk = Desk::new();
    desk.spoil = spoil;
    // The panic has already printed the input.
    if catch_unwind(AssertUnwindSafe(|| (family.run)(&mut desk, part))).is_err() {
        eprintln!(
            "differs: {}, {part:?}, after {} cases",
            family.name, desk.cases
        );
        std::process::exit(1);
    }
    Sum {
        cases: desk.cases,
        asked: desk.asked,
        by: desk.by,
        time: begun.elapsed(),
    }
}

fn told(sums: &[Sum]) {
    for (family, sum) in ALL.iter().zip(sums) {
        let (cases, asked, time) = (sum.cases, sum.asked, sum.time.as_secs_f32());
        println!(
            "{cases:>10} cases, the Rust asked in {asked:>9}, {time:>6.1} s: {}",
            family.name
        );
    }
    let cases: u64 = sums.iter().map(|s| s.cases).sum();
    let asked: u64 = sums.iter().map(|s| s.asked).sum();
    let by = |n: usize| sums.iter().map(|s| s.by[n]).sum::<u64>();
    let refused: Vec<String> = (1..15).map(|n| format!("{n}: {}", by(n))).collect();
    println!("accepted {}, refused by {}", by(0), refused.join(", "));
    println!("the Rust asked in {asked}");
    println!("{cases} cases, 0 differ");
}
