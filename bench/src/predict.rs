//! Predict: a batch of windows in one call, and a call for each window, beside `eval`.
use crate::{clock, ours};
use lookahead::Mode;
use lookahead::lent::{self, WINDOWS};
use oracle::Table;
use oracle::make::{self, Dice};
use oracle::rust::Walker;
use parol_runtime::TokenStream;
use std::hint::black_box;

fn table(dice: &mut Dice, rows: usize, k: usize) -> Table {
    let terminals: Vec<u16> = (5..(rows as u16 / 2).clamp(8, 60)).collect();
    let productions: Vec<i32> = (0..8).collect();
    let size = make::Size {
        states: rows + 1,
        rows,
        terminals: &terminals,
        productions: &productions,
        gaps: false,
    };
    let mut made = make::tree(dice, &size);
    made.k = k;
    made
}

/// Tokens that follow the rows, with a stray one here and there.
fn window(dice: &mut Dice, t: &Table) -> Vec<u16> {
    let mut state = 0;
    let mut tokens = Vec::new();
    while tokens.len() < t.k {
        let leaving: Vec<&[i32]> = t.rows.chunks_exact(4).filter(|r| r[0] == state).collect();
        if leaving.is_empty() || dice.below(8) == 0 {
            tokens.push(dice.below(70) as u16);
        } else {
            let row = leaving[dice.below(leaving.len())];
            state = row[2];
            tokens.push(row[1] as u16);
        }
    }
    tokens
}

/// How many tables of one size: one alone could favour either side.
const TABLES: usize = 8;

/// A table with a full batch of windows, each alone and all in a row.
struct Set {
    table: Table,
    windows: Vec<Vec<u16>>,
    all: Vec<u16>,
}

impl Set {
    fn new(dice: &mut Dice, rows: usize, k: usize) -> Set {
        let table = table(dice, rows, k);
        let windows: Vec<_> = (0..WINDOWS).map(|_| window(dice, &table)).collect();
        let all = windows.iter().flatten().copied().collect();
        assert_eq!(Ok(()), lent::check(ours(&table)));
        Set {
            table,
            windows,
            all,
        }
    }
}

/// The Rust's `eval`, its streams made beforehand; all windows of a table in one call; a call for each.
fn of_size(dice: &mut Dice, rows: usize, k: usize) {
    let sets: Vec<_> = (0..TABLES).map(|_| Set::new(dice, rows, k)).collect();
    let mut asked: Vec<_> = sets
        .iter()
        .map(|s| {
            let streams = s.windows.iter().map(|w| TokenStream::lent(w, k));
            (Walker::new(s.table.lent()), streams.collect::<Vec<_>>())
        })
        .collect();
    let mut evals = || {
        for (walker, streams) in &mut asked {
            for stream in streams {
                let _ = black_box(walker.eval(stream));
            }
        }
    };
    let mut answers = [0; WINDOWS];
    let mut batches = || {
        for s in &sets {
            let t = ours(&s.table);
            let said = lent::batch(Mode::Archive, t, k, WINDOWS, &s.all, &mut answers);
            let _ = black_box(said);
        }
    };
    let mut calls = || {
        for s in &sets {
            for w in &s.windows {
                let _ = black_box(lent::predict(Mode::Archive, ours(&s.table), k, w));
            }
        }
    };
    let what = format!("{rows} rows, k {k}");
    let works: [clock::Work; 3] = [&mut evals, &mut batches, &mut calls];
    clock::race(&what, TABLES * WINDOWS, 0, works);
}

pub fn run() {
    println!("\n## predict, archive, nanoseconds a window\n");
    println!(
        "| ratio, batch | ratio, single call | rows, k | the Rust's eval | batch | single call |"
    );
    println!("|---|---|---|---|---|---|");
    let mut dice = Dice::new(7);
    let small = [(2, 1), (5, 1), (10, 1), (10, 2), (20, 2), (30, 3)];
    let large = [100, 500, 1000].map(|rows| [(rows, 1), (rows, 4), (rows, 16)]);
    for (rows, k) in small.into_iter().chain(large.into_iter().flatten()) {
        of_size(&mut dice, rows, k);
    }
}

pub fn explain() {
    println!("\n## explain (both calls, with their checks), nanoseconds a call\n");
    println!("| ratio | rows, k | the Rust's build_error | ours |");
    println!("|---|---|---|---|");
    let mut dice = Dice::new(8);
    for (rows, k) in [(5, 2), (10, 2), (30, 3), (100, 4), (500, 8), (1000, 16)] {
        let t = table(&mut dice, rows, k);
        let windows: Vec<Vec<u16>> = (0..64).map(|_| window(&mut dice, &t)).collect();
        let walker = Walker::new(t.lent());
        let streams: Vec<_> = windows.iter().map(|w| TokenStream::lent(w, k)).collect();
        let names = parol_runtime::lexer::terminal_names();
        let mut rust = || {
            for s in &streams {
                let _ = black_box(walker.build_error(names, s));
            }
        };
        let mut mine = || {
            for w in &windows {
                let _ = black_box(lent::explain(ours(&t), w));
            }
        };
        let what = format!("{rows} rows, k {k}");
        clock::race(&what, 64, 0, [&mut rust, &mut mine]);
    }
}
