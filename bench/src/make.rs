//! Build, unite and shrink, beside the Rust.
use crate::{clock, ours};
use lookahead::Mode;
use lookahead::lent::{self, ROOM};
use oracle::Table;
use oracle::agree::strings;
use oracle::make::{self, Dice, Strings};
use oracle::rust::{flat, ruled};
use parol::KTuples;
use parol::analysis::LookaheadDFA;
use parol::door::Compiled;
use std::hint::black_box;

/// Random strings until the tree has about so many states.
fn random_list(dice: &mut Dice, states: usize) -> Strings {
    let mut list = Strings::default();
    let mut count = 1;
    while count < states && list.lengths.len() < 1024 {
        let n = dice.within(1, 8).min(states - count);
        let string: Vec<u16> = (0..n).map(|_| 5 + dice.below(9) as u16).collect();
        list.push(&string);
        count = oracle::rust::build(1, &strings(&list.lengths, &list.tokens)).states;
    }
    list
}

/// Strings of 16 with no first token in common.
fn long_list(states: usize) -> Strings {
    let mut list = Strings::default();
    let mut left = states - 1;
    let mut first = 1;
    while left > 0 {
        let n = left.min(16);
        let string: Vec<u16> = (0..n).map(|i| if i == 0 { first } else { 7 }).collect();
        list.push(&string);
        first += 1;
        left -= n;
    }
    list
}

fn single_list(states: usize, token: fn(u16) -> u16) -> Strings {
    let mut list = Strings::default();
    for i in 1..states.min(1024) as u16 {
        list.push(&[token(i)]);
    }
    list
}

fn rise(i: u16) -> u16 {
    i
}

fn fall(i: u16) -> u16 {
    2000 - i
}

/// By turns from the low end and from the high end: every row goes into the middle of those before it.
fn close_in(i: u16) -> u16 {
    if i.is_multiple_of(2) { i } else { 4000 - i }
}

pub fn build() {
    println!("\n## build, nanoseconds a call\n");
    println!("| ratio | list | the Rust | ours |");
    println!("|---|---|---|---|");
    let mut dice = Dice::new(3);
    let mut out = vec![0; ROOM];
    for states in [10, 100, 500, 1000] {
        let shapes = [
            ("random strings", random_list(&mut dice, states)),
            ("strings of 16", long_list(states)),
            ("single tokens that rise", single_list(states, rise)),
            ("single tokens that fall", single_list(states, fall)),
            ("single tokens that close in", single_list(states, close_in)),
        ];
        for (name, list) in shapes {
            let tuples = KTuples::of(&strings(&list.lengths, &list.tokens));
            let mut rust = || {
                black_box(LookaheadDFA::from_k_tuples(&tuples, 1));
            };
            let mut mine = || {
                let _ = black_box(lent::build(1, &list.tokens, &list.lengths, &mut out));
            };
            let what = format!("{name}, {states} states");
            clock::race(&what, 1, 0, [&mut rust, &mut mine]);
        }
    }
}

/// The tree that the Rust builds of a list.
fn built(list: &Strings, production: usize) -> Table {
    let tuples = KTuples::of(&strings(&list.lengths, &list.tokens));
    flat(&LookaheadDFA::from_k_tuples(&tuples, production))
}

/// Pairs of trees, with so many states together.
fn pairs(dice: &mut Dice, states: usize) -> [(&'static str, Table, Table); 5] {
    let half = states / 2 + 1;
    let a = built(&random_list(dice, half), 1);
    let mut other = random_list(dice, half);
    other.tokens.iter_mut().for_each(|t| *t += 100);
    let b = built(&other, 2);
    let long = built(&long_list(half), 1);
    let falls = built(&single_list(half, fall), 1);
    let mut low = falls.clone();
    low.rows.chunks_exact_mut(4).for_each(|r| r[1] -= 950);
    let ends = built(&single_list(half, close_in), 1);
    let below = "single tokens, the second's all below the first's";
    let amid = "single tokens, the second's all amid the first's";
    [
        ("no state in common", a.clone(), b),
        ("a tree with itself", a.clone(), a),
        ("strings of 16 with themselves", long.clone(), long),
        (below, falls.clone(), low),
        (amid, ends, falls),
    ]
}

pub fn unite() {
    println!("\n## unite, archive, nanoseconds a call (the Rust clones the first)\n");
    println!("| ratio | trees | the Rust | ours |");
    println!("|---|---|---|---|");
    let mut dice = Dice::new(4);
    let mut out = vec![0; ROOM];
    for states in [10, 100, 500, 1000] {
        for (name, x, y) in pairs(&mut dice, states) {
            let (first, second) = (ruled(x.lent()), ruled(y.lent()));
            let mut rust = || {
                let _ = black_box(first.union(&second));
            };
            let mut mine = || {
                let _ = black_box(lent::unite(Mode::Archive, ours(&x), ours(&y), &mut out));
            };
            let what = format!("{name}, {states} states together");
            clock::race(&what, 1, 0, [&mut rust, &mut mine]);
        }
    }
}

fn tree(dice: &mut Dice, states: usize, terminals: u16, productions: &[i32]) -> Table {
    let terminals: Vec<u16> = (5..5 + terminals).collect();
    let size = make::Size {
        states,
        rows: states - 1,
        terminals: &terminals,
        productions,
        gaps: false,
    };
    make::tree(dice, &size)
}

/// A production for each leaf, none elsewhere.
fn leaves(mut t: Table, production: impl Fn(i32) -> i32) -> Table {
    let froms: std::collections::BTreeSet<i32> = t.rows.chunks_exact(4).map(|r| r[0]).collect();
    for r in t.rows.chunks_exact_mut(4) {
        r[3] = if froms.contains(&r[2]) {
            -1
        } else {
            production(r[2])
        };
    }
    t.prod0 = -1;
    t
}

/// Trees of several shapes, with so many states.
fn shapes(dice: &mut Dice, states: usize) -> [(&'static str, Table); 7] {
    let trie = tree(dice, states, 40, &[1]);
    let narrow = tree(dice, states, 2, &[1]);
    let mut all = trie.clone();
    all.rows.chunks_exact_mut(4).for_each(|r| r[3] = r[2]);
    let eight = leaves(trie.clone(), |s| s % 8);
    let one = leaves(trie.clone(), |_| 1);
    let own = leaves(trie, |s| s);
    let two = leaves(narrow, |_| 1);
    let star = built(&single_list(states, rise), 1);
    let comb = built(&long_list(states), 1);
    [
        ("random trie, 8 productions at leaves", eight),
        ("random trie, all leaves one production", one),
        ("random trie, every leaf its own production", own),
        ("every state accepts, its own production", all),
        ("over 2 terminals, leaves one production", two),
        ("star, one production", star),
        ("comb of strings of 16, one production", comb),
    ]
}

pub fn shrink() {
    println!("\n## shrink, nanoseconds a call\n");
    println!("| ratio, archive | ratio, intake | tree | the Rust | archive | intake |");
    println!("|---|---|---|---|---|---|");
    let mut dice = Dice::new(5);
    let mut out = vec![0; ROOM];
    let mut other = vec![0; ROOM];
    for states in [10, 100, 500, 1000] {
        for (name, t) in shapes(&mut dice, states) {
            let dfa = ruled(t.lent());
            let mut rust = || {
                black_box(Compiled::from_lookahead_dfa(&dfa));
            };
            let mut archive = || {
                let _ = black_box(lent::shrink(Mode::Archive, ours(&t), &mut out));
            };
            let mut intake = || {
                let _ = black_box(lent::shrink(Mode::Intake, ours(&t), &mut other));
            };
            let what = format!("{name}, {states} states");
            clock::race(&what, 1, 0, [&mut rust, &mut archive, &mut intake]);
        }
    }
}
