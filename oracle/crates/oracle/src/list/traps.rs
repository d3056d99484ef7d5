//! Document 01's worked cases, the tables of the Rust's tests, and the traps.

use super::{List, ROOM, rust_tables, self_loop};
use crate::make::Strings;
use crate::reading::MODES;
use crate::reading::Mode::{self, Archive, Intake};
use crate::{Lent, Table, agree};

pub fn add(list: &mut List) {
    worked_builds(list);
    worked_unites(list);
    worked_shrinks(list);
    faults(list);
    from_the_rust(list);
    predicts(list);
    explains(list);
}

fn build(list: &mut List, production: i32, strings: &[&[u16]]) -> Table {
    let s = Strings::of(strings);
    list.build(production, &s.lengths, &s.tokens, ROOM);
    let made = agree::build(production, &s.lengths, &s.tokens, ROOM);
    made.1.unwrap()
}

fn expect(number: u64, answered: u64) {
    assert_eq!(number, answered);
}

fn worked_builds(list: &mut List) {
    build(list, 4, &[]);
    build(list, 1, &[&[5], &[7]]);
    build(list, 1, &[&[7], &[5]]);
    build(list, 2, &[&[5, 6]]);
    build(list, 1, &[&[]]);
    build(list, 1, &[&[65_535]]);
    build(list, 0, &[&[0], &[0], &[0, 0]]);
    build(list, 65_535, &[&[65_535, 0], &[], &[65_535]]);
}

/// Unites in one mode, shrinks in both, and walks what came out.
fn united(list: &mut List, mode: Mode, first: &Table, second: &Table) -> Option<Table> {
    list.unite(mode, first.lent(), second.lent(), ROOM);
    let made = agree::unite(mode, first.lent(), second.lent(), ROOM)
        .1
        .ok()?;
    all_of(list, &made);
    Some(made)
}

/// Shrinks in both modes and walks both results.
fn all_of(list: &mut List, table: &Table) {
    walks(list, table);
    for mode in MODES {
        list.shrink(mode, table.lent(), ROOM);
        if let Ok(small) = agree::shrink(mode, table.lent(), ROOM).1 {
            walks(list, &small);
        }
    }
}

const STREAMS: [&[u16]; 12] = [
    &[],
    &[5],
    &[9],
    &[5, 6],
    &[5, 9],
    &[9, 5],
    &[9, 9],
    &[7, 8],
    &[7, 6],
    &[3, 5],
    &[5, 6, 5],
    &[4, 4, 6],
];

fn walks(list: &mut List, table: &Table) {
    for tokens in STREAMS {
        for mode in MODES {
            list.predict(mode, table.lent(), 16, tokens);
        }
        list.explain(table.lent(), tokens);
    }
}

fn worked_unites(list: &mut List) {
    let a = build(list, 1, &[&[5], &[7]]);
    let b = build(list, 2, &[&[5, 6]]);
    let empty = [build(list, 1, &[&[]]), build(list, 2, &[&[]])];
    let five = [build(list, 1, &[&[5]]), build(list, 2, &[&[5]])];
    for mode in MODES {
        united(list, mode, &a, &b);
        united(list, mode, &b, &a);
        united(list, mode, &empty[0], &empty[1]);
        united(list, mode, &five[0], &five[1]);
    }
    // New states are numbered in the second's row order, not by its own numbers.
    let second = table(-1, 1, &[[0, 5, 2, 1], [0, 7, 1, 1]]);
    let first = table(-1, 0, &[]);
    for mode in MODES {
        united(list, mode, &first, &second);
    }
}

fn worked_shrinks(list: &mut List) {
    all_of(list, &table(1, 1, &[[0, 3, 1, 1], [0, 5, 2, 2]]));
    let given = [[0, 4, 1, 7], [0, 6, 2, -1], [2, 4, 3, 7]];
    all_of(list, &table(-1, 2, &given));
    let again = [[0, 4, 1, 7], [0, 6, 2, -1], [2, 4, 1, 7]];
    all_of(list, &table(-1, 2, &again));
    all_of(list, &table(3, 2, &[[0, 5, 1, -1], [1, 6, 2, 4]]));
    // Numbers close up even if nothing merges.
    all_of(list, &table(-1, 1, &[[0, 5, 9, 1]]));
}

/// A list under one production.
type Strung<'a> = (i32, &'a [&'a [u16]]);

/// The smallest inputs of the Rust's faults.
fn faults(list: &mut List) {
    let chains: [&[Strung]; 7] = [
        &[(1, &[&[5]]), (2, &[&[]])],
        &[(1, &[&[5]]), (2, &[&[5, 6]])],
        &[(2, &[&[5, 6]]), (1, &[&[5]])],
        &[(1, &[&[5]]), (2, &[&[7, 8]])],
        &[(1, &[&[5]]), (2, &[&[5, 6]]), (3, &[&[5]])],
        &[(1, &[&[5], &[4, 4]]), (2, &[&[7, 6]]), (1, &[&[7]])],
        &[(1, &[&[5], &[7]]), (2, &[&[7]]), (3, &[&[7], &[5]])],
    ];
    for chain in chains {
        for mode in MODES {
            let mut whole = build(list, chain[0].0, chain[0].1);
            for (production, strings) in &chain[1..] {
                let next = build(list, *production, strings);
                match united(list, mode, &whole, &next) {
                    Some(more) => whole = more,
                    None => break,
                }
            }
        }
    }
    all_of(list, &table(-1, 2, &[[0, 5, 1, 1], [1, 6, 2, 1]]));
    let rows = [[0, 3, 1, 1], [0, 5, 2, -1], [2, 6, 3, 2]];
    all_of(list, &table(1, 2, &rows));
    all_of(list, &table(1, 2, &[[0, 3, 1, -1], [1, 5, 2, 1]]));
    let rows = [[0, 5, 1, 1], [1, 6, 2, -1], [2, 5, 3, 1]];
    all_of(list, &table(-1, 3, &rows));
}

fn from_the_rust(list: &mut List) {
    for table in rust_tables() {
        for mode in MODES {
            expect(0, list.shrink(mode, table.lent(), ROOM));
            for tokens in [[5, 6], [0, 5], [17, 5], [35, 0], [1, 12], [2, 4]] {
                list.predict(mode, table.lent(), table.k, &tokens);
                list.explain(table.lent(), &tokens);
            }
        }
    }
    let table = self_loop();
    for mode in MODES {
        expect(4, list.shrink(mode, table.lent(), ROOM));
        expect(4, list.unite(mode, table.lent(), table.lent(), ROOM));
        list.predict(mode, table.lent(), 1, &[1]);
    }
    list.explain(table.lent(), &[1, 1, 1, 2, 9]);
    lists_of_the_rust(list);
}

/// The three tests that stand commented out in `lookahead_dfa.rs`; 0 is the end, 5 is a, 6 is b.
fn lists_of_the_rust(list: &mut List) {
    let first: [&[u16]; 5] = [&[0], &[5, 0], &[5, 5, 0], &[5, 5, 5, 0], &[5, 5, 5, 5]];
    let first = build(list, 1, &first);
    let second = build(list, 2, &[&[5, 6, 0], &[5, 6, 6, 0], &[5, 5, 6, 6]]);
    let third = build(list, 2, &[&[5, 6, 0], &[5, 6, 6, 0], &[5, 5, 5, 5]]);
    for mode in MODES {
        united(list, mode, &first, &second);
        united(list, mode, &second, &first);
        expect(8, list.unite(mode, first.lent(), third.lent(), ROOM));
    }
}

fn predicts(list: &mut List) {
    let rows = [[0, 5, 1, 1], [1, 6, 2, 2]].concat();
    let one = Lent::new(-1, 2, &rows);
    let max = usize::MAX;
    for mode in MODES {
        // Stray tokens are stepped over.
        expect(0, list.predict(mode, one, 2, &[9, 5]));
        expect(0, list.predict(mode, one, 2, &[5, 9]));
        expect(11, list.predict(mode, one, 2, &[9, 9]));
        expect(11, list.predict(mode, one, 2, &[6, 9]));
        // Tokens past the table's k are not read.
        expect(0, list.predict(mode, Lent::new(-1, 1, &rows), 2, &[5, 6]));
        expect(11, list.predict(mode, Lent::new(-1, 1, &rows), 2, &[9, 5]));
        // A short stream is 10 even if a production was reached.
        expect(10, list.predict(mode, one, 2, &[5]));
        expect(10, list.predict(mode, Lent::new(4, 2, &rows), 2, &[]));
        expect(
            10,
            list.predict(mode, Lent::new(4, 16, &rows), 16, &[5; 15]),
        );
        expect(0, list.predict(mode, Lent::new(4, 16, &rows), 16, &[5; 16]));
        // The stream's k may be any number.
        expect(0, list.predict(mode, one, max, &[5, 6]));
        expect(10, list.predict(mode, one, max, &[5]));
        expect(9, list.predict(mode, one, 1, &[5, 6]));
        expect(9, list.predict(mode, one, 0, &[]));
        expect(9, list.predict(mode, one, 1, &[]));
        expect(11, list.predict(mode, Lent::new(-1, 0, &rows), 0, &[]));
        expect(0, list.predict(mode, Lent::new(4, 0, &rows), 0, &[]));
        expect(0, list.predict(mode, Lent::new(0, 0, &rows), max, &[5]));
        expect(11, list.predict(mode, Lent::new(-1, 16, &[]), 16, &[0; 16]));
    }
    roots(list);
    // A row back to the same state is entered again and again.
    let circle = [0, 0, 0, 65_535];
    let falls = [[0, 5, 1, -1], [1, 5, 0, 2], [1, 6, 1, -1]].concat();
    for mode in MODES {
        expect(
            0,
            list.predict(mode, Lent::new(-1, 16, &circle), 16, &[0; 17]),
        );
        for tokens in [[5, 5, 5], [5, 6, 5], [5, 6, 6], [6, 5, 5]] {
            list.predict(mode, Lent::new(1, 3, &falls), 3, &tokens);
        }
    }
}

/// The corner 12 and what lies around it.
fn roots(list: &mut List) {
    let dead = [0, 5, 1, -1];
    for (mode, number) in [(Archive, 12), (Intake, 0)] {
        expect(number, list.predict(mode, Lent::new(3, 1, &dead), 1, &[5]));
        expect(
            number,
            list.predict(mode, Lent::new(0, 2, &dead), 2, &[9, 5]),
        );
        expect(
            number,
            list.predict(mode, Lent::new(65_535, 2, &dead), 2, &[5, 5]),
        );
    }
    for mode in MODES {
        expect(0, list.predict(mode, Lent::new(3, 1, &dead), 1, &[6]));
        expect(0, list.predict(mode, Lent::new(3, 0, &dead), 0, &[5]));
        expect(11, list.predict(mode, Lent::new(-1, 1, &dead), 1, &[5]));
        expect(10, list.predict(mode, Lent::new(3, 2, &dead), 2, &[5]));
    }
}

fn explains(list: &mut List) {
    let rows = [[0, 5, 1, 1], [0, 6, 2, -1], [2, 7, 3, 1]].concat();
    let table = Lent::new(-1, 2, &rows);
    let streams: [&[u16]; 12] = [
        &[],
        &[5],
        &[5, 9],
        &[6],
        &[6, 7],
        &[6, 9],
        &[6, 7, 9],
        &[9],
        &[9, 5],
        &[6, 7, 7, 7],
        &[65_535],
        &[0, 0],
    ];
    for tokens in streams {
        expect(0, list.explain(table, tokens));
        expect(0, list.explain(Lent::new(-1, 0, &rows), tokens));
        expect(0, list.explain(Lent::new(5, 16, &[]), tokens));
        expect(1, list.explain(Lent::new(5, 17, &rows[..5]), tokens));
        expect(2, list.explain(Lent::new(-1, 17, &rows), tokens));
    }
    expect(2, list.explain(Lent::new(-1, 17, &[]), &[]));
    // Falling rows: the walk may go round, and all lent tokens are walked, whatever k is.
    let falls = [[0, 5, 1, -1], [1, 5, 0, 2], [1, 6, 1, -1]].concat();
    for stray in [4, 5, 6, 7] {
        let mut tokens = [5; 41].to_vec();
        tokens.push(stray);
        expect(0, list.explain(Lent::new(1, 1, &falls), &tokens));
    }
}

fn table(prod0: i32, k: usize, rows: &[[i32; 4]]) -> Table {
    Table {
        prod0,
        k,
        states: 0,
        rows: rows.concat(),
    }
}
