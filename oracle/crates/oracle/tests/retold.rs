//! The Rust's own tests once more: the three that stand commented out in `lookahead_dfa.rs`, over
//! the stand-in list, and the tables of the others with their rows put in rising order.

use oracle::agree::{self, Lending};
use oracle::make::Strings;
use oracle::reading::{MODES, Mode, Refusal};
use oracle::{Table, list};

const ROOM: usize = 16_384;
const END: u16 = 0;
const A: u16 = 5;
const B: u16 = 6;

fn built(production: i32, strings: &[&[u16]]) -> Table {
    let list = Strings::of(strings);
    agree::build(production, &list.lengths, &list.tokens, ROOM)
        .1
        .unwrap()
}

fn first() -> Table {
    let strings: [&[u16]; 5] = [
        &[END],
        &[A, END],
        &[A, A, END],
        &[A, A, A, END],
        &[A, A, A, A],
    ];
    built(1, &strings)
}

#[test]
fn from_k_tuples() {
    assert_eq!(9, first().states);
}

#[test]
fn union() {
    let second = built(2, &[&[A, B, END], &[A, B, B, END], &[A, A, B, B]]);
    assert_eq!((9, 4), (first().states, first().k));
    assert_eq!((9, 4), (second.states, second.k));
    let whole = agree::unite(Mode::Archive, first().lent(), second.lent(), ROOM);
    let whole = whole.1.unwrap();
    assert_eq!((15, 4), (whole.states, whole.k));
}

#[test]
fn union_finds_ambiguity() {
    let second = built(2, &[&[A, B, END], &[A, B, B, END], &[A, A, A, A]]);
    let whole = agree::unite(Mode::Archive, first().lent(), second.lent(), ROOM);
    assert_eq!(Err(Refusal::Clash(1, 2)), whole.1);
}

#[test]
fn tables_in_rising_order() {
    let counts = [(4, 4), (3, 3), (3, 16), (5, 7)];
    for (table, (states, rows)) in list::rust_tables().iter().zip(counts) {
        let (asked, made) = agree::shrink(Mode::Archive, table.lent(), ROOM);
        let made = made.unwrap();
        assert!(asked);
        assert_eq!((states, rows), (made.states, made.rows.len() / 4));
    }
}

#[test]
fn the_self_loop_table_is_refused() {
    let table = list::self_loop();
    for mode in MODES {
        let refused = agree::shrink(mode, table.lent(), ROOM).1;
        assert_eq!(Err(Refusal::Plain(4)), refused);
    }
    // Predict and explain take it: it has falling rows, but in rising order.
    assert!(Lending::new(table.lent()).explain(&[1, 1, 2, 9]).0);
}
