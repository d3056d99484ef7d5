//! Document 01's worked cases, starred or not. Archive answers come from the Rust as well.

use oracle::Table;
use oracle::agree::{self, Lending};
use oracle::make::Strings;
use oracle::reading::Mode::{self, Archive, Intake};
use oracle::reading::Refusal::{self, Clash, Plain};

const ROOM: usize = 16_384;

fn built(production: i32, strings: &[&[u16]]) -> Table {
    let list = Strings::of(strings);
    agree::build(production, &list.lengths, &list.tokens, ROOM)
        .1
        .unwrap()
}

fn united(mode: Mode, first: &Table, second: &Table) -> Result<Table, Refusal> {
    agree::unite(mode, first.lent(), second.lent(), ROOM).1
}

fn shrunk(mode: Mode, table: &Table) -> Result<Table, Refusal> {
    agree::shrink(mode, table.lent(), ROOM).1
}

fn predicted(mode: Mode, table: &Table, tokens: &[u16]) -> Result<(i32, usize), Refusal> {
    Lending::new(table.lent()).predict(mode, table.k, tokens).1
}

fn table(prod0: i32, k: usize, states: usize, rows: &[[i32; 4]]) -> Table {
    Table {
        prod0,
        k,
        states,
        rows: rows.concat(),
    }
}

fn a() -> Table {
    built(1, &[&[5], &[7]])
}

fn b() -> Table {
    built(2, &[&[5, 6]])
}

fn t() -> Table {
    united(Archive, &b(), &a()).unwrap()
}

#[test]
fn build_cases() {
    assert_eq!(table(4, 0, 1, &[]), built(4, &[]));
    assert_eq!(table(-1, 1, 3, &[[0, 5, 1, 1], [0, 7, 2, 1]]), a());
    assert_eq!(table(1, 0, 1, &[]), built(1, &[&[]]));
}

#[test]
fn archive_unite() {
    let rows = [[0, 5, 1, -1], [0, 7, 2, 1], [1, 6, 3, 2]];
    let made = united(Archive, &a(), &b()).unwrap();
    assert_eq!(table(-1, 1, 4, &rows), made);
    assert_eq!(Err(Plain(11)), predicted(Archive, &made, &[5, 6]));
    let rows = [[0, 5, 1, 1], [0, 7, 3, 1], [1, 6, 2, 2]];
    assert_eq!(table(-1, 2, 4, &rows), t());
}

#[test]
fn intake_unite() {
    let rows = [[0, 5, 1, 1], [0, 7, 2, 1], [1, 6, 3, 2]];
    let made = united(Intake, &a(), &b()).unwrap();
    assert_eq!(table(-1, 2, 4, &rows), made);
    assert_eq!(Ok((2, 2)), predicted(Intake, &made, &[5, 6]));
    assert_eq!(Ok((1, 1)), predicted(Intake, &made, &[5, 9]));
    assert_eq!(Ok((1, 1)), predicted(Intake, &made, &[9, 5]));
    let lending = Lending::new(made.lent());
    let stopped = lending.explain(&[5, 9]).1;
    assert_eq!(
        (Ok(1), 8, 4),
        (stopped.matched, stopped.start, stopped.count)
    );
    let all = lending.explain(&[5]).1;
    assert_eq!((Ok(1), 12, 0), (all.matched, all.start, all.count));
}

#[test]
fn shrinks_of_t() {
    let made = shrunk(Archive, &t()).unwrap();
    assert_eq!(table(-1, 2, 3, &[[0, 5, 1, 1], [0, 7, 1, 1]]), made);
    assert_eq!(1, predicted(Archive, &made, &[5, 6]).unwrap().0);
    assert_eq!(Ok(t()), shrunk(Intake, &t()));
}

#[test]
fn clashes() {
    let (one, two) = (built(1, &[&[]]), built(2, &[&[]]));
    assert_eq!(1, united(Archive, &one, &two).unwrap().prod0);
    assert_eq!(Err(Clash(1, 2)), united(Intake, &one, &two));
    let (one, two) = (built(1, &[&[5]]), built(2, &[&[5]]));
    assert_eq!(Err(Clash(1, 2)), united(Archive, &one, &two));
    assert_eq!(Err(Clash(1, 2)), united(Intake, &one, &two));
}

#[test]
fn other_shrinks() {
    let given = table(1, 1, 3, &[[0, 3, 1, 1], [0, 5, 2, 2]]);
    assert_eq!(Ok(table(1, 1, 2, &[])), shrunk(Archive, &given));
    assert_eq!(Ok(given.clone()), shrunk(Intake, &given));
    let rows = [[0, 4, 1, 7], [0, 6, 2, -1], [2, 4, 3, 7]];
    let given = table(-1, 2, 4, &rows);
    let made = table(-1, 2, 3, &[[0, 4, 1, 7], [0, 6, 2, -1], [2, 4, 1, 7]]);
    for mode in [Archive, Intake] {
        assert_eq!(Ok(made.clone()), shrunk(mode, &given));
        assert_eq!(Err(Plain(4)), shrunk(mode, &made));
    }
}

#[test]
fn the_root() {
    let given = table(3, 2, 3, &[[0, 5, 1, -1], [1, 6, 2, 4]]);
    assert_eq!(Err(Plain(12)), predicted(Archive, &given, &[5, 9]));
    assert_eq!(Ok((3, 1)), predicted(Intake, &given, &[5, 9]));
    for mode in [Archive, Intake] {
        assert_eq!(Ok((3, 0)), predicted(mode, &given, &[9, 9]));
    }
}

#[test]
fn bounds_of_build() {
    let answer = |lengths: &[usize]| {
        // Token i opens string i, so no two strings have their first token in common.
        let starts = lengths.iter().enumerate();
        let tokens: Vec<u16> = starts
            .flat_map(|(i, &length)| vec![i as u16; length])
            .collect();
        agree::build(1, lengths, &tokens, ROOM)
            .1
            .map(|table| table.states)
    };
    assert_eq!(Ok(17), answer(&[16]));
    assert_eq!(Err(Plain(2)), answer(&[17]));
    let mut lengths = [16; 64];
    assert_eq!(Err(Plain(14)), answer(&lengths));
    lengths[63] = 15;
    assert_eq!(Ok(1_024), answer(&lengths));
}
