//! The reading's archive mode against the Rust, on random inputs up to the limits.

use oracle::agree::{self, Lending};
use oracle::make::{self, Dice, Size};
use oracle::reading::{MODES, Mode};
use oracle::{Lent, Table};

const ROOM: usize = 16_384;
const FEW: [u16; 3] = [0, 1, 2];
const WIDE: [u16; 12] = [0, 1, 2, 3, 5, 8, 13, 100, 1_000, 30_000, 65_534, 65_535];
const PRODUCTIONS: [&[i32]; 5] = [
    &[-1, 1],
    &[-1, 1, 2],
    &[-1, -1, -1, 1],
    &[-1, 0, 65_535, 7, 8, 9],
    &[-1, -1, -1, -1, 4, 5, 6],
];

fn size<'a>(dice: &mut Dice, states: usize, rows: usize) -> Size<'a> {
    Size {
        states: dice.within(1, states),
        rows,
        terminals: dice.pick(&[&FEW[..], &WIDE[..]]),
        productions: dice.pick(&PRODUCTIONS),
        gaps: dice.chance(40),
    }
}

fn numbers() -> Vec<u16> {
    (0..=u16::MAX).collect()
}

#[test]
fn random_lists() {
    let mut dice = Dice::new(1);
    for _ in 0..30_000 {
        let terminals = dice.pick(&[&FEW[..], &WIDE[..]]);
        let (strings, length) = (dice.within(0, 12), dice.within(0, 16));
        let list = make::list(&mut dice, strings, length, terminals);
        let production = dice.pick(&[0, 1, 65_535]);
        assert!(agree::build(production, &list.lengths, &list.tokens, ROOM).0);
    }
    for strings in [200, 1_024] {
        for length in [1, 5, 16] {
            let list = make::list(&mut dice, strings, length, &[7, 9]);
            let _ = agree::build(1, &list.lengths, &list.tokens, ROOM);
        }
    }
}

#[test]
fn random_trees() {
    let mut dice = Dice::new(2);
    for _ in 0..60_000 {
        let (a, b) = (size(&mut dice, 16, 0), size(&mut dice, 16, 0));
        let (a, b) = (make::tree(&mut dice, &a), make::tree(&mut dice, &b));
        assert!(agree::unite(Mode::Archive, a.lent(), b.lent(), ROOM).0);
    }
    for _ in 0..120 {
        let (a, b) = (size(&mut dice, 1_024, 0), size(&mut dice, 1_024, 0));
        let (a, b) = (make::tree(&mut dice, &a), make::tree(&mut dice, &b));
        let _ = agree::unite(Mode::Archive, a.lent(), b.lent(), ROOM);
        let once = agree::unite(Mode::Archive, a.lent(), a.lent(), ROOM).1;
        assert_eq!(Ok(&a.rows), once.as_ref().map(|t| &t.rows));
    }
}

#[test]
fn random_ruled_tables() {
    let mut dice = Dice::new(3);
    for _ in 0..60_000 {
        let rows = dice.within(0, 40);
        let size = size(&mut dice, 14, rows);
        shrinks(&make::ruled(&mut dice, &size));
    }
    for _ in 0..60 {
        let size = size(&mut dice, 1_024, 4_096);
        shrinks(&make::ruled(&mut dice, &size));
    }
    shrinks(&widest(&mut dice));
}

/// All 1,024 states and all 4,096 rows.
fn widest(dice: &mut Dice) -> Table {
    let terminals = numbers();
    let size = Size {
        states: 1_024,
        rows: 4_300,
        terminals: &terminals,
        productions: &[-1, 1],
        gaps: false,
    };
    let mut table = make::ruled(dice, &size);
    // Rows that go over the limit are dropped where that leaves no state without a row into it.
    let count = |t: &Table, to| t.rows.chunks_exact(4).filter(|r| r[2] == to).count();
    let mut place = 0;
    while table.rows.len() > ROOM {
        if count(&table, table.rows[place + 2]) > 1 {
            table.rows.drain(place..place + 4);
        } else {
            place += 4;
        }
    }
    assert_eq!((1_024, ROOM), (table.states, table.rows.len()));
    table
}

#[test]
fn built_united_and_shrunk() {
    let mut dice = Dice::new(4);
    for round in 0..5_000 {
        let (half, length) = if round % 50 > 0 { (4, 3) } else { (12, 8) };
        let mut whole = make::tree(
            &mut dice,
            &Size {
                states: 1,
                rows: 0,
                terminals: &FEW,
                productions: &[-1, 1],
                gaps: false,
            },
        );
        for production in 0..3 {
            let list = make::product_list(&mut dice, half, length, &FEW);
            let (asked, tree) = agree::build(production, &list.lengths, &list.tokens, ROOM);
            let Ok(tree) = tree else { continue };
            assert!(asked);
            shrinks(&tree);
            if let Ok(more) = agree::unite(Mode::Archive, whole.lent(), tree.lent(), ROOM).1 {
                whole = more;
            }
        }
        shrinks(&whole);
    }
}

fn shrinks(table: &Table) {
    let (asked, made) = agree::shrink(Mode::Archive, table.lent(), ROOM);
    assert!(asked && made.is_ok());
}

#[test]
fn random_walks() {
    let mut dice = Dice::new(5);
    for round in 0..40_000 {
        let large = round % 400 == 0;
        let (states, rows) = if large { (1_024, 4_096) } else { (6, 20) };
        let size = size(&mut dice, states, rows);
        let mut table = make::rising(&mut dice, &size);
        if round % 2 == 0 {
            table = make::ruled(&mut dice, &size);
        }
        table.rows.truncate(ROOM);
        let lending = Lending::new(table.lent());
        for _ in 0..6 {
            let count = dice.within(0, 20);
            let tokens = make::tokens(&mut dice, count, size.terminals);
            let stream_k = dice.pick(&[16, 16, 16, 3, usize::MAX]);
            for mode in MODES {
                let _ = lending.predict(mode, stream_k, &tokens);
            }
            assert!(lending.explain(&tokens).0);
        }
    }
}

/// Damaged tables: whatever the reading still takes, the Rust must answer alike.
#[test]
fn damaged_tables() {
    let mut dice = Dice::new(6);
    for _ in 0..40_000 {
        let size = size(&mut dice, 8, 12);
        let good = make::ruled(&mut dice, &size);
        let bad = make::damaged(&mut dice, &good.rows);
        let table = Lent::new(good.prod0, good.k, &bad);
        let _ = agree::shrink(Mode::Archive, table, ROOM);
        let tree = make::tree(&mut dice, &size);
        let bent = make::damaged(&mut dice, &tree.rows);
        let bent = Lent::new(tree.prod0, tree.k, &bent);
        let _ = agree::unite(Mode::Archive, bent, tree.lent(), ROOM);
        let _ = agree::unite(Mode::Archive, tree.lent(), bent, ROOM);
        let lending = Lending::new(table);
        let tokens = make::tokens(&mut dice, 16, size.terminals);
        let _ = lending.predict(Mode::Archive, 16, &tokens);
        lending.explain(&tokens);
    }
}
