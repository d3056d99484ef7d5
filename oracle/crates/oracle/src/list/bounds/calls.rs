//! The boundaries call by call.

use super::super::{List, ROOM};
use super::spoilt::{self, Spoilt};
use crate::Lent;
use crate::make::Strings;
use crate::reading::MODES;
use crate::reading::Mode::{Archive, Intake};

fn expect(number: u64, answered: u64) {
    assert_eq!(number, answered);
}

pub fn builds(list: &mut List) {
    lengths_of_build(list);
    ranges_of_build(list);
    states_of_build(list);
}

fn lengths_of_build(list: &mut List) {
    let max = usize::MAX;
    for (number, room) in [(1, 0), (1, ROOM - 1), (0, ROOM), (0, ROOM + 1), (0, 20_000)] {
        expect(number, list.build(1, &[1], &[5], room));
        expect(number, list.build(1, &[], &[], room));
    }
    expect(0, list.build(1, &[0; 1_024], &[], ROOM));
    expect(1, list.build(1, &[0; 1_025], &[], ROOM));
    let sums: [(&[usize], &[u16]); 11] = [
        (&[1], &[]),
        (&[], &[5]),
        (&[0], &[5]),
        (&[1, 1], &[5, 6, 7]),
        (&[2, 2], &[5, 6, 7]),
        (&[max, 1], &[]),
        (&[max, 2], &[7]),
        (&[1 << 63, 1 << 63], &[]),
        (&[1 << 63, 1, 1 << 63], &[7]),
        (&[max], &[]),
        (&[1 << 32], &[]),
    ];
    for (lengths, tokens) in sums {
        expect(1, list.build(1, lengths, tokens, ROOM));
    }
    expect(1, list.build(1, &[1 << 54; 1_024], &[], ROOM));
    // 1 and 2 at once
    expect(1, list.build(-1, &[1], &[5], ROOM - 1));
    expect(1, list.build(-1, &[0; 1_025], &[], ROOM));
    expect(1, list.build(65_536, &[17], &[5; 16], ROOM));
    expect(1, list.build(1, &[17], &[5; 17], ROOM - 1));
}

fn ranges_of_build(list: &mut List) {
    let outside = [-1, -2, 65_536, i32::MIN, i32::MAX];
    for production in outside {
        expect(2, list.build(production, &[1], &[5], ROOM));
        expect(2, list.build(production, &[], &[], ROOM));
    }
    for production in [0, 65_535] {
        expect(0, list.build(production, &[1], &[5], ROOM));
        expect(0, list.build(production, &[], &[], ROOM));
    }
    expect(0, list.build(1, &[16], &[5; 16], ROOM));
    expect(2, list.build(1, &[17], &[5; 17], ROOM));
    expect(2, list.build(1, &[1, 17], &[5; 18], ROOM));
    expect(0, list.build(1, &[16; 64], &[5; 1_024], ROOM));
    let mut tokens = Vec::new();
    (0..=16).for_each(|t| tokens.push(u16::MAX - t));
    expect(2, list.build(1, &[17], &tokens, ROOM));
    expect(0, list.build(1, &[16, 1], &tokens, ROOM));
}

/// Strings with no first token in common.
fn comb(lengths: &[usize]) -> Strings {
    let mut strings = Strings::default();
    for (i, &length) in lengths.iter().enumerate() {
        strings.push(&vec![i as u16; length]);
    }
    strings
}

fn states_of_build(list: &mut List) {
    let mut lengths = [16; 64];
    let over = comb(&lengths);
    expect(14, list.build(1, &lengths, &over.tokens, ROOM));
    // 1, 2 and 14 at once
    expect(1, list.build(1, &lengths, &over.tokens, ROOM - 1));
    expect(2, list.build(-1, &lengths, &over.tokens, ROOM));
    lengths[63] = 15;
    let full = comb(&lengths);
    expect(0, list.build(1, &lengths, &full.tokens, ROOM));
    lengths[0] = 17;
    let long = comb(&lengths);
    expect(2, list.build(1, &lengths, &long.tokens, ROOM));
    let mut singles: Vec<u16> = (0..1_024).collect();
    expect(14, list.build(1, &[1; 1_024], &singles, ROOM));
    // Duplicates cost nothing.
    singles[1_023] = 7;
    expect(0, list.build(1, &[1; 1_024], &singles, ROOM));
    expect(0, list.build(1, &[2; 1_024], &[5; 2_048], ROOM));
    let mut with_empty = [1; 1_024];
    with_empty[500] = 0;
    singles[1_022] = 1_023;
    expect(0, list.build(9, &with_empty, &singles[..1_023], ROOM));
}

/// All boundaries of a lent table, the long slices only once.
fn tables() -> Vec<Spoilt> {
    let mut all = spoilt::all();
    all.extend(spoilt::heads());
    all
}

pub fn unites(list: &mut List) {
    let row = [0, 5, 1, 1];
    let good = Lent::new(-1, 1, &row);
    for table in tables() {
        for mode in MODES {
            if mode == Archive && table.rows.len() >= ROOM {
                continue;
            }
            let clash = table.number == 0 && clashes(&table);
            let number = if clash { 8 } else { table.number };
            expect(number, list.unite(mode, table.lent(), good, ROOM));
            expect(number, list.unite(mode, good, table.lent(), ROOM));
        }
    }
    let longest = spoilt::longest();
    expect(7, list.unite(Archive, longest.lent(), good, ROOM));
    expect(7, list.unite(Intake, good, longest.lent(), ROOM));
    rooms_of_unite(list, good);
    pairs_of_unite(list);
    full_unites(list);
}

/// Whether a tree has 5 under another production than the good row has.
fn clashes(table: &Spoilt) -> bool {
    let other = |r: &[i32]| r[0] == 0 && r[1] == 5 && r[3] != 1 && r[3] != -1;
    table.rows.chunks_exact(4).any(other)
}

fn rooms_of_unite(list: &mut List, good: Lent) {
    for (number, room) in [(1, 0), (1, ROOM - 1), (0, ROOM), (0, ROOM + 1)] {
        for mode in MODES {
            expect(number, list.unite(mode, good, good, room));
        }
    }
    // 1 for the output comes before 2 of the first.
    let bad = Lent::new(-2, 1, &[]);
    for mode in MODES {
        expect(1, list.unite(mode, bad, bad, ROOM - 1));
        expect(2, list.unite(mode, bad, bad, ROOM));
    }
}

/// Every number in the first with every number in the second: 1 anywhere, then the first's.
fn pairs_of_unite(list: &mut List) {
    for first in spoilt::one_each() {
        for second in spoilt::one_each() {
            let one = first.number == 1 || second.number == 1;
            let either = if first.number > 0 {
                first.number
            } else {
                second.number
            };
            let number = if one { 1 } else { either };
            for mode in MODES {
                expect(number, list.unite(mode, first.lent(), second.lent(), ROOM));
            }
        }
    }
    // 7 of the second and 8
    let first = [0, 5, 1, 1];
    let second = [0, 5, 1, 2, 0, 6, 3, 1];
    for mode in MODES {
        let (first, second) = (Lent::new(1, 1, &first), Lent::new(2, 1, &second));
        expect(7, list.unite(mode, first, second, ROOM));
    }
}

/// 8 and 14 at the full table.
fn full_unites(list: &mut List) {
    let mut full: Vec<i32> = (1..=1_022).flat_map(|i| [0, i, i, 1]).collect();
    let nearly = full.clone();
    full.extend([0, 60_000, 1_023, 1]);
    let (full, nearly) = (Lent::new(-1, 1, &full), Lent::new(-1, 1, &nearly));
    let new = [0, 0, 1, 2];
    let behind = [0, 0, 1, 2, 0, 60_000, 2, 2];
    let before = [0, 1, 1, 2, 0, 60_000, 2, 1, 1, 5, 3, 1];
    let (new, behind) = (Lent::new(-1, 1, &new), Lent::new(-1, 1, &behind));
    for mode in MODES {
        expect(14, list.unite(mode, full, new, ROOM));
        expect(0, list.unite(mode, nearly, new, ROOM));
        // The clash comes behind the row that overflows, and still wins.
        expect(8, list.unite(mode, full, behind, ROOM));
    }
    expect(14, list.unite(Archive, new, full, ROOM));
    expect(8, list.unite(Intake, full, Lent::new(-1, 1, &before), ROOM));
    // In intake state 0 is compared first, and also wins over 14.
    let (one, two) = (Lent::new(1, 1, full.rows), Lent::new(2, 1, new.rows));
    expect(14, list.unite(Archive, one, two, ROOM));
    expect(8, list.unite(Intake, one, two, ROOM));
    roots_of_unite(list);
}

/// Clashes at state 0 and elsewhere: the first pair in row order, state 0 first in intake.
fn roots_of_unite(list: &mut List) {
    let first = [0, 5, 1, 3, 0, 6, 2, 4];
    let second = [0, 5, 1, 5, 0, 6, 2, 6];
    for (a, b) in [(1, 2), (-1, 2), (1, -1), (1, 1), (-1, -1), (0, 65_535)] {
        for mode in MODES {
            let (f, s) = (Lent::new(a, 1, &first), Lent::new(b, 1, &second));
            expect(8, list.unite(mode, f, s, ROOM));
            let (f, s) = (Lent::new(a, 3, &first), Lent::new(b, 16, &first));
            let apart = a >= 0 && b >= 0 && a != b && mode == Intake;
            expect(if apart { 8 } else { 0 }, list.unite(mode, f, s, ROOM));
        }
    }
}

pub fn shrinks(list: &mut List) {
    for table in tables() {
        for mode in MODES {
            if mode == Archive && table.rows.len() >= ROOM {
                continue;
            }
            expect(table.for_shrink(), list.shrink(mode, table.lent(), ROOM));
        }
    }
    let row = [0, 5, 1, 1];
    for (number, room) in [(1, 0), (1, ROOM - 1), (0, ROOM), (0, ROOM + 1)] {
        for mode in MODES {
            expect(number, list.shrink(mode, Lent::new(-1, 1, &row), room));
        }
    }
    for mode in MODES {
        // 1 for the output and 2
        expect(1, list.shrink(mode, Lent::new(-2, 1, &row), ROOM - 1));
        let gap = [0, 5, 1_023, 1];
        expect(0, list.shrink(mode, Lent::new(-1, 1, &gap), ROOM));
    }
    expect(0, list.shrink(Archive, spoilt::longest().lent(), ROOM));
}

pub fn predicts(list: &mut List) {
    for table in tables() {
        for mode in MODES {
            if mode == Archive && table.rows.len() >= ROOM {
                continue;
            }
            let number = list.predict(mode, table.lent(), 16, &[5; 16]);
            if table.for_walks() > 0 {
                expect(table.for_walks(), number);
                // 1 to 3 come before 9 and 10.
                if table.rows.len() < ROOM {
                    expect(number, list.predict(mode, table.lent(), 0, &[]));
                }
            } else {
                assert!([0, 11, 12].contains(&number));
            }
        }
    }
    expect(
        0,
        list.predict(Intake, spoilt::longest().lent(), 1, &[4_095]),
    );
    let row = [0, 5, 1, -1];
    for mode in MODES {
        // 3 and 9; 9 and 10; 10 and 11; 10 and 12
        let swapped = [0, 6, 1, 1, 0, 5, 2, 1];
        expect(3, list.predict(mode, Lent::new(-1, 2, &swapped), 1, &[]));
        expect(9, list.predict(mode, Lent::new(-1, 2, &row), 1, &[]));
        expect(10, list.predict(mode, Lent::new(-1, 2, &row), 2, &[9]));
        expect(10, list.predict(mode, Lent::new(3, 2, &row), 2, &[5]));
        // 9 at the table's largest k, both sides
        let tokens = [9; 16];
        expect(9, list.predict(mode, Lent::new(3, 16, &row), 15, &tokens));
        expect(0, list.predict(mode, Lent::new(3, 16, &row), 16, &tokens));
        expect(0, list.predict(mode, Lent::new(3, 16, &row), 17, &tokens));
        expect(
            10,
            list.predict(mode, Lent::new(3, 16, &row), 17, &tokens[1..]),
        );
    }
}

pub fn explains(list: &mut List) {
    for table in tables() {
        let number = table.for_walks();
        expect(number, list.explain(table.lent(), &[5, 5, 9]));
        if table.rows.len() < ROOM {
            expect(number, list.explain(table.lent(), &[]));
            expect(number, list.explain(table.lent(), &[9]));
        }
    }
    expect(0, list.explain(spoilt::longest().lent(), &[4_096]));
}
