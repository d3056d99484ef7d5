//! Numbers at the boundaries, and every limit from both sides.

use super::texts;
use crate::desk::{Desk, GUARD};
use crate::part::Part;
use oracle::list::{ROOM, TEXT_ROOM};
use oracle::make::{self, Strings};
use oracle::reading::MODES;
use oracle::{Lent, Table};

/// One row in all its boundary numbers.
fn rows() -> Vec<[i32; 4]> {
    let mut all = Vec::new();
    for from in [-1, 0, 1, 1_023, 1_024] {
        for terminal in [-1, 0, 65_535, 65_536] {
            for to in [-1, 0, 1, 2, 1_023, 1_024] {
                for production in [-2, -1, 0, 65_535, 65_536] {
                    all.push([from, terminal, to, production]);
                }
            }
        }
    }
    all
}

/// All tables of one such row with all heads; all of two such rows (in a short run every other).
pub fn tables(desk: &mut Desk, part: Part) {
    let all = rows();
    for (_, row) in all.iter().enumerate().filter(|(i, _)| part.has(*i)) {
        for prod0 in [-2, -1, 0, 65_535, 65_536, i32::MIN, i32::MAX] {
            for k in [0, 1, 16, 17, 1 << 32, usize::MAX] {
                everywhere(desk, Lent::new(prod0, k, row));
            }
        }
    }
    let step = if part.long { 1 } else { 2 };
    for (i, a) in all.iter().enumerate() {
        for (j, b) in all.iter().enumerate() {
            let case = i * all.len() + j;
            if case.is_multiple_of(step) && part.has(case / step) {
                everywhere(desk, Lent::new(-1, 1, &[*a, *b].concat()));
            }
        }
    }
}

/// One table in every call that takes one but batch, which has families of its own.
fn everywhere(desk: &mut Desk, t: Lent) {
    let good = Lent::new(-1, 1, &[0, 0, 1, 0]);
    for mode in MODES {
        let _ = desk.shrink(mode, t, ROOM);
    }
    let mode = MODES[t.rows[0] as usize % 2];
    let _ = desk.unite(mode, t, good, ROOM);
    let _ = desk.unite(mode, good, t, ROOM);
    let mut lent = desk.lend(t);
    let _ = desk.predict(&mut lent, mode, 16, &[0; 16]);
    desk.explain(&mut lent, &[65_535, 0]);
    let _ = desk.text_out(t, TEXT_ROOM);
}

pub fn limits(desk: &mut Desk, part: Part) {
    if part.index == 0 {
        rooms(desk);
        strings(desk);
        states(desk);
        longest(desk);
        full(desk);
    }
}

/// Every output one short, just long enough, and longer.
fn rooms(desk: &mut Desk) {
    let row = [0, 5, 1, 1];
    for (t, number) in [
        (Lent::new(-1, 1, &row), 0),
        (Lent::new(-2, 17, &row[..3]), 1),
    ] {
        for room in [0, 1, ROOM - 1, ROOM, ROOM + 1, ROOM + GUARD] {
            let refused = room < ROOM || number > 0;
            for mode in MODES {
                assert_eq!(refused, desk.shrink(mode, t, room).is_err());
                assert_eq!(refused, desk.unite(mode, t, t, room).is_err());
            }
            let _ = desk.build(1, &[1], &[5], room);
            let _ = desk.build(-1, &[17], &[5; 17], room);
            let _ = desk.text_in(b"Dfa(-1, 1)\nTrans(0, 5, 1, 1),\n", room);
            let _ = desk.text_in(b"Dfa", room);
            for lists in [
                super::intake::lists_of(&[(1, &[&[5]])]),
                super::intake::lists_of(&[]),
            ] {
                let _ = desk.intake(&lists, room);
            }
        }
        for room in [
            0,
            1,
            TEXT_ROOM - 1,
            TEXT_ROOM,
            TEXT_ROOM + 1,
            TEXT_ROOM + GUARD,
        ] {
            assert_eq!(
                room < TEXT_ROOM || number > 0,
                desk.text_out(t, room).is_err()
            );
        }
    }
}

/// 1,024 and 1,025 strings, 16 and 17 tokens, sums that wrap.
fn strings(desk: &mut Desk) {
    for (count, number) in [(1_023, 0), (1_024, 0), (1_025, 1)] {
        for length in [0, 1, 16] {
            let tokens = vec![9; count * length];
            let made = desk.build(1, &vec![length; count], &tokens, ROOM);
            assert_eq!(number, made.map_or_else(|r| r.number(), |_| 0));
        }
    }
    for (length, number) in [(15, 0), (16, 0), (17, 2)] {
        let made = desk.build(65_535, &[1, length], &vec![9; length + 1], ROOM);
        assert_eq!(number, made.map_or_else(|r| r.number(), |_| 0));
    }
    let max = usize::MAX;
    for lengths in [
        &[max, 1][..],
        &[max, 2],
        &[1 << 63, 1 << 63],
        &[max],
        &[1 << 54; 1_024],
    ] {
        for tokens in [&[][..], &[7]] {
            assert!(desk.build(1, lengths, tokens, ROOM).is_err());
        }
    }
    for production in [i32::MIN, -1, 0, 65_535, 65_536, i32::MAX] {
        let _ = desk.build(production, &[1], &[5], ROOM);
    }
}

/// Strings with no first token in common that need so many states.
fn comb(states: usize) -> Strings {
    let mut list = Strings::default();
    let mut left = states - 1;
    while left > 0 {
        let length = left.min(16);
        list.push(&vec![list.lengths.len() as u16; length]);
        left -= length;
    }
    list
}

/// 1,023, 1,024 and 1,025 states in build, and in unite of two that share none.
fn states(desk: &mut Desk) {
    let mut trees: Vec<Table> = Vec::new();
    for states in [1, 2, 3, 1_022, 1_023, 1_024, 1_025] {
        let list = comb(states);
        let made = desk.build(1, &list.lengths, &list.tokens, ROOM);
        assert_eq!(states > 1_024, made.is_err());
        trees.extend(made);
    }
    for a in &trees {
        for b in &trees {
            let mut apart = b.clone();
            apart
                .rows
                .chunks_exact_mut(4)
                .filter(|r| r[0] == 0)
                .for_each(|r| r[1] += 60_000);
            for mode in MODES {
                let _ = desk.unite(mode, a.lent(), b.lent(), ROOM);
                let _ = desk.unite(mode, a.lent(), apart.lent(), ROOM);
            }
        }
        for mode in MODES {
            let _ = desk.shrink(mode, a.lent(), ROOM);
        }
    }
}

/// 1,024 states of plain shapes: one production, one at the last state, one for each, every other, none.
fn full(desk: &mut Desk) {
    let productions: [fn(i32) -> i32; 5] = [
        |_| 1,
        |to| if to == 1_023 { 1 } else { -1 },
        |to| to,
        |to| to % 2 - 1,
        |_| -1,
    ];
    for (_, shape) in make::SHAPES {
        for production in productions {
            let table = make::full(shape, production);
            for mode in MODES {
                let _ = desk.shrink(mode, table.lent(), ROOM);
                let _ = desk.unite(mode, table.lent(), table.lent(), ROOM);
            }
            let _ = desk.text_out(table.lent(), TEXT_ROOM);
        }
    }
}

/// Lines behind all others: one that is good, one out of form behind it, one out of range, one out of order.
const MORE: [&str; 4] = [
    "Trans(1023, 65535, 1, 1),\n",
    "Trans(1023, 65535, 1, 1),\nTrans(\n",
    "Trans(1023, 65536, 1, 1),\n",
    "Trans(0, 0, 1, 1),\n",
];

/// 4,095 to 4,097 rows and far more, all into one state or widest in text, and slices of 1 to 3 numbers less.
fn longest(desk: &mut Desk) {
    for count in [4_095, 4_096, 4_097, 9_000] {
        let star: Vec<i32> = (0..count).flat_map(|t| [0, t, 1, 1]).collect();
        let wide: Vec<i32> = (0..count)
            .flat_map(|t| [1_000 + t / 256, 60_000 + t % 256, 1_023, 65_535])
            .collect();
        for rows in [&star, &wide] {
            for cut in 0..4 {
                everywhere(desk, Lent::new(65_535, 16, &rows[..rows.len() - cut]));
            }
            let mut text = String::from("Dfa(65535, 16)\n");
            rows.chunks_exact(4)
                .for_each(|r| text += &format!("Trans({}, {}, {}, {}),\n", r[0], r[1], r[2], r[3]));
            texts::read(desk, text.as_bytes());
            texts::read(desk, &text.as_bytes()[..text.len() - 1]);
            for more in MORE {
                texts::read(desk, format!("{text}{more}").as_bytes());
            }
        }
    }
}
