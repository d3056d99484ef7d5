//! The tables of the Rust's own tests: shrunk by archive as they say, and predicted on their own
//! strings before and after.

use super::shrink::shrunk;
use super::{Named, lent, made, predict, refused};
use crate::list::tables::{COMPLETE, MINIMIZE, MULTIPLE, RENUMBER, Row, SELF_LOOP};
use crate::reading::Mode::Archive;

pub fn all() -> Vec<Named> {
    let mut all = minimize();
    all.extend(multiple());
    all.extend(renumber());
    all.extend(complete());
    let table = lent(-1, 2, SELF_LOOP);
    let name = "test_minimize_no_spurious_self_loop: 4";
    all.push(shrunk(name, Archive, table, refused(4)));
    all
}

/// Two tokens, and the production and the count of rows entered.
type String = (&'static [u16], (i32, usize));

/// Each string of a table with its production.
fn strings(name: &'static str, k: usize, rows: &'static [Row], strings: &[String]) -> Named {
    let case = |&(tokens, said): &String| predict(Archive, lent(-1, k, rows), 2, tokens, Ok(said));
    Named {
        name,
        cases: strings.iter().map(case).collect(),
    }
}

fn minimize() -> Vec<Named> {
    let small = &[[0, 0, 3, 5], [0, 5, 1, -1], [1, 0, 3, 5], [1, 6, 2, 4]];
    let said: [String; 3] = [(&[0, 9], (5, 1)), (&[5, 0], (5, 2)), (&[5, 6], (4, 2))];
    let [before, shrink, after] = [
        "test_minimize, its strings before",
        "test_minimize, its rows",
        "test_minimize, its strings after",
    ];
    vec![
        strings(before, 2, MINIMIZE, &said),
        shrunk(
            shrink,
            Archive,
            lent(-1, 2, MINIMIZE),
            made(-1, 2, 4, small),
        ),
        strings(after, 2, small, &said),
    ]
}

fn multiple() -> Vec<Named> {
    let small = &[[0, 0, 2, 2], [0, 5, 2, 2], [0, 6, 1, 1]];
    let said: [String; 3] = [(&[0, 9], (2, 1)), (&[5, 9], (2, 1)), (&[6, 9], (1, 1))];
    let [before, shrink, after] = [
        "test_minimize_multiple_transitions, its strings before",
        "test_minimize_multiple_transitions, its rows",
        "test_minimize_multiple_transitions, its strings after",
    ];
    vec![
        strings(before, 2, MULTIPLE, &said),
        shrunk(
            shrink,
            Archive,
            lent(-1, 2, MULTIPLE),
            made(-1, 2, 3, small),
        ),
        strings(after, 2, small, &said),
    ]
}

const RENUMBERED: &[Row] = &[
    [0, 17, 2, 25],
    [0, 18, 2, 25],
    [0, 19, 1, 24],
    [0, 21, 1, 24],
    [0, 22, 1, 24],
    [0, 23, 1, 24],
    [0, 24, 1, 24],
    [0, 25, 2, 25],
    [0, 26, 1, 24],
    [0, 27, 2, 25],
    [0, 28, 1, 24],
    [0, 29, 2, 25],
    [0, 30, 1, 24],
    [0, 33, 1, 24],
    [0, 34, 1, 24],
    [0, 35, 1, 24],
];

const OF_RENUMBERED: [String; 16] = [
    (&[17, 9], (25, 1)),
    (&[18, 9], (25, 1)),
    (&[25, 9], (25, 1)),
    (&[27, 9], (25, 1)),
    (&[29, 9], (25, 1)),
    (&[19, 9], (24, 1)),
    (&[21, 9], (24, 1)),
    (&[22, 9], (24, 1)),
    (&[23, 9], (24, 1)),
    (&[24, 9], (24, 1)),
    (&[26, 9], (24, 1)),
    (&[28, 9], (24, 1)),
    (&[30, 9], (24, 1)),
    (&[33, 9], (24, 1)),
    (&[34, 9], (24, 1)),
    (&[35, 9], (24, 1)),
];

fn renumber() -> Vec<Named> {
    let [before, shrink, after] = [
        "test_minimize_renumber_states, its strings before",
        "test_minimize_renumber_states, its rows",
        "test_minimize_renumber_states, its strings after",
    ];
    let small = made(-1, 2, 3, RENUMBERED);
    vec![
        strings(before, 1, RENUMBER, &OF_RENUMBERED),
        shrunk(shrink, Archive, lent(-1, 2, RENUMBER), small),
        strings(after, 1, RENUMBERED, &OF_RENUMBERED),
    ]
}

const COMPLETED: &[Row] = &[
    [0, 0, 1, -1],
    [0, 1, 2, -1],
    [0, 2, 2, -1],
    [1, 4, 3, 7],
    [1, 6, 4, 8],
    [2, 5, 4, 8],
    [2, 12, 4, 8],
];

fn complete() -> Vec<Named> {
    let said: [String; 6] = [
        (&[0, 4], (7, 2)),
        (&[0, 6], (8, 2)),
        (&[1, 5], (8, 2)),
        (&[2, 5], (8, 2)),
        (&[1, 12], (8, 2)),
        (&[2, 12], (8, 2)),
    ];
    let [before, shrink, after] = [
        "test_minimize_complete, its strings before",
        "test_minimize_complete, its rows",
        "test_minimize_complete, its strings after",
    ];
    let small = made(-1, 2, 5, COMPLETED);
    vec![
        strings(before, 2, COMPLETE, &said),
        shrunk(shrink, Archive, lent(-1, 2, COMPLETE), small),
        strings(after, 2, COMPLETED, &said),
    ]
}
