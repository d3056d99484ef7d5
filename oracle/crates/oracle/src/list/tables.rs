//! The tables of the Rust's own tests, rows put in rising order.

use crate::Table;

/// A row: from, terminal, to, production.
pub type Row = [i32; 4];

/// `test_minimize`.
pub const MINIMIZE: &[Row] = &[[0, 0, 3, 5], [0, 5, 1, -1], [1, 0, 4, 5], [1, 6, 2, 4]];

/// `test_minimize_multiple_transitions`.
pub const MULTIPLE: &[Row] = &[[0, 0, 2, 2], [0, 5, 2, 2], [0, 6, 1, 1]];

/// `test_minimize_renumber_states`.
pub const RENUMBER: &[Row] = &[
    [0, 17, 12, 25],
    [0, 18, 13, 25],
    [0, 19, 1, 24],
    [0, 21, 2, 24],
    [0, 22, 3, 24],
    [0, 23, 4, 24],
    [0, 24, 5, 24],
    [0, 25, 14, 25],
    [0, 26, 6, 24],
    [0, 27, 15, 25],
    [0, 28, 7, 24],
    [0, 29, 16, 25],
    [0, 30, 8, 24],
    [0, 33, 9, 24],
    [0, 34, 10, 24],
    [0, 35, 11, 24],
];

/// `test_minimize_complete`.
pub const COMPLETE: &[Row] = &[
    [0, 0, 1, -1],
    [0, 1, 2, -1],
    [0, 2, 3, -1],
    [1, 4, 9, 7],
    [1, 6, 12, 8],
    [2, 5, 10, 8],
    [2, 12, 10, 8],
    [3, 5, 11, 8],
    [3, 12, 11, 8],
];

/// `test_minimize_no_spurious_self_loop`.
pub const SELF_LOOP: &[Row] = &[[0, 1, 1, -1], [0, 2, 2, 5], [1, 1, 0, -1], [1, 2, 1, 5]];

/// The tables of the tests of `compiled_la_dfa.rs`, but for the self-loop test.
pub fn rust_tables() -> Vec<Table> {
    vec![
        table(2, 5, MINIMIZE),
        table(2, 3, MULTIPLE),
        table(1, 17, RENUMBER),
        table(2, 8, COMPLETE),
    ]
}

/// The table of the self-loop test; document 01 refuses it by 4.
pub fn self_loop() -> Table {
    table(1, 3, SELF_LOOP)
}

fn table(k: usize, states: usize, rows: &[Row]) -> Table {
    Table {
        prod0: -1,
        k,
        states,
        rows: rows.concat(),
    }
}
