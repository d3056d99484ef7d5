//! Trees of 1,024 states, the most there are, of plain shapes.

use crate::Table;

/// The state that a row into a state comes from, and its terminal.
type Shape = fn(i32) -> (i32, i32);

/// The shapes with their names: one state with 1,023 rows; a chain; two rows from each state.
pub const SHAPES: [(&str, Shape); 3] = [
    ("star", |to| (0, to)),
    ("chain", |to| (to - 1, 7)),
    ("halves", |to| ((to - 1) / 2, (to - 1) % 2)),
];

/// The tree of a shape: a production for each state but 0.
pub fn full(shape: Shape, production: fn(i32) -> i32) -> Table {
    let row = |to| {
        let (from, terminal) = shape(to);
        [from, terminal, to, production(to)]
    };
    Table {
        prod0: -1,
        k: 16,
        states: 1_024,
        rows: (1..=1_023).flat_map(row).collect(),
    }
}
