//! The way in: `CompiledDFA` is private to the crate, so it is handed out wrapped.

use crate::analysis::LookaheadDFA;
use crate::analysis::compiled_la_dfa::{CompiledDFA, CompiledTransition};

/// What the original `CompiledDFA::from_lookahead_dfa` made; it ends in `minimize`.
pub struct Compiled(CompiledDFA);

impl Compiled {
    /// Calls the original and does nothing else.
    pub fn from_lookahead_dfa(dfa: &LookaheadDFA) -> Self {
        Compiled(CompiledDFA::from_lookahead_dfa(dfa))
    }

    /// State 0's production.
    pub fn prod0(&self) -> i32 {
        self.0.prod0
    }

    /// The table's k.
    pub fn k(&self) -> usize {
        self.0.k
    }

    /// The rows, four numbers each, in the order in which the original gives them.
    pub fn rows(&self) -> Vec<i32> {
        self.0.transitions.iter().flat_map(row).collect()
    }
}

fn row(t: &CompiledTransition) -> [i32; 4] {
    [
        t.from_state as i32,
        t.term as i32,
        t.to_state as i32,
        t.prod_num,
    ]
}
