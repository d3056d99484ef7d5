//! Stand-in for `analysis/mod.rs`: the two original modules and the list stand-in.

/// The original file.
pub(crate) mod compiled_la_dfa;
pub mod k_tuples;
/// The original file.
pub mod lookahead_dfa;

pub use k_tuples::{KTuple, KTuples};
pub use lookahead_dfa::LookaheadDFA;
