//! The two original modules, compiled a second time from the same files.

/// The original file.
#[path = "../../../parol/src/analysis/compiled_la_dfa.rs"]
pub(crate) mod compiled_la_dfa;
/// The original file; only its types are used here.
#[path = "../../../parol/src/analysis/lookahead_dfa.rs"]
pub mod lookahead_dfa;

pub use lookahead_dfa::LookaheadDFA;
