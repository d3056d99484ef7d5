//! Stand-in for `parser/mod.rs`: the number types, worded as there, and the original module.

/// As in the original.
pub type StateIndex = usize;
/// As in the original.
pub type ProductionIndex = usize;
/// As in the original.
pub type CompiledProductionIndex = i32;
/// As in the original.
pub type NonTerminalIndex = usize;
/// As in the original.
pub const INVALID_PROD: CompiledProductionIndex = -1;

/// The original file.
pub mod lookahead_dfa;
pub use lookahead_dfa::{LookaheadDFA, Trans};

/// Stand-in for `ParseTree`: `utils/mod.rs` only names it.
pub struct ParseTree;
