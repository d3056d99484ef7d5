//! Stand-in for the crate `parol`, around the originals `analysis/lookahead_dfa.rs`,
//! `analysis/compiled_la_dfa.rs` and `utils/mod.rs`.

pub mod analysis;
pub mod config;
pub mod door;
pub(crate) mod generators;
pub mod grammar;
pub mod parser;

/// The original file; only `group_by` is used of it.
#[allow(dead_code)]
pub mod utils;

pub use analysis::{KTuple, KTuples};
pub use config::GrammarConfig;
pub(crate) use utils::group_by;
