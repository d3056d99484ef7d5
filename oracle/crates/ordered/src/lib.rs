//! A second build of the original `analysis/compiled_la_dfa.rs`, with a stand-in `group_by` whose
//! order of groups is chosen. The original's order comes from a `HashMap` and is random.

pub mod analysis;
#[cfg(test)]
pub(crate) mod generators;
pub mod groups;

/// The same way in as in the first build.
#[path = "../../parol/src/door.rs"]
pub mod door;

pub(crate) use groups::group_by;
pub use groups::{Order, choose};
pub(crate) use parol::KTuples;
