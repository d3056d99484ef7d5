//! Stand-in for the crate `syntree_layout`: as much of `Layouter` as `utils/mod.rs` names.

use anyhow::Result;
use parol_runtime::ParseTree;
use std::path::Path;

/// Stand-in for `Layouter`; it draws nothing.
pub struct Layouter;

impl Layouter {
    /// Takes the tree and drops it.
    pub fn new(_tree: &ParseTree) -> Self {
        Layouter
    }

    /// Takes the path and drops it.
    pub fn with_file_path(self, _path: &Path) -> Self {
        self
    }

    /// Takes the text and drops it.
    pub fn embed_with_source_and_display(self, _source: &str) -> Result<Self> {
        Ok(self)
    }

    /// Writes nothing.
    pub fn write(&self) -> Result<()> {
        Ok(())
    }
}
