//! Stand-in for `ParolGrammar`: `utils/mod.rs` makes, prints and converts it.

/// Stand-in for `ParolGrammar`.
#[derive(Default)]
pub struct ParolGrammar;

impl ParolGrammar {
    /// An empty one.
    pub fn new() -> Self {
        ParolGrammar
    }
}

impl std::fmt::Display for ParolGrammar {
    fn fmt(&self, _: &mut std::fmt::Formatter<'_>) -> std::fmt::Result {
        Ok(())
    }
}
