//! Stand-in for `GrammarConfig`: `utils/mod.rs` only makes it from a grammar.

use crate::parser::parol_grammar::ParolGrammar;

/// Stand-in for `GrammarConfig`.
pub struct GrammarConfig;

impl TryFrom<ParolGrammar> for GrammarConfig {
    type Error = anyhow::Error;

    fn try_from(_grammar: ParolGrammar) -> anyhow::Result<Self> {
        Ok(GrammarConfig)
    }
}
