//! Stand-in for the generated parser: `utils/mod.rs` calls it.

use crate::parser::parol_grammar::ParolGrammar;
use parol_runtime::ParseTree;
use std::path::Path;

/// Stand-in for `parse`; it parses nothing.
pub fn parse(
    _input: &str,
    _file_name: impl AsRef<Path>,
    _grammar: &mut ParolGrammar,
) -> anyhow::Result<ParseTree> {
    Ok(ParseTree)
}
