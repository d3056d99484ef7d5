//! Stand-in for `Token` and `FormatToken`: a token is its type.

use super::TerminalIndex;

/// Stand-in for `Token`.
#[derive(Debug, Clone, Copy, PartialEq, Eq)]
pub struct Token {
    /// The terminal.
    pub token_type: TerminalIndex,
}

/// Stand-in for `FormatToken`.
pub trait FormatToken {
    /// The name of the token's terminal.
    fn format(&self, terminal_names: &'static [&'static str]) -> String;
}

impl FormatToken for Token {
    fn format(&self, terminal_names: &'static [&'static str]) -> String {
        terminal_names[self.token_type as usize].to_owned()
    }
}
