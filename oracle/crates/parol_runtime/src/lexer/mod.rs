//! Stand-ins for the token side: a stream over lent tokens, none of them skipped.

pub mod names;
pub mod token;
pub mod token_stream;

pub use names::terminal_names;
pub use token::{FormatToken, Token};
pub use token_stream::{TokenBuffer, TokenStream};

/// As in the original `lexer/mod.rs`.
pub type TerminalIndex = u16;
