//! Stand-in for the crate `parol_runtime`, around the original `parser/lookahead_dfa.rs`.

pub use log;

pub mod errors;
pub mod lexer;
pub mod parser;

pub use errors::{LexerError, ParolError, ParserError, TokenVec, UnexpectedToken};
pub use lexer::{FormatToken, TerminalIndex, Token, TokenStream};
pub use parser::{
    CompiledProductionIndex, LookaheadDFA, NonTerminalIndex, ParseTree, ProductionIndex,
    StateIndex, Trans,
};
