//! Stand-ins for the errors and for the two lists that `build_error` fills.

use crate::Token;

/// Stand-in for `LexerError`: the two errors of `lookahead_token_type`.
#[derive(Debug, Clone, PartialEq, Eq)]
pub enum LexerError {
    /// More lookahead than the stream's k.
    LookaheadExceedsMaximum,
    /// More lookahead than there are tokens.
    LookaheadExceedsTokenBufferLength,
}

/// Stand-in for `ParserError`: the two errors of `eval`.
#[derive(Debug, Clone, PartialEq, Eq)]
pub enum ParserError {
    /// The table's k is over the stream's.
    DataError(&'static str),
    /// No production.
    PredictionError {
        /// The wording, not compared.
        cause: String,
    },
}

/// Stand-in for `ParolError`.
#[derive(Debug, Clone, PartialEq, Eq)]
pub enum ParolError {
    /// From the stream.
    LexerError(LexerError),
    /// From the parser.
    ParserError(ParserError),
}

impl From<LexerError> for ParolError {
    fn from(error: LexerError) -> Self {
        ParolError::LexerError(error)
    }
}

impl From<ParserError> for ParolError {
    fn from(error: ParserError) -> Self {
        ParolError::ParserError(error)
    }
}

/// Stand-in for `UnexpectedToken`: place, name and type of a token.
#[derive(Debug, Clone, PartialEq, Eq)]
pub struct UnexpectedToken {
    /// "LA(1)" and so on.
    pub name: String,
    /// The terminal's name.
    pub token_type: String,
    /// The token itself.
    pub token: Token,
}

impl UnexpectedToken {
    /// Puts the three together.
    pub fn new(name: String, token_type: String, token: Token) -> Self {
        Self {
            name,
            token_type,
            token,
        }
    }
}

/// Stand-in for `TokenVec`: the names of the expected terminals.
#[derive(Debug, Default, Clone, PartialEq, Eq)]
pub struct TokenVec(Vec<String>);

impl TokenVec {
    /// Adds a name.
    pub fn push(&mut self, name: String) {
        self.0.push(name);
    }

    /// The names in the order in which they came.
    pub fn names(&self) -> &[String] {
        &self.0
    }
}
