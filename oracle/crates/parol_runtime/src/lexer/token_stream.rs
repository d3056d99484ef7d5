//! Stand-in for `TokenStream`: lent tokens with the tests that the real `lookahead_token_type`
//! shows, and without its padding.

use super::{TerminalIndex, Token};
use crate::LexerError;
use std::marker::PhantomData;

/// Stand-in for `TokenBuffer`: the lent tokens.
pub struct TokenBuffer<'t> {
    lent: &'t [TerminalIndex],
}

impl TokenBuffer<'_> {
    /// All tokens; none is a skip token here.
    pub fn non_skip_tokens(&self) -> impl Iterator<Item = Token> {
        self.lent.iter().map(|&token_type| Token { token_type })
    }
}

/// Stand-in for `TokenStream`; `F` is the real one's scanner function and never called.
pub struct TokenStream<'t, F>
where
    F: Fn(char) -> Option<usize> + 'static + Clone,
{
    /// The stream's own k.
    pub k: usize,
    /// The lent tokens.
    pub tokens: TokenBuffer<'t>,
    scanner: PhantomData<F>,
}

/// The scanner function's type where none is needed.
pub type NoScanner = fn(char) -> Option<usize>;

impl<'t> TokenStream<'t, NoScanner> {
    /// A stream over lent tokens.
    pub fn lent(tokens: &'t [TerminalIndex], k: usize) -> Self {
        Self {
            k,
            tokens: TokenBuffer { lent: tokens },
            scanner: PhantomData,
        }
    }
}

impl<F> TokenStream<'_, F>
where
    F: Fn(char) -> Option<usize> + 'static + Clone,
{
    /// The tests stand in the order of the real function.
    pub fn lookahead_token_type(&mut self, n: usize) -> Result<TerminalIndex, LexerError> {
        if n >= self.k {
            Err(LexerError::LookaheadExceedsMaximum)
        } else if n >= self.tokens.lent.len() {
            Err(LexerError::LookaheadExceedsTokenBufferLength)
        } else {
            Ok(self.tokens.lent[n])
        }
    }

    /// The types of all tokens; only traced.
    pub(crate) fn token_types(&self) -> Vec<TerminalIndex> {
        self.tokens.lent.to_vec()
    }
}
