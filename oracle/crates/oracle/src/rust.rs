//! The calls in archive mode, answered by the original files. All inputs must be such that
//! document 01 does not refuse them by 1 to 7; the Rust has no such refusals.

use crate::{Lent, Table};
use parol::KTuples;
use parol::analysis::LookaheadDFA;
use parol::analysis::lookahead_dfa::DFAState;
use parol::door::Compiled;
use parol_runtime::lexer::terminal_names;
use parol_runtime::lexer::token_stream::NoScanner;
use parol_runtime::{
    LexerError, ParolError, ParserError, TokenStream, TokenVec, Trans, UnexpectedToken,
};
use std::collections::BTreeMap;

/// `from_k_tuples` on the strings in the order given.
pub fn build(production: usize, strings: &[&[u16]]) -> Table {
    flat(&LookaheadDFA::from_k_tuples(
        &KTuples::of(strings),
        production,
    ))
}

/// `unite`; a clash gives the first's production and the second's, from the error's last line.
pub fn unite(first: Lent, second: Lent) -> Result<Table, (i32, i32)> {
    let made = ruled(first).unite(&ruled(second));
    match made {
        Ok(dfa) => Ok(flat(&dfa)),
        Err(error) => Err(pair(&error.to_string())),
    }
}

fn pair(message: &str) -> (i32, i32) {
    let last = message.lines().last().unwrap();
    let (first, second) = last.split_once(" <--> ").unwrap();
    (first.parse().unwrap(), second.parse().unwrap())
}

/// `minimize`, reached through `from_lookahead_dfa`; the state count is only traced.
pub fn shrink(table: Lent) -> Table {
    let dfa = ruled(table);
    let (made, heard) = log::recorded(|| Compiled::from_lookahead_dfa(&dfa));
    let count = heard
        .iter()
        .find_map(|m| m.strip_prefix("After minimization: "));
    Table {
        prod0: made.prod0(),
        k: made.k(),
        states: count.unwrap().parse().unwrap(),
        rows: made.rows(),
    }
}

/// What `eval` answers.
#[derive(Debug, Clone, Copy, PartialEq, Eq)]
pub enum Predicted {
    /// The production as the release build gives it and the count of rows entered.
    /// At the corner 12 the production is -1 as a `usize`.
    Production(usize, usize),
    /// 9: the table's k is over the stream's.
    Mismatch,
    /// 10: fewer tokens than the table's k.
    Short,
    /// 11: no production.
    None,
}

/// A table as the generated parsers hold it. Its rows go with it, so neither is handed out.
pub struct Walker(parol_runtime::LookaheadDFA, *mut [Trans]);

impl Walker {
    /// The rows become `&'static [Trans]`.
    pub fn new(table: Lent) -> Self {
        let rows: Vec<Trans> = table.rows.chunks_exact(4).map(trans).collect();
        let held = Box::into_raw(rows.into_boxed_slice());
        // SAFETY: the rows live as long as the walker does.
        let rows: &'static [Trans] = unsafe { &*held };
        let dfa = parol_runtime::LookaheadDFA::new(table.prod0, rows, table.k);
        Walker(dfa, held)
    }

    /// Calls the original and does nothing else; inlined as the original is.
    #[inline(always)]
    pub fn eval(&self, stream: &mut TokenStream<'_, NoScanner>) -> Result<usize, ParolError> {
        self.0.eval(stream, 0)
    }

    /// Calls the original and does nothing else.
    pub fn build_error(
        &self,
        names: &'static [&'static str],
        stream: &TokenStream<'_, NoScanner>,
    ) -> Result<(String, Vec<UnexpectedToken>, TokenVec), LexerError> {
        self.0.build_error(names, stream)
    }

    /// `eval`; the rows entered are only traced, as "from, terminal => to".
    pub fn predict(&self, stream_k: usize, tokens: &[u16]) -> Predicted {
        let mut stream = TokenStream::lent(tokens, stream_k);
        let (answer, heard) = log::recorded(|| self.eval(&mut stream));
        let entered = heard.iter().filter(|m| m.contains(" => ")).count();
        match answer {
            Ok(production) => Predicted::Production(production, entered),
            Err(ParolError::ParserError(ParserError::DataError(_))) => Predicted::Mismatch,
            Err(ParolError::ParserError(ParserError::PredictionError { .. })) => Predicted::None,
            Err(ParolError::LexerError(LexerError::LookaheadExceedsTokenBufferLength)) => {
                Predicted::Short
            }
            Err(error) => panic!("not an error of eval on these inputs: {error:?}"),
        }
    }

    /// `build_error`: the count of matched tokens and the terminals expected.
    pub fn explain(&self, tokens: &[u16]) -> (usize, Vec<u16>) {
        let stream = TokenStream::lent(tokens, tokens.len());
        let (message, seen, expected) = self.build_error(terminal_names(), &stream).unwrap();
        // The token at which the walk stopped is listed too; only its entry ends in a full stop.
        let matched = seen.len() - message.ends_with('.') as usize;
        let terminals = expected.names().iter().map(|n| n.parse().unwrap());
        (matched, terminals.collect())
    }
}

impl Drop for Walker {
    fn drop(&mut self) {
        // SAFETY: `new` made them, and only the table that goes now has them.
        drop(unsafe { Box::from_raw(self.1) });
    }
}

/// As [`Walker::predict`], for a table used once.
pub fn predict(table: Lent, stream_k: usize, tokens: &[u16]) -> Predicted {
    Walker::new(table).predict(stream_k, tokens)
}

/// As [`Walker::explain`], for a table used once.
pub fn explain(table: Lent, tokens: &[u16]) -> (usize, Vec<u16>) {
    Walker::new(table).explain(tokens)
}

fn trans(row: &[i32]) -> Trans {
    Trans(row[0] as usize, row[1] as u16, row[2] as usize, row[3])
}

/// A ruled table as the Rust holds it. The states stand in rising order, so in a tree each stands
/// at the place of its number, as `unite` needs; `from_lookahead_dfa` goes by their own numbers.
pub fn ruled(table: Lent) -> LookaheadDFA {
    let mut productions = BTreeMap::from([(0, table.prod0)]);
    let mut transitions: BTreeMap<usize, BTreeMap<u16, usize>> = BTreeMap::new();
    for row in table.rows.chunks_exact(4) {
        let (from, terminal, to) = (row[0] as usize, row[1] as u16, row[2] as usize);
        productions.insert(to, row[3]);
        transitions.entry(from).or_default().insert(terminal, to);
    }
    let state = |(id, prod_num)| DFAState { id, prod_num };
    LookaheadDFA {
        states: productions.into_iter().map(state).collect(),
        transitions,
        k: table.k,
    }
}

/// The other way: rows rising by (from, terminal), each with its to-state's production.
pub fn flat(dfa: &LookaheadDFA) -> Table {
    let mut rows = Vec::new();
    for (&from, leaving) in &dfa.transitions {
        for (&terminal, &to) in leaving {
            let production = dfa.states[to].prod_num;
            rows.extend([from as i32, terminal as i32, to as i32, production]);
        }
    }
    Table {
        prod0: dfa.states[0].prod_num,
        k: dfa.k,
        states: dfa.states.len(),
        rows,
    }
}
