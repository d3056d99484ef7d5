//! The numbers of a case as bytes.

use super::case::{Predicted, number};
use crate::make::Window;
use crate::reading::{Answer, Refusal};
use crate::{Lent, Table};

/// Writes numbers one after the other.
#[derive(Debug, Default, Clone)]
pub struct Bytes(pub Vec<u8>);

impl Bytes {
    /// 7 bits a byte, low first, top bit set if more follow.
    pub fn unsigned(&mut self, mut number: u64) {
        while number > 127 {
            self.0.push(number as u8 | 128);
            number >>= 7;
        }
        self.0.push(number as u8);
    }

    /// 2x if x is not below 0, else -2x - 1, then as above.
    pub fn signed(&mut self, number: i32) {
        let wide = i64::from(number);
        let turned = if wide >= 0 { 2 * wide } else { -2 * wide - 1 };
        self.unsigned(turned as u64);
    }

    /// A count and then each number.
    pub fn many_signed(&mut self, numbers: &[i32]) {
        self.unsigned(numbers.len() as u64);
        numbers.iter().for_each(|&n| self.signed(n));
    }

    /// A count and then each token.
    pub fn tokens(&mut self, tokens: &[u16]) {
        self.unsigned(tokens.len() as u64);
        tokens.iter().for_each(|&t| self.unsigned(t.into()));
    }

    /// A count and then each length.
    pub fn lengths(&mut self, lengths: &[usize]) {
        self.unsigned(lengths.len() as u64);
        lengths.iter().for_each(|&l| self.unsigned(l as u64));
    }

    /// A table: prod0, k, a count and then each number of its rows.
    pub fn lent(&mut self, table: Lent) {
        self.signed(table.prod0);
        self.unsigned(table.k as u64);
        self.many_signed(table.rows);
    }

    /// What a call that makes a table answers: a clash with its pair, a bad line with its place.
    pub fn answer(&mut self, made: &Answer<Table>) {
        self.unsigned(number(made));
        match made {
            Ok(table) => {
                self.signed(table.prod0);
                self.unsigned(table.k as u64);
                self.unsigned(table.states as u64);
                self.unsigned(table.rows.len() as u64 / 4);
                table.rows.iter().for_each(|&n| self.signed(n));
            }
            Err(Refusal::Clash(first, second)) => {
                self.unsigned(*first as u64);
                self.unsigned(*second as u64);
            }
            Err(Refusal::Text(at)) => self.unsigned(*at as u64),
            Err(Refusal::Plain(_)) => {}
        }
    }

    /// A refusal's number and two 0, or 0, the production and the rows entered.
    pub fn predicted(&mut self, answer: &Predicted) {
        self.unsigned(number(answer));
        let (production, entered) = answer.unwrap_or((0, 0));
        self.unsigned(production as u64);
        self.unsigned(entered as u64);
    }

    /// A count of numbers, six a window: three tokens and a prediction.
    pub fn windows(&mut self, windows: &[(Window, Predicted)]) {
        self.unsigned(6 * windows.len() as u64);
        for (window, answer) in windows {
            window.iter().for_each(|&t| self.unsigned(t.into()));
            self.predicted(answer);
        }
    }
}
