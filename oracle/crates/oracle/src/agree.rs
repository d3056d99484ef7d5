//! Asks the reading and, within demand 2's domain in archive mode, the Rust as well. The two must
//! agree. Each answer says whether the Rust was asked.

use crate::reading::{self, Answer, Explained, Mode, Refusal};
use crate::rust::{self, Predicted, Walker};
use crate::{Lent, Table};

/// Build has no mode: both modes build alike.
pub fn build(
    production: i32,
    lengths: &[usize],
    tokens: &[u16],
    room: usize,
) -> (bool, Answer<Table>) {
    let read = reading::build(production, lengths, tokens, room);
    let asked = in_domain(&read);
    if asked {
        let strings = strings(lengths, tokens);
        let said = rust::build(production as usize, &strings);
        assert_eq!(Ok(said), read, "build {production} {lengths:?} {tokens:?}");
    }
    (asked, read)
}

pub fn unite(mode: Mode, first: Lent, second: Lent, room: usize) -> (bool, Answer<Table>) {
    let read = reading::unite(mode, first, second, room);
    let asked = mode == Mode::Archive && in_domain(&read);
    if asked {
        let said = rust::unite(first, second).map_err(|(p, q)| Refusal::Clash(p, q));
        assert_eq!(said, read, "unite {first:?} {second:?}");
    }
    (asked, read)
}

pub fn shrink(mode: Mode, table: Lent, room: usize) -> (bool, Answer<Table>) {
    let read = reading::shrink(mode, table, room);
    let asked = mode == Mode::Archive && in_domain(&read);
    if asked {
        assert_eq!(Ok(rust::shrink(table)), read, "shrink {table:?}");
    }
    (asked, read)
}

/// A table lent to predict and explain; the Rust's form of it is made once, if at all.
pub struct Lending<'a> {
    table: Lent<'a>,
    walker: Option<Walker>,
}

impl<'a> Lending<'a> {
    pub fn new(table: Lent<'a>) -> Self {
        let taken = reading::explain(table, &[]).matched.is_ok();
        Lending {
            table,
            walker: taken.then(|| Walker::new(table)),
        }
    }

    /// At 12 the Rust gives -1 as a usize; that is outside the domain, so it does not count.
    pub fn predict(
        &self,
        mode: Mode,
        stream_k: usize,
        tokens: &[u16],
    ) -> (bool, Answer<(i32, usize)>) {
        let read = reading::predict(mode, self.table, stream_k, tokens);
        let Some(walker) = self.walker.as_ref().filter(|_| mode == Mode::Archive) else {
            return (false, read);
        };
        let said = walker.predict(stream_k, tokens);
        let alike = match read {
            Ok((production, entered)) => {
                said == Predicted::Production(production as usize, entered)
            }
            Err(refusal) => match refusal.number() {
                9 => said == Predicted::Mismatch,
                10 => said == Predicted::Short,
                11 => said == Predicted::None,
                _ => matches!(said, Predicted::Production(usize::MAX, _)),
            },
        };
        let table = self.table;
        assert!(alike, "{table:?} {stream_k} {tokens:?}: {said:?} {read:?}");
        (in_domain(&read), read)
    }

    /// Explain has no mode.
    pub fn explain(&self, tokens: &[u16]) -> (bool, Explained) {
        let read = reading::explain(self.table, tokens);
        if let Some(walker) = &self.walker {
            let stretch = &self.table.rows[read.start..read.start + read.count];
            let terminals: Vec<u16> = stretch.chunks_exact(4).map(|r| r[1] as u16).collect();
            let said = walker.explain(tokens);
            let table = self.table;
            assert_eq!(Ok(said.0), read.matched, "{table:?} {tokens:?}");
            assert_eq!(said.1, terminals, "{table:?} {tokens:?}");
        }
        (self.walker.is_some(), read)
    }
}

/// Demand 2's domain: every call that 1 to 7 and 12 to 14 do not refuse.
fn in_domain<T>(answer: &Answer<T>) -> bool {
    match answer {
        Ok(_) => true,
        Err(refusal) => (8..=11).contains(&refusal.number()),
    }
}

/// The list's strings, one after the other from the tokens.
pub fn strings<'a>(lengths: &[usize], tokens: &'a [u16]) -> Vec<&'a [u16]> {
    let mut start = 0;
    let mut string = |&length: &usize| {
        start += length;
        &tokens[start - length..start]
    };
    lengths.iter().map(&mut string).collect()
}
