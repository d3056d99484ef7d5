//! The list, written case by case. Each call here asks the reading and, where it has a say, the
//! Rust, writes the case down and gives the refusal's number (0: accepted).

use super::Bytes;
use super::case::{Ask, CALLS, Said};
use super::named::Named;
use crate::Lent;
use crate::make::Window;
use crate::reading::{Lists, Mode};
use std::collections::{BTreeMap, HashSet};

/// The number that stands where a case has its call's: what follows is a name.
pub const NAME: u64 = CALLS.len() as u64;

/// The bytes and the counts.
#[derive(Default)]
pub struct List {
    pub bytes: Vec<u8>,
    /// For each call and each refusal number: cases in all, and those that the Rust answered.
    pub counts: [BTreeMap<u64, (usize, usize)>; CALLS.len()],
    seen: HashSet<Vec<u8>>,
}

impl List {
    pub fn build(
        &mut self,
        production: i32,
        lengths: &[usize],
        tokens: &[u16],
        room: usize,
    ) -> u64 {
        self.ask(Ask::Build {
            production,
            lengths,
            tokens,
            room,
        })
    }

    pub fn unite(&mut self, mode: Mode, first: Lent, second: Lent, room: usize) -> u64 {
        self.ask(Ask::Unite {
            mode,
            first,
            second,
            room,
        })
    }

    pub fn shrink(&mut self, mode: Mode, table: Lent, room: usize) -> u64 {
        self.ask(Ask::Shrink { mode, table, room })
    }

    pub fn predict(&mut self, mode: Mode, table: Lent, stream_k: usize, tokens: &[u16]) -> u64 {
        self.ask(Ask::Predict {
            mode,
            table,
            stream_k,
            tokens,
        })
    }

    pub fn explain(&mut self, table: Lent, tokens: &[u16]) -> u64 {
        self.ask(Ask::Explain { table, tokens })
    }

    pub fn intake(&mut self, lists: &Lists, room: usize, windows: &[Window]) -> u64 {
        self.ask(Ask::Intake {
            lists,
            room,
            windows,
        })
    }

    pub fn text(&mut self, text: &[u8], room: usize) -> u64 {
        self.ask(Ask::Text { text, room })
    }

    /// Cases with the answers written by hand, in the list already or not, and their name.
    pub fn named(&mut self, named: &Named) {
        for (ask, said) in &named.cases {
            let case = case(*ask, ask.agreed().0, said);
            self.seen.insert(case.0.clone());
            self.add(*ask, ask.agreed().0, said, &case);
        }
        let mut name = Bytes::default();
        name.unsigned(NAME);
        name.unsigned(named.cases.len() as u64);
        name.0.extend(named.name.as_bytes());
        self.put(&name);
    }

    /// A case, unless it is there already.
    fn ask(&mut self, ask: Ask) -> u64 {
        let (asked, said) = ask.agreed();
        let case = case(ask, asked, &said);
        if self.seen.insert(case.0.clone()) {
            self.add(ask, asked, &said, &case);
        }
        said.number()
    }

    fn add(&mut self, ask: Ask, asked: bool, said: &Said, case: &Bytes) {
        let count = self.counts[ask.call()].entry(said.number()).or_default();
        count.0 += 1;
        count.1 += asked as usize;
        self.put(case);
    }

    fn put(&mut self, bytes: &Bytes) {
        self.bytes.extend(&bytes.0.len().to_le_bytes()[..3]);
        self.bytes.extend(&bytes.0);
    }

    /// The counts as the lines of a table.
    pub fn counts(&self) -> String {
        let mut lines = String::from("| call | answer | cases | answered by the Rust too |\n");
        lines += "|---|---|---|---|\n";
        for (name, counts) in CALLS.iter().zip(&self.counts) {
            for (number, (cases, asked)) in counts {
                let answer = match number {
                    0 => "accepted".to_string(),
                    _ => format!("refused {number}"),
                };
                lines += &format!("| {name} | {answer} | {cases} | {asked} |\n");
            }
            let sum = |of: fn(&(usize, usize)) -> usize| counts.values().map(of).sum::<usize>();
            let (cases, asked) = (sum(|c| c.0), sum(|c| c.1));
            lines += &format!("| {name} | all | {cases} | {asked} |\n");
        }
        lines
    }
}

/// The bytes of a case: call, source, input, answer, end.
fn case(ask: Ask, asked: bool, said: &Said) -> Bytes {
    let mut bytes = Bytes::default();
    bytes.unsigned(ask.call() as u64);
    bytes.unsigned(asked.into());
    ask.write(&mut bytes);
    said.write(&mut bytes);
    bytes.0.extend(ask.end());
    bytes
}
