//! A case: what is asked of a call, and its answer; both as bytes.

use super::Bytes;
use crate::agree::{self, Lending};
use crate::make::Window;
use crate::reading::{self, Answer, Explained, Lists, Mode, Refusal};
use crate::{Lent, Table};

/// The calls by the numbers that the list gives them.
pub const CALLS: [&str; 7] = [
    "build", "unite", "shrink", "predict", "explain", "intake", "text",
];

/// What is asked. `room` is the length of the output slice.
#[derive(Debug, Clone, Copy)]
pub enum Ask<'a> {
    Build {
        production: i32,
        lengths: &'a [usize],
        tokens: &'a [u16],
        room: usize,
    },
    Unite {
        mode: Mode,
        first: Lent<'a>,
        second: Lent<'a>,
        room: usize,
    },
    Shrink {
        mode: Mode,
        table: Lent<'a>,
        room: usize,
    },
    Predict {
        mode: Mode,
        table: Lent<'a>,
        stream_k: usize,
        tokens: &'a [u16],
    },
    Explain {
        table: Lent<'a>,
        tokens: &'a [u16],
    },
    /// The windows are asked of the table that is made.
    Intake {
        lists: &'a Lists,
        room: usize,
        windows: &'a [Window],
    },
    /// A text that is taken is to be written as it was.
    Text {
        text: &'a [u8],
        room: usize,
    },
}

/// A production and the rows entered, or a refusal.
pub type Predicted = Answer<(i32, usize)>;

/// What a call answers.
#[derive(Debug, Clone, PartialEq, Eq)]
pub enum Said {
    Made(Answer<Table>),
    Predicted(Predicted),
    Explained(Explained),
    Served {
        made: Answer<Table>,
        windows: Vec<(Window, Predicted)>,
    },
    Read(Answer<Table>),
}

impl Ask<'_> {
    /// Whether the Rust was asked too, and what it and the reading say.
    pub fn agreed(self) -> (bool, Said) {
        match self {
            Ask::Build {
                production,
                lengths,
                tokens,
                room,
            } => made(agree::build(production, lengths, tokens, room)),
            Ask::Unite {
                mode,
                first,
                second,
                room,
            } => made(agree::unite(mode, first, second, room)),
            Ask::Shrink { mode, table, room } => made(agree::shrink(mode, table, room)),
            Ask::Predict {
                mode,
                table,
                stream_k,
                tokens,
            } => {
                let (asked, said) = Lending::new(table).predict(mode, stream_k, tokens);
                (asked, Said::Predicted(said))
            }
            Ask::Explain { table, tokens } => {
                let (asked, said) = Lending::new(table).explain(tokens);
                (asked, Said::Explained(said))
            }
            Ask::Intake {
                lists,
                room,
                windows,
            } => (false, served(lists, room, windows)),
            Ask::Text { text, room } => (false, read(text, room)),
        }
    }

    /// The call's number in the list.
    pub fn call(self) -> usize {
        match self {
            Ask::Build { .. } => 0,
            Ask::Unite { .. } => 1,
            Ask::Shrink { .. } => 2,
            Ask::Predict { .. } => 3,
            Ask::Explain { .. } => 4,
            Ask::Intake { .. } => 5,
            Ask::Text { .. } => 6,
        }
    }

    /// The input as numbers.
    pub fn write(self, bytes: &mut Bytes) {
        match self {
            Ask::Build {
                production,
                lengths,
                tokens,
                room,
            } => {
                bytes.signed(production);
                bytes.lengths(lengths);
                bytes.tokens(tokens);
                bytes.unsigned(room as u64);
            }
            Ask::Unite {
                mode,
                first,
                second,
                room,
            } => {
                bytes.unsigned(mode as u64);
                bytes.lent(first);
                bytes.lent(second);
                bytes.unsigned(room as u64);
            }
            Ask::Shrink { mode, table, room } => {
                bytes.unsigned(mode as u64);
                bytes.lent(table);
                bytes.unsigned(room as u64);
            }
            Ask::Predict {
                mode,
                table,
                stream_k,
                tokens,
            } => {
                bytes.unsigned(mode as u64);
                bytes.lent(table);
                bytes.unsigned(stream_k as u64);
                bytes.tokens(tokens);
            }
            Ask::Explain { table, tokens } => {
                bytes.lent(table);
                bytes.tokens(tokens);
            }
            Ask::Intake { lists, room, .. } => {
                bytes.many_signed(&lists.productions);
                bytes.lengths(&lists.counts);
                bytes.lengths(&lists.lengths);
                bytes.tokens(&lists.tokens);
                bytes.unsigned(room as u64);
            }
            Ask::Text { text, room } => {
                bytes.unsigned(text.len() as u64);
                bytes.unsigned(room as u64);
            }
        }
    }

    /// What stands behind the answer: the bytes of a text as they are.
    pub fn end(self) -> Vec<u8> {
        match self {
            Ask::Text { text, .. } => text.to_vec(),
            _ => Vec::new(),
        }
    }
}

impl Said {
    /// The refusal's number; 0: accepted.
    pub fn number(&self) -> u64 {
        match self {
            Said::Made(made) | Said::Read(made) | Said::Served { made, .. } => number(made),
            Said::Predicted(answer) => number(answer),
            Said::Explained(answer) => number(&answer.matched),
        }
    }

    /// The answer as numbers.
    pub fn write(&self, bytes: &mut Bytes) {
        match self {
            Said::Made(made) => bytes.answer(made),
            Said::Predicted(answer) => bytes.predicted(answer),
            Said::Explained(answer) => {
                bytes.unsigned(self.number());
                if let Ok(matched) = answer.matched {
                    bytes.unsigned(matched as u64);
                }
                bytes.unsigned(answer.start as u64);
                bytes.unsigned(answer.count as u64);
            }
            Said::Served { made, windows } => {
                bytes.windows(windows);
                bytes.answer(made);
            }
            Said::Read(made) => {
                bytes.unsigned(size(made) as u64);
                bytes.answer(made);
            }
        }
    }
}

/// How many numbers the answer of a call that makes a table has.
fn size(made: &Answer<Table>) -> usize {
    match made {
        Ok(table) => 5 + table.rows.len(),
        Err(Refusal::Clash(..)) => 3,
        Err(Refusal::Text(_)) => 2,
        Err(Refusal::Plain(_)) => 1,
    }
}

/// The intake desk's call by the reading, and what the lists define, which the reading must predict.
fn served(lists: &Lists, room: usize, windows: &[Window]) -> Said {
    let made = reading::intake(lists, room);
    let mut told = Vec::new();
    for &window in windows.iter().filter(|_| made.is_ok()) {
        let means = reading::defined(lists, &window).ok_or(Refusal::Plain(11));
        let table = made.as_ref().unwrap();
        let said = reading::predict(Mode::Intake, table.lent(), 3, &window);
        assert_eq!(means, said, "{lists:?} {window:?}");
        told.push((window, means));
    }
    Said::Served {
        made,
        windows: told,
    }
}

/// Text in by the reading, which must write the same text. It gives no count of states.
fn read(text: &[u8], room: usize) -> Said {
    let mut read = reading::text_in(text, room);
    if let Ok(table) = &mut read {
        table.states = 0;
        let back = reading::text_out(table.lent(), super::TEXT_ROOM);
        assert_eq!(back.as_deref(), Ok(text));
    }
    Said::Read(read)
}

fn made((asked, answer): (bool, Answer<Table>)) -> (bool, Said) {
    (asked, Said::Made(answer))
}

/// The refusal's number; 0: accepted.
pub fn number<T>(answer: &Answer<T>) -> u64 {
    answer.as_ref().err().map_or(0, |refusal| refusal.number())
}
