//! The committed list is what the generator makes, and reads back by its own README.

use oracle::reading::{self, Answer, Lists, Mode, Refusal};
use oracle::{Lent, Table, list};
use std::collections::BTreeSet;
use std::path::PathBuf;

fn repository() -> PathBuf {
    PathBuf::from(env!("CARGO_MANIFEST_DIR")).join("../../..")
}

fn committed() -> Vec<u8> {
    std::fs::read(repository().join("crates").join(list::PATH)).unwrap()
}

#[test]
fn made_again_it_is_the_same() {
    let list = list::make();
    assert!(committed() == list.bytes);
    assert!(list.bytes.len() <= 3_000_000);
    let readme = std::fs::read_to_string(repository().join("oracle/list/README.md")).unwrap();
    assert!(readme.contains(&list.counts()), "counts in list/README.md");
}

/// What the program that replays the list is to print: each name, then each call's counts.
#[test]
fn the_program_says_as_much() {
    let mut lines = String::new();
    for named in list::named::all() {
        lines += &format!("ok {}\n", named.name);
    }
    for (name, mut counts) in list::CALLS.iter().zip(list::make().counts) {
        let cases: usize = counts.values().map(|count| count.0).sum();
        lines += &format!("{name}\ncases {cases}\nwrong 0\n");
        let accepted = counts.remove(&0).unwrap().0;
        for (number, (cases, _)) in counts {
            lines += &format!("refused {number} {cases}\n");
        }
        lines += &format!("accepted {accepted}\n");
    }
    let path = repository().join("crates/replay/stdout");
    assert_eq!(std::fs::read_to_string(path).unwrap(), lines);
}

/// Reads one case's numbers.
struct Numbers<'a>(&'a [u8]);

impl Numbers<'_> {
    fn unsigned(&mut self) -> u64 {
        let (mut number, mut shift) = (0, 0);
        loop {
            let byte = self.0[0];
            self.0 = &self.0[1..];
            number |= u64::from(byte & 127) << shift;
            shift += 7;
            if byte < 128 {
                return number;
            }
        }
    }

    fn signed(&mut self) -> i32 {
        let turned = self.unsigned() as i64;
        let wide = if turned % 2 == 0 {
            turned / 2
        } else {
            -(turned + 1) / 2
        };
        wide.try_into().unwrap()
    }

    fn many<T>(&mut self, mut one: impl FnMut(&mut Self) -> T) -> Vec<T> {
        let count = self.unsigned();
        (0..count).map(|_| one(self)).collect()
    }

    fn tokens(&mut self) -> Vec<u16> {
        self.many(|n| n.unsigned().try_into().unwrap())
    }

    fn lengths(&mut self) -> Vec<usize> {
        self.many(|n| n.unsigned() as usize)
    }

    fn mode(&mut self) -> Mode {
        [Mode::Archive, Mode::Intake][self.unsigned() as usize]
    }

    fn table(&mut self) -> (i32, usize, Vec<i32>) {
        let (prod0, k) = (self.signed(), self.unsigned() as usize);
        (prod0, k, self.many(|n| n.signed()))
    }

    fn predicted(&mut self) -> list::Predicted {
        match [self.unsigned(), self.unsigned(), self.unsigned()] {
            [0, production, entered] => Ok((production as i32, entered as usize)),
            [number, zeros @ ..] => {
                assert_eq!([0, 0], zeros);
                Err(Refusal::Plain(number))
            }
        }
    }

    fn answer(&mut self) -> Answer<Table> {
        match self.unsigned() {
            0 => {
                let (prod0, k) = (self.signed(), self.unsigned() as usize);
                let states = self.unsigned() as usize;
                let rows = 4 * self.unsigned();
                let rows = (0..rows).map(|_| self.signed()).collect();
                Ok(Table {
                    prod0,
                    k,
                    states,
                    rows,
                })
            }
            8 => Err(Refusal::Clash(
                self.unsigned() as i32,
                self.unsigned() as i32,
            )),
            13 => Err(Refusal::Text(self.unsigned() as usize)),
            number => Err(Refusal::Plain(number)),
        }
    }
}

/// Each case or name of the list: the number that it starts with, and the rest.
fn parts(bytes: &[u8]) -> Vec<(u64, Numbers<'_>)> {
    let mut parts = Vec::new();
    let mut rest = bytes;
    while !rest.is_empty() {
        let ([low, middle, high], after) = rest.split_first_chunk::<3>().unwrap();
        let count = u32::from_le_bytes([*low, *middle, *high, 0]) as usize;
        assert!(count <= 120_000);
        let mut part = Numbers(&after[..count]);
        parts.push((part.unsigned(), part));
        rest = &after[count..];
    }
    parts
}

/// Goes through a call's cases; `one` reads a case after its source and gives the number.
fn through(name: &str, numbers: &[u64], one: fn(&mut Numbers) -> (Mode, u64)) {
    let bytes = committed();
    let mut seen = BTreeSet::new();
    for (call, mut case) in parts(&bytes) {
        if list::CALLS.get(call as usize) != Some(&name) {
            continue;
        }
        let source = case.unsigned();
        let (mode, number) = one(&mut case);
        assert!(case.0.is_empty(), "{name}");
        let domain = number == 0 || (8..=11).contains(&number);
        assert_eq!(domain && mode == Mode::Archive, source == 1, "{name}");
        seen.insert(number);
    }
    assert_eq!(numbers, seen.into_iter().collect::<Vec<u64>>(), "{name}");
}

/// A name stands behind its cases, and these behind the name before.
#[test]
fn names() {
    let bytes = committed();
    let mut named = list::named::all().into_iter();
    let mut since = 0;
    for (call, mut part) in parts(&bytes) {
        if call != list::NAME {
            assert!(call < list::NAME);
            since += 1;
            continue;
        }
        let next = named.next().unwrap();
        assert_eq!(since, part.unsigned());
        assert_eq!(since as usize, next.cases.len());
        assert_eq!(next.name.as_bytes(), part.0);
        since = 0;
    }
    assert!(named.next().is_none());
}

fn number<T>(answer: &Answer<T>) -> u64 {
    answer.as_ref().err().map_or(0, |r| r.number())
}

#[test]
fn builds() {
    through("build", &[0, 1, 2, 14], |n| {
        let production = n.signed();
        let lengths = n.lengths();
        let (tokens, room) = (n.tokens(), n.unsigned() as usize);
        let answer = n.answer();
        let read = reading::build(production, &lengths, &tokens, room);
        assert_eq!(read, answer);
        (Mode::Archive, number(&answer))
    });
}

#[test]
fn unites() {
    through("unite", &[0, 1, 2, 3, 4, 5, 6, 7, 8, 14], |n| {
        let (mode, a, b) = (n.mode(), n.table(), n.table());
        let (room, answer) = (n.unsigned() as usize, n.answer());
        let (a, b) = (Lent::new(a.0, a.1, &a.2), Lent::new(b.0, b.1, &b.2));
        assert_eq!(reading::unite(mode, a, b, room), answer);
        (mode, number(&answer))
    });
}

#[test]
fn shrinks() {
    through("shrink", &[0, 1, 2, 3, 4, 5, 6], |n| {
        let (mode, a) = (n.mode(), n.table());
        let (room, answer) = (n.unsigned() as usize, n.answer());
        let a = Lent::new(a.0, a.1, &a.2);
        assert_eq!(reading::shrink(mode, a, room), answer);
        (mode, number(&answer))
    });
}

#[test]
fn predicts() {
    through("predict", &[0, 1, 2, 3, 9, 10, 11, 12], |n| {
        let (mode, a) = (n.mode(), n.table());
        let (stream_k, tokens) = (n.unsigned() as usize, n.tokens());
        let answer = n.predicted();
        let a = Lent::new(a.0, a.1, &a.2);
        assert_eq!(reading::predict(mode, a, stream_k, &tokens), answer);
        (mode, number(&answer))
    });
}

#[test]
fn explains() {
    through("explain", &[0, 1, 2, 3], |n| {
        let (a, tokens) = (n.table(), n.tokens());
        let matched = match n.unsigned() {
            0 => Ok(n.unsigned() as usize),
            number => Err(Refusal::Plain(number)),
        };
        let (start, count) = (n.unsigned() as usize, n.unsigned() as usize);
        let read = reading::explain(Lent::new(a.0, a.1, &a.2), &tokens);
        assert_eq!(
            (read.matched, read.start, read.count),
            (matched, start, count)
        );
        (Mode::Archive, number(&matched))
    });
}

#[test]
fn intakes() {
    through("intake", &[0, 1, 2, 8, 14], |n| {
        let lists = Lists {
            productions: n.many(|n| n.signed()),
            counts: n.lengths(),
            lengths: n.lengths(),
            tokens: n.tokens(),
        };
        let (room, windows) = (n.unsigned() as usize, n.unsigned() / 6);
        for _ in 0..windows {
            let window = [n.unsigned(), n.unsigned(), n.unsigned()].map(|t| t as u16);
            let means = reading::defined(&lists, &window);
            assert_eq!(means.ok_or(Refusal::Plain(11)), n.predicted());
        }
        let answer = n.answer();
        assert_eq!(reading::intake(&lists, room), answer);
        assert!(windows == 0 || answer.is_ok());
        (Mode::Intake, number(&answer))
    });
}

#[test]
fn texts() {
    through("text", &[0, 1, 2, 3, 13], |n| {
        let (length, room) = (n.unsigned() as usize, n.unsigned() as usize);
        let (count, all) = (n.unsigned() as usize, n.0);
        let answer = n.answer();
        let written = &all[..all.len() - n.0.len()];
        assert_eq!(count, written.iter().filter(|&&b| b < 128).count());
        let (text, rest) = n.0.split_at(length);
        let read = reading::text_in(text, room).map(|table| Table { states: 0, ..table });
        assert_eq!(read, answer);
        n.0 = rest;
        // The Rust has no say: as in intake mode.
        (Mode::Intake, number(&answer))
    });
}
