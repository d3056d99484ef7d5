//! The intake desk's one call, and what the string lists define (demand 3).

use super::checks::ROOM;
use super::{Answer, Mode, build, refuse_if, shrink, unite};
use crate::Table;
use crate::make::Strings;

/// Lists as the call takes them.
#[derive(Debug, Clone, Default, PartialEq, Eq)]
pub struct Lists {
    pub productions: Vec<i32>,
    pub counts: Vec<usize>,
    pub lengths: Vec<usize>,
    pub tokens: Vec<u16>,
}

impl Lists {
    pub fn of(lists: &[(i32, Strings)]) -> Self {
        let mut all = Lists::default();
        lists.iter().for_each(|(p, list)| all.push(*p, list));
        all
    }

    pub fn push(&mut self, production: i32, list: &Strings) {
        self.productions.push(production);
        self.counts.push(list.lengths.len());
        self.lengths.extend(&list.lengths);
        self.tokens.extend(&list.tokens);
    }

    /// The lists one by one; only for lists that sum up.
    fn each(&self) -> Vec<(i32, Strings)> {
        let (mut lengths, mut tokens) = (&self.lengths[..], &self.tokens[..]);
        let mut cut = |(&production, &count): (&i32, &usize)| {
            let (mine, rest) = lengths.split_at(count);
            let (text, left) = tokens.split_at(mine.iter().sum());
            (lengths, tokens) = (rest, left);
            let list = Strings {
                lengths: mine.to_vec(),
                tokens: text.to_vec(),
            };
            (production, list)
        };
        self.productions
            .iter()
            .zip(&self.counts)
            .map(&mut cut)
            .collect()
    }

    /// As a wider number, so that it cannot wrap.
    fn sums(numbers: &[usize], count: usize) -> bool {
        numbers.iter().map(|&n| n as u128).sum::<u128>() == count as u128
    }

    fn lent_well(&self, room: usize) -> bool {
        let sums = Lists::sums(&self.counts, self.lengths.len())
            && Lists::sums(&self.lengths, self.tokens.len());
        let paired = !self.productions.is_empty() && self.productions.len() == self.counts.len();
        room >= ROOM && paired && sums
    }
}

/// 1, then each list built and united to what there is, then shrunk, all in intake mode.
pub fn intake(lists: &Lists, room: usize) -> Answer<Table> {
    refuse_if(!lists.lent_well(room), 1)?;
    let mut whole: Option<Table> = None;
    for (production, list) in lists.each() {
        let next = build(production, &list.lengths, &list.tokens, ROOM)?;
        whole = Some(match whole {
            None => next,
            Some(before) => unite(Mode::Intake, before.lent(), next.lent(), ROOM)?,
        });
    }
    shrink(Mode::Intake, whole.unwrap().lent(), ROOM)
}

/// What the string lists define for tokens: the production and the length of the beginning that was found, or none. An
/// empty list claims the empty string.
pub fn defined(lists: &Lists, tokens: &[u16]) -> Option<(i32, usize)> {
    let mut strings: Vec<(i32, Vec<u16>)> = Vec::new();
    for (production, list) in lists.each() {
        if list.lengths.is_empty() {
            strings.push((production, Vec::new()));
        }
        for string in crate::agree::strings(&list.lengths, &list.tokens) {
            strings.push((production, string.to_vec()));
        }
    }
    let k = strings.iter().map(|s| s.1.len()).max().unwrap_or(0);
    let mut beginning: Vec<u16> = Vec::new();
    for &token in &tokens[..k] {
        let longer = [&beginning[..], &[token]].concat();
        if strings.iter().any(|s| s.1.starts_with(&longer)) {
            beginning = longer;
        }
    }
    let begins = strings.iter().filter(|s| beginning.starts_with(&s.1));
    let longest = begins.max_by_key(|s| s.1.len());
    longest.map(|s| (s.0, beginning.len()))
}
