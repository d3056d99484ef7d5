//! Why a call refuses.

use std::fmt;

/// A refusal of document 01. It prints its number, its name, and what it says. Later calls may have more of them.
///
/// ```
/// use lookahead::Refusal;
///
/// assert_eq!("8 CLASH: productions 1 and 2 for one string", Refusal::Clash(1, 2).to_string());
/// assert_eq!("13 TEXT: the line at byte 11 is not in form", Refusal::Text(11).to_string());
/// assert_eq!("3 ORDER: rows not strictly rising", Refusal::Order.to_string());
/// assert_eq!(3, Refusal::Order.number());
/// ```
#[derive(Debug, Clone, Copy, PartialEq, Eq, Hash)]
#[non_exhaustive]
pub enum Refusal {
    /// 1: a slice of a wrong length, too little room, too many strings, rows or windows, or lengths that do not sum up.
    Length,
    /// 2: a number outside its bounds.
    Range,
    /// 3: rows not strictly rising by (from, terminal).
    Order,
    /// 4: a row whose to is not above its from.
    Shape,
    /// 5: a from that is not 0 and is no row's to.
    Loose,
    /// 6: one to-state with two productions.
    Split,
    /// 7: a ruled table that is no tree.
    Tree,
    /// 8: one string under two productions: the first table's, then the second's.
    Clash(u16, u16),
    /// 9: the table's k is over the stream's.
    Mismatch,
    /// 10: fewer tokens than the table's k.
    Short,
    /// 11: state 0 does not accept and no accepting row was entered.
    None,
    /// 12, in archive mode: state 0 accepts, rows were entered, none of them accepting.
    Root,
    /// 13: a line not in form; the byte offset of the first such line.
    Text(usize),
    /// 14: the result would have over 1,024 states.
    Full,
}

impl Refusal {
    /// The refusal of a number and an answer's values; `None` for 0.
    pub(crate) fn of(number: usize, values: &[u64; 4]) -> Option<Refusal> {
        Some(match number {
            0 => return None,
            1 => Refusal::Length,
            2 => Refusal::Range,
            3 => Refusal::Order,
            4 => Refusal::Shape,
            5 => Refusal::Loose,
            6 => Refusal::Split,
            7 => Refusal::Tree,
            8 => Refusal::Clash(values[0] as u16, values[1] as u16),
            9 => Refusal::Mismatch,
            10 => Refusal::Short,
            11 => Refusal::None,
            12 => Refusal::Root,
            13 => Refusal::Text(values[0] as usize),
            14 => Refusal::Full,
            _ => unreachable!("the calls have no refusal {number}"),
        })
    }

    /// Its number and name in document 01.
    fn title(self) -> (usize, &'static str) {
        match self {
            Refusal::Length => (1, "LENGTH"),
            Refusal::Range => (2, "RANGE"),
            Refusal::Order => (3, "ORDER"),
            Refusal::Shape => (4, "SHAPE"),
            Refusal::Loose => (5, "LOOSE"),
            Refusal::Split => (6, "SPLIT"),
            Refusal::Tree => (7, "TREE"),
            Refusal::Clash(..) => (8, "CLASH"),
            Refusal::Mismatch => (9, "MISMATCH"),
            Refusal::Short => (10, "SHORT"),
            Refusal::None => (11, "NONE"),
            Refusal::Root => (12, "ROOT"),
            Refusal::Text(_) => (13, "TEXT"),
            Refusal::Full => (14, "FULL"),
        }
    }

    /// Its number in document 01.
    #[must_use]
    pub fn number(self) -> usize {
        self.title().0
    }

    /// Its name in document 01.
    #[must_use]
    pub fn name(self) -> &'static str {
        self.title().1
    }
}

impl fmt::Display for Refusal {
    fn fmt(&self, f: &mut fmt::Formatter<'_>) -> fmt::Result {
        let (number, name) = self.title();
        write!(f, "{number} {name}: ")?;
        match self {
            Refusal::Length => f.write_str(
                "a wrong length or sum of lengths, too little room, or too many strings, rows or windows",
            ),
            Refusal::Range => f.write_str("a number outside its bounds"),
            Refusal::Order => f.write_str("rows not strictly rising"),
            Refusal::Shape => f.write_str("a row with to not above from"),
            Refusal::Loose => f.write_str("a from that is not 0 and is no row's to"),
            Refusal::Split => f.write_str("one to-state with two productions"),
            Refusal::Tree => f.write_str("ruled, but no tree"),
            Refusal::Clash(p, q) => write!(f, "productions {p} and {q} for one string"),
            Refusal::Mismatch => f.write_str("table k over stream k"),
            Refusal::Short => f.write_str("fewer tokens than table k"),
            Refusal::None => f.write_str("prod0 is -1 and no accepting row was entered"),
            Refusal::Root => {
                f.write_str("prod0 accepts, rows were entered, none of them accepting")
            }
            Refusal::Text(at) => write!(f, "the line at byte {at} is not in form"),
            Refusal::Full => f.write_str("the result would have over 1,024 states"),
        }
    }
}

impl std::error::Error for Refusal {}
