//! A table that holds its rows.

use crate::lent::{self, Lent, Made, Predicted, ROOM, TEXT_ROOM};
use crate::rows::{Row, Rows, coded, decoded};
use crate::{Mode, Refusal};
use std::fmt;
use std::str::FromStr;

/// A lookahead table. Every table has passed the checks 1, 2 and 3 and does not change.
///
/// ```
/// use lookahead::{Mode, Refusal, Table};
///
/// let a = Table::build(1, &[[5], [7]])?;
/// let b = Table::build(2, &[[5, 6]])?;
/// let both = a.unite(Mode::Intake, &b)?;
/// assert_eq!((None, 2, 3), (both.prod0(), both.k(), both.rows().len()));
/// assert_eq!((2, 2), both.predict(Mode::Intake, 2, &[5, 6])?.into());
///
/// // Archive mode keeps the faults of the Rust: k stays the first's, and 5 is lost.
/// let old = a.unite(Mode::Archive, &b)?;
/// assert_eq!(Err(Refusal::None), old.predict(Mode::Archive, 2, &[5, 6]));
/// # Ok::<(), Refusal>(())
/// ```
#[derive(Debug, Clone, PartialEq, Eq, Hash)]
pub struct Table {
    prod0: i32,
    k: usize,
    numbers: Vec<i32>,
}

/// What shrinking leaves. In archive mode states may stay that no row leads to, so rows do not tell the count.
#[derive(Debug, Clone, PartialEq, Eq, Hash)]
pub struct Shrunk {
    /// The shrunk table.
    pub table: Table,
    /// The count of its states.
    pub states: usize,
}

impl Table {
    /// A table of given rows. Refuses by 1, 2, 3.
    ///
    /// ```
    /// use lookahead::{Refusal, Row, Table};
    ///
    /// let row = |terminal, to| Row { from: 0, terminal, to, production: Some(1) };
    /// assert_eq!(Table::build(1, &[[5], [7]]), Table::new(None, 1, &[row(5, 1), row(7, 2)]));
    /// assert_eq!(Err(Refusal::Order), Table::new(None, 1, &[row(7, 2), row(5, 1)]));
    /// assert_eq!(Err(Refusal::Range), Table::new(None, 17, &[]));
    /// ```
    pub fn new(prod0: Option<u16>, k: usize, rows: &[Row]) -> Result<Table, Refusal> {
        let numbers = rows.iter().flat_map(|row| row.numbers()).collect();
        Table::from_numbers(coded(prod0), k, numbers)
    }

    /// A table of numbers, four a row. Refuses by 1, 2, 3.
    pub fn from_numbers(prod0: i32, k: usize, numbers: Vec<i32>) -> Result<Table, Refusal> {
        let rows = &numbers;
        lent::check(Lent { prod0, k, rows })?;
        Ok(Table { prod0, k, numbers })
    }

    /// The tree of a list of strings under one production; a tree has one state more than rows. A list without strings
    /// makes state 0 accept. Refuses by 1, 2, 14.
    ///
    /// ```
    /// use lookahead::{Refusal, Table};
    ///
    /// let none: [[u16; 0]; 0] = [];
    /// assert_eq!(Some(4), Table::build(4, &none)?.prod0());
    /// assert_eq!(Err(Refusal::Range), Table::build(1, &[[5; 17]]));
    /// # Ok::<(), Refusal>(())
    /// ```
    pub fn build<S: AsRef<[u16]>>(production: u16, strings: &[S]) -> Result<Table, Refusal> {
        let lengths: Vec<usize> = strings.iter().map(|s| s.as_ref().len()).collect();
        let tokens: Vec<u16> = strings.iter().flat_map(|s| s.as_ref()).copied().collect();
        let (_, table) = made(|out| lent::build(production.into(), &tokens, &lengths, out))?;
        Ok(table)
    }

    /// Several lists built, united one after the other and shrunk, all in intake mode. The order of the lists changes
    /// no prediction.
    ///
    /// No list at all is 1; then the refusal of the first step that refuses: 1, 2 or 14 of a list, 8 or 14 of uniting
    /// it.
    ///
    /// ```
    /// use lookahead::{Mode, Refusal, Table};
    ///
    /// let shrunk = Table::intake(&[(1, &[&[5], &[7]]), (2, &[&[5, 6]])])?;
    /// assert_eq!(4, shrunk.states);
    /// assert_eq!(2, shrunk.table.predict(Mode::Intake, 2, &[5, 6])?.production);
    /// assert_eq!(Err(Refusal::Clash(1, 2)), Table::intake(&[(1, &[&[5]]), (2, &[&[5]])]));
    /// # Ok::<(), Refusal>(())
    /// ```
    pub fn intake(lists: &[(u16, &[&[u16]])]) -> Result<Shrunk, Refusal> {
        let strings = || lists.iter().flat_map(|list| list.1);
        let productions: Vec<i32> = lists.iter().map(|list| list.0.into()).collect();
        let counts: Vec<usize> = lists.iter().map(|list| list.1.len()).collect();
        let lengths: Vec<usize> = strings().map(|s| s.len()).collect();
        let tokens: Vec<u16> = strings().copied().flatten().copied().collect();
        let (states, table) =
            made(|out| lent::intake(&productions, &counts, &lengths, &tokens, out))?;
        Ok(Shrunk { table, states })
    }

    /// This tree and another as one, a tree too: it has one state more than rows. Refuses by 4 to 7 of this, 4 to 7 of
    /// the other, 8, 14.
    ///
    /// ```
    /// use lookahead::{Mode, Refusal, Table};
    ///
    /// let (a, b) = (Table::build(1, &[[5]])?, Table::build(2, &[[5]])?);
    /// assert_eq!(Err(Refusal::Clash(1, 2)), a.unite(Mode::Intake, &b));
    /// # Ok::<(), Refusal>(())
    /// ```
    pub fn unite(&self, mode: Mode, other: &Table) -> Result<Table, Refusal> {
        let (_, table) = made(|out| lent::unite(mode, self.lent(), other.lent(), out))?;
        Ok(table)
    }

    /// A ruled table with states that are alike made one. Refuses by 4 to 6.
    ///
    /// ```
    /// use lookahead::{Mode, Refusal, Table};
    ///
    /// let t: Table = "Dfa(-1, 2)\nTrans(0, 5, 1, 1),\nTrans(0, 7, 3, 1),\nTrans(1, 6, 2, 2),\n".parse()?;
    /// assert_eq!(t, t.shrink(Mode::Intake)?.table);
    /// let old = t.shrink(Mode::Archive)?;
    /// assert_eq!((3, 2), (old.states, old.table.rows().len()));
    /// # Ok::<(), Refusal>(())
    /// ```
    pub fn shrink(&self, mode: Mode) -> Result<Shrunk, Refusal> {
        let (states, table) = made(|out| lent::shrink(mode, self.lent(), out))?;
        Ok(Shrunk { table, states })
    }

    /// The production that the first k tokens mean, in a stream whose own k is `stream_k`. Refuses by 9, 10, then 11 or
    /// 12.
    pub fn predict(
        &self,
        mode: Mode,
        stream_k: usize,
        tokens: &[u16],
    ) -> Result<Predicted, Refusal> {
        lent::predict(mode, self.lent(), stream_k, tokens)
    }

    /// What [`Table::predict`] says of each of `count` windows of k tokens that stand one after the other, but for the
    /// rows entered: for many windows in one go, since a call checks its table. Refuses the whole by 1 for over
    /// [`lent::WINDOWS`] windows or other tokens than `count` times k, and by 9; then each window by 11 or 12.
    ///
    /// ```
    /// use lookahead::{Mode, Refusal, Table};
    ///
    /// let t = Table::intake(&[(1, &[&[5], &[7]]), (2, &[&[5, 6]])])?.table;
    /// let said = t.batch(Mode::Intake, 2, 3, &[5, 6, 9, 9, 7, 5])?;
    /// assert_eq!(vec![Ok(2), Err(Refusal::None), Ok(1)], said);
    /// assert_eq!(Err(Refusal::Length), t.batch(Mode::Intake, 2, 1, &[5]));
    /// # Ok::<(), Refusal>(())
    /// ```
    pub fn batch(
        &self,
        mode: Mode,
        stream_k: usize,
        count: usize,
        tokens: &[u16],
    ) -> Result<Vec<Result<u16, Refusal>>, Refusal> {
        let mut out = vec![0; count.min(lent::WINDOWS)];
        lent::batch(mode, self.lent(), stream_k, count, tokens, &mut out)?;
        Ok(out.into_iter().map(answered).collect())
    }

    /// The count of tokens that have a row one after the other, and the rows that leave the state where the next has
    /// none; no rows if every token matched or that state has none.
    ///
    /// ```
    /// use lookahead::Table;
    ///
    /// let t = Table::build(1, &[&[5][..], &[5, 6]])?;
    /// let (matched, rows) = t.explain(&[5, 9]);
    /// assert_eq!((1, &[1, 6, 2, 1][..]), (matched, rows.numbers()));
    /// assert_eq!(Some(6), rows.get(0).map(|row| row.terminal));
    /// assert!(t.explain(&[5]).1.is_empty() && t.explain(&[5, 6, 9]).1.is_empty());
    /// # Ok::<(), lookahead::Refusal>(())
    /// ```
    #[must_use]
    pub fn explain(&self, tokens: &[u16]) -> (usize, Rows<'_>) {
        // By its contract explain refuses by 1, 2 and 3 alone, and this table has passed them.
        let said = lent::explain(self.lent(), tokens);
        let (matched, rows) = said.expect("a table that passed 1, 2 and 3 is explained");
        (matched, Rows(rows))
    }

    /// The table of a text; `parse` does the same. Refuses by 13, 1 for over 4,096 rows, 2, 3.
    ///
    /// ```
    /// use lookahead::{Refusal, Table};
    ///
    /// assert_eq!(Table::build(4, &[[0; 0]]), Table::from_text(b"Dfa(4, 0)\n"));
    /// assert_eq!(Err(Refusal::Text(10)), "Dfa(4, 0)\nTrans\n".parse::<Table>());
    /// ```
    pub fn from_text(text: &[u8]) -> Result<Table, Refusal> {
        let mut numbers = vec![0; ROOM];
        let read = lent::text_in(text, &mut numbers)?;
        at_front(read.prod0, read.k, read.rows, numbers)
    }

    /// The table's text. It prints as this.
    ///
    /// ```
    /// let table = lookahead::Table::build(1, &[[5], [7]])?;
    /// assert_eq!("Dfa(-1, 1)\nTrans(0, 5, 1, 1),\nTrans(0, 7, 2, 1),\n", table.to_text());
    /// assert_eq!(table.to_text(), table.to_string());
    /// # Ok::<(), lookahead::Refusal>(())
    /// ```
    #[must_use]
    pub fn to_text(&self) -> String {
        // By its contract text out refuses by 1, 2 and 3 alone: the room is enough, and this table has passed them.
        let mut bytes = vec![0; TEXT_ROOM];
        let said = lent::text_out(self.lent(), &mut bytes);
        bytes.truncate(said.expect("a table that passed 1, 2 and 3 is written"));
        String::from_utf8(bytes).expect("a text table is ASCII")
    }

    /// What state 0 accepts.
    #[must_use]
    pub fn prod0(&self) -> Option<u16> {
        decoded(self.prod0)
    }

    /// How many tokens a prediction needs.
    #[must_use]
    pub fn k(&self) -> usize {
        self.k
    }

    /// The rows; [`Rows::numbers`] has them as they are held.
    #[must_use]
    pub fn rows(&self) -> Rows<'_> {
        Rows(&self.numbers)
    }

    /// The table as it is lent.
    #[must_use]
    pub fn lent(&self) -> Lent<'_> {
        Lent {
            prod0: self.prod0,
            k: self.k,
            rows: &self.numbers,
        }
    }
}

/// A window's answer: the production, or the refusal of minus its number.
fn answered(n: i32) -> Result<u16, Refusal> {
    if n < 0 {
        Err(Refusal::of(n.unsigned_abs() as usize, &[0; 4]).expect("a number that is not 0"))
    } else {
        Ok(n as u16)
    }
}

/// The state count and the table that a call makes.
#[rustfmt::skip]
fn made(call: impl FnOnce(&mut [i32]) -> Result<Made, Refusal>) -> Result<(usize, Table), Refusal> {
    let mut numbers = vec![0; ROOM];
    let said = call(&mut numbers)?;
    Ok((said.states, at_front(said.prod0, said.k, said.rows, numbers)?))
}

/// The table whose rows stand at the front of `numbers`.
fn at_front(prod0: i32, k: usize, rows: usize, mut numbers: Vec<i32>) -> Result<Table, Refusal> {
    numbers.truncate(4 * rows);
    numbers.shrink_to_fit();
    Table::from_numbers(prod0, k, numbers)
}

impl FromStr for Table {
    type Err = Refusal;

    fn from_str(text: &str) -> Result<Table, Refusal> {
        Table::from_text(text.as_bytes())
    }
}

impl fmt::Display for Table {
    fn fmt(&self, f: &mut fmt::Formatter<'_>) -> fmt::Result {
        f.write_str(&self.to_text())
    }
}
