//! A row, and the rows of a table.

/// One row: at state `from`, token `terminal` leads to state `to`, which accepts `production` or nothing.
#[derive(Debug, Clone, Copy, PartialEq, Eq, Hash)]
pub struct Row {
    /// The state that the row leaves.
    pub from: u16,
    /// The token that it is for.
    pub terminal: u16,
    /// The state that it enters.
    pub to: u16,
    /// What that state accepts.
    pub production: Option<u16>,
}

impl Row {
    /// The row as four numbers, -1 for no production.
    ///
    /// ```
    /// let row = lookahead::Row { from: 0, terminal: 5, to: 1, production: None };
    /// assert_eq!([0, 5, 1, -1], row.numbers());
    /// ```
    #[must_use]
    pub fn numbers(self) -> [i32; 4] {
        let Row {
            from,
            terminal,
            to,
            production,
        } = self;
        [from.into(), terminal.into(), to.into(), coded(production)]
    }

    /// The row that four numbers in range stand for.
    fn of(numbers: &[i32]) -> Row {
        Row {
            from: numbers[0] as u16,
            terminal: numbers[1] as u16,
            to: numbers[2] as u16,
            production: decoded(numbers[3]),
        }
    }
}

/// A production as a table holds it.
pub(crate) fn coded(production: Option<u16>) -> i32 {
    production.map_or(-1, i32::from)
}

/// The other way; any number below 0 stands for no production.
pub(crate) fn decoded(number: i32) -> Option<u16> {
    u16::try_from(number).ok()
}

/// Rows of a table that passed its checks, as a stretch of its numbers.
///
/// ```
/// use lookahead::Table;
///
/// let table = Table::build(1, &[[5], [7]])?;
/// let terminals: Vec<u16> = table.rows().into_iter().map(|row| row.terminal).collect();
/// assert_eq!(vec![5, 7], terminals);
/// assert_eq!(&[0, 5, 1, 1, 0, 7, 2, 1], table.rows().numbers());
/// # Ok::<(), lookahead::Refusal>(())
/// ```
#[derive(Debug, Clone, Copy, PartialEq, Eq, Hash)]
pub struct Rows<'a>(pub(crate) &'a [i32]);

impl<'a> Rows<'a> {
    /// The numbers themselves, four a row.
    #[must_use]
    pub fn numbers(self) -> &'a [i32] {
        self.0
    }

    /// The count of rows.
    #[must_use]
    pub fn len(self) -> usize {
        self.0.len() / 4
    }

    /// Whether there is no row.
    #[must_use]
    pub fn is_empty(self) -> bool {
        self.0.is_empty()
    }

    /// The row at a place.
    #[must_use]
    pub fn get(self, place: usize) -> Option<Row> {
        self.0.chunks_exact(4).nth(place).map(Row::of)
    }
}

impl<'a> IntoIterator for Rows<'a> {
    type Item = Row;
    type IntoIter = std::iter::Map<std::slice::ChunksExact<'a, i32>, fn(&[i32]) -> Row>;

    fn into_iter(self) -> Self::IntoIter {
        self.0.chunks_exact(4).map(Row::of)
    }
}
