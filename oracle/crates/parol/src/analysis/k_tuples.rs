//! Stand-in for `KTuples`, `KTuple` and `Terminals`: a list of lent strings that keeps the
//! caller's order and its duplicates.

use parol_runtime::TerminalIndex;

/// Stand-in for `KTuple` and its `Terminals`: one string.
#[derive(Debug, Clone, Copy)]
pub struct KTuple<'a> {
    tokens: &'a [TerminalIndex],
    eps: bool,
}

impl<'a> KTuple<'a> {
    /// Whether it counts as the empty string.
    pub fn is_eps(&self) -> bool {
        self.eps
    }

    /// The string itself.
    pub fn terminals(&self) -> Self {
        *self
    }

    /// Its tokens in order.
    pub fn iter(&self) -> impl Iterator<Item = TerminalIndex> + use<'a> {
        self.tokens.iter().copied()
    }

    /// Its length.
    pub fn len(&self) -> usize {
        self.tokens.len()
    }

    /// Whether it has no tokens.
    pub fn is_empty(&self) -> bool {
        self.tokens.is_empty()
    }
}

/// Stand-in for `KTuples`: the list.
#[derive(Debug, Clone, Default)]
pub struct KTuples<'a>(Vec<KTuple<'a>>);

impl<'a> KTuples<'a> {
    /// The list as document 01 takes it: the empty string is the one without tokens.
    pub fn of(strings: &[&'a [TerminalIndex]]) -> Self {
        Self::with(strings, |tokens| tokens.is_empty())
    }

    /// The list as parol takes it: a lone 65,535 is the empty string. Only for the faults table.
    pub fn with_parol_eps(strings: &[&'a [TerminalIndex]]) -> Self {
        Self::with(strings, |tokens| tokens.is_empty() || tokens == [u16::MAX])
    }

    fn with(strings: &[&'a [TerminalIndex]], eps: fn(&[TerminalIndex]) -> bool) -> Self {
        let tuple = |&tokens: &&'a [TerminalIndex]| KTuple {
            tokens,
            eps: eps(tokens),
        };
        KTuples(strings.iter().map(tuple).collect())
    }

    /// Whether there is no string.
    pub fn is_empty(&self) -> bool {
        self.0.is_empty()
    }

    /// The strings in the caller's order.
    pub fn sorted(&self) -> Vec<KTuple<'a>> {
        self.0.clone()
    }
}
