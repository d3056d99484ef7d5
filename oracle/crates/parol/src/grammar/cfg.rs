//! Stand-in for `RX_NUM_SUFFIX`: `utils/mod.rs` names it in a function that is not used here.

/// Stand-in for the regular expression; it finds nothing.
pub struct NumSuffix;

/// Stand-in for a match.
pub struct Match;

/// Stand-in for the original's static.
pub static RX_NUM_SUFFIX: NumSuffix = NumSuffix;

impl NumSuffix {
    /// Finds nothing.
    pub fn find(&self, _text: &str) -> Option<Match> {
        None
    }
}

impl Match {
    /// The matched text.
    pub fn as_str(&self) -> &str {
        ""
    }

    /// Where it starts.
    pub fn start(&self) -> usize {
        0
    }
}
