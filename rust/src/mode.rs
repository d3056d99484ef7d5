//! The two modes.

/// The mode that a caller names.
#[derive(Debug, Clone, Copy, PartialEq, Eq, Hash)]
pub enum Mode {
    /// As the Rust of parol did, faults included.
    Archive,
    /// By the string lists alone.
    Intake,
}

impl Mode {
    /// Its number at the boundary.
    #[must_use]
    pub fn number(self) -> u32 {
        match self {
            Mode::Archive => 0,
            Mode::Intake => 1,
        }
    }
}
