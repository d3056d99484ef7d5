//! Stand-in for the crate `anyhow`: an error that is its message, `Result`, `bail!`, `Context`.

use std::fmt::{Debug, Display, Formatter};

/// Stand-in for `anyhow::Error`.
#[derive(Debug)]
pub struct Error(String);

impl Error {
    /// An error with this message.
    pub fn msg(message: impl Display) -> Self {
        Error(message.to_string())
    }
}

impl Display for Error {
    fn fmt(&self, f: &mut Formatter<'_>) -> std::fmt::Result {
        f.write_str(&self.0)
    }
}

/// Stand-in for `anyhow::Result`.
pub type Result<T, E = Error> = std::result::Result<T, E>;

/// Stand-in for `anyhow::bail!`.
#[macro_export]
macro_rules! bail {
    ($message:expr) => {
        return Err($crate::Error::msg($message))
    };
}

/// Stand-in for `anyhow::Context`.
pub trait Context<T> {
    /// Puts a message before the error's own.
    fn context<C: Display>(self, context: C) -> Result<T>;
    /// The same, with the message made only if needed.
    fn with_context<C: Display>(self, context: impl FnOnce() -> C) -> Result<T>;
}

impl<T, E: Debug> Context<T> for std::result::Result<T, E> {
    fn context<C: Display>(self, context: C) -> Result<T> {
        self.map_err(|e| Error(format!("{context}: {e:?}")))
    }

    fn with_context<C: Display>(self, context: impl FnOnce() -> C) -> Result<T> {
        self.map_err(|e| Error(format!("{}: {e:?}", context())))
    }
}
