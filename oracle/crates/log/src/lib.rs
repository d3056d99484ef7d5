//! Stand-in for the crate `log`: only `trace!`.
//!
//! The Rust tells its state count ("After minimization: {}") and each row that `eval` enters
//! ("{}, {} => {}") only to `trace!`. So messages can be recorded, for one thread at a time, and
//! the oracle reads both counts from there. Recording is off by default; then `trace!` costs one
//! branch and nothing is put together.

use std::cell::{Cell, RefCell};

thread_local! {
    static ON: Cell<bool> = const { Cell::new(false) };
    static HEARD: RefCell<Vec<String>> = const { RefCell::new(Vec::new()) };
}

/// Whether this thread records.
#[inline(always)]
pub fn recording() -> bool {
    ON.get()
}

/// Keeps one message. Called by `trace!` only.
#[cold]
pub fn hear(message: String) {
    HEARD.with_borrow_mut(|heard| heard.push(message));
}

/// Does the work with recording on and gives what was heard with its result.
pub fn recorded<T>(work: impl FnOnce() -> T) -> (T, Vec<String>) {
    HEARD.with_borrow_mut(|heard| heard.clear());
    ON.set(true);
    let result = work();
    ON.set(false);
    (result, HEARD.take())
}

/// Stand-in for `log::trace!`.
#[macro_export]
macro_rules! trace {
    ($($message:tt)*) => {
        if $crate::recording() {
            $crate::hear(format!($($message)*));
        }
    };
}

#[cfg(test)]
mod tests {
    #[test]
    fn hears_only_while_recording() {
        trace!("before");
        let (seven, heard) = super::recorded(|| {
            trace!("{} and {}", 1, 2);
            7
        });
        trace!("after");
        assert_eq!(7, seven);
        assert_eq!(vec!["1 and 2".to_string()], heard);
        let (_, heard) = super::recorded(|| ());
        assert!(heard.is_empty());
    }
}
