//! Stand-in for a grammar's terminal names: each terminal is named by its number.

use std::sync::OnceLock;

/// 65,536 names, made once and kept for ever.
pub fn terminal_names() -> &'static [&'static str] {
    static NAMES: OnceLock<&'static [&'static str]> = OnceLock::new();
    NAMES.get_or_init(|| {
        let names: Vec<&'static str> = (0..=u16::MAX).map(name).collect();
        Vec::leak(names)
    })
}

fn name(terminal: u16) -> &'static str {
    String::leak(terminal.to_string())
}
