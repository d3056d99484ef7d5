//! Stand-in for `grammar/mod.rs`.

pub mod cfg;
