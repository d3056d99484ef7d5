//! Stand-in for `parser/mod.rs`.

pub mod parol_grammar;
pub mod parol_parser;
