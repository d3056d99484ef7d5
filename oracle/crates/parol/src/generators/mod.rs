//! Stand-in for `generators/mod.rs`.

#[cfg(test)]
pub(crate) mod parser_generator;
