//! The same stand-in as in the first build.

#[path = "../../../parol/src/generators/parser_generator.rs"]
pub(crate) mod parser_generator;
