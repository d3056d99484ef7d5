//! The fixed list of cases, made by hand and from fixed seeds. Its form is told in
//! `oracle/list/README.md`.

mod bounds;
mod bytes;
mod case;
mod intake;
pub mod named;
mod random;
mod small;
mod tables;
mod texts;
mod traps;
mod written;

pub use bytes::Bytes;
pub use case::{Ask, CALLS, Predicted, Said};
pub use tables::{rust_tables, self_loop};
pub use written::{List, NAME};

/// The length that document 01 asks of an output slice.
pub const ROOM: usize = 16_384;

/// The bytes that it asks of an output for text.
pub const TEXT_ROOM: usize = 262_144;

/// Where the list stands, below `crates/`: it is the standard input of the program that replays it.
pub const PATH: &str = "replay/stdin";

/// The whole list.
pub fn make() -> List {
    let mut list = List::default();
    for named in named::all() {
        list.named(&named);
    }
    small::add(&mut list);
    traps::add(&mut list);
    bounds::add(&mut list);
    random::add(&mut list);
    intake::add(&mut list);
    texts::add(&mut list);
    list
}
