//! The answers that were written by hand are those of the reading and, where it has a say, of the Rust.

use oracle::list::named;
use std::collections::BTreeSet;

#[test]
fn the_answers_by_hand_are_right() {
    let mut of_the_rust = 0;
    for named in named::all() {
        assert!(!named.cases.is_empty(), "{}", named.name);
        for (ask, said) in &named.cases {
            // Fails in itself where the reading and the Rust differ.
            let (asked, agreed) = ask.agreed();
            assert_eq!(*said, agreed, "{}", named.name);
            of_the_rust += asked as usize;
        }
    }
    // Predict 21, explain 9, unite 5, shrink 3, the tables of the Rust's tests 60.
    assert_eq!(98, of_the_rust);
}

#[test]
fn each_name_stands_once() {
    let all = named::all();
    let names: BTreeSet<&str> = all.iter().map(|named| named.name).collect();
    assert_eq!(79, all.len());
    assert_eq!(79, names.len());
    assert!(names.iter().all(|name| name.is_ascii()));
}
