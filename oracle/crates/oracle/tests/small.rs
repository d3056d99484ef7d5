//! The reading's archive mode against the Rust, on all small inputs.

use oracle::agree::{self, Lending};
use oracle::make;
use oracle::reading::{MODES, Mode};
use std::collections::BTreeMap;

const ROOM: usize = 16_384;

#[test]
fn all_small_lists() {
    let two = make::lists(3, 2, 2);
    let three = make::lists(3, 2, 3);
    let long = make::lists(2, 4, 2);
    for list in two.iter().chain(&three).chain(&long) {
        let (asked, made) = agree::build(4, &list.lengths, &list.tokens, ROOM);
        assert!(asked && made.is_ok());
    }
}

#[test]
fn all_pairs_of_small_trees() {
    let small = make::trees(2, 2, &[-1, 1, 2]);
    let large = make::trees(3, 2, &[-1, 1, 2]);
    let mut refusals: BTreeMap<u64, usize> = BTreeMap::new();
    for a in &small {
        for b in &large {
            for (first, second) in [(a, b), (b, a)] {
                let (asked, made) = agree::unite(Mode::Archive, first.lent(), second.lent(), ROOM);
                assert!(asked);
                *refusals
                    .entry(made.err().map_or(0, |r| r.number()))
                    .or_default() += 1;
            }
        }
    }
    assert_eq!(vec![0, 8], refusals.into_keys().collect::<Vec<u64>>());
}

#[test]
fn all_small_ruled_tables() {
    let two = make::ruled_tables(4, 2, &[-1, 1, 2]);
    let three = make::ruled_tables(3, 3, &[-1, 1, 2]);
    assert!(two.len() > 10_000);
    for table in two.iter().chain(&three) {
        let (asked, made) = agree::shrink(Mode::Archive, table.lent(), ROOM);
        assert!(asked && made.is_ok());
    }
}

#[test]
fn all_small_walks() {
    let streams = make::lists(1, 3, 3);
    for mut table in make::walk_tables(&[-1, 1]) {
        for (prod0, k) in every(&[-1, 3], &[0, 1, 2, 3]) {
            (table.prod0, table.k) = (prod0, k);
            let lending = Lending::new(table.lent());
            for stream in &streams {
                for stream_k in 0..=3 {
                    for mode in MODES {
                        let _ = lending.predict(mode, stream_k, &stream.tokens);
                    }
                }
                lending.explain(&stream.tokens);
            }
        }
    }
}

fn every(productions: &[i32], ks: &[usize]) -> Vec<(i32, usize)> {
    let with = |&p: &i32| ks.iter().map(move |&k| (p, k));
    productions.iter().flat_map(with).collect()
}
