//! Every fault of the Rust on its smallest input, as it was found and written down.

use oracle::faults::{Fault, known, outside};
use oracle::{Lent, rust};

fn check(faults: &[Fault], expected: &[(&str, &str, &str, &str)]) {
    assert_eq!(expected.len(), faults.len());
    for (fault, (name, rust, archive, intake)) in faults.iter().zip(expected) {
        assert_eq!(name, &fault.name);
        assert_eq!(rust, &fault.rust, "{name}, the Rust");
        assert_eq!(archive, &fault.archive, "{name}, archive");
        assert_eq!(intake, &fault.intake, "{name}, intake");
    }
}

/// Archive is the Rust.
fn same<'a>(
    name: &'a str,
    archive: &'a str,
    intake: &'a str,
) -> (&'a str, &'a str, &'a str, &'a str) {
    (name, archive, archive, intake)
}

#[test]
fn known_faults() {
    let expected = [
        same("B1", "prod0 4, k 0, 1 state", "prod0 4, k 0, 1 state"),
        same(
            "U1",
            "prod0 -1, k 1 (0,5,1,1), 2 states; 11",
            "prod0 2, k 1 (0,5,1,1), 2 states; 2 after 0 rows",
        ),
        same("U2", "prod0 1, k 0, 1 state", "8 with 1, 2"),
        same(
            "U3",
            "prod0 -1, k 1 (0,5,1,-1) (1,6,2,2), 3 states; 11",
            "prod0 -1, k 2 (0,5,1,1) (1,6,2,2), 3 states; 1 after 1 row",
        ),
        same(
            "U4",
            "prod0 -1, k 1 (0,5,1,1) (0,7,2,-1) (2,8,3,2), 4 states; 11",
            "prod0 -1, k 2 (0,5,1,1) (0,7,2,-1) (2,8,3,2), 4 states; 2 after 2 rows",
        ),
        same(
            "U5",
            "prod0 -1, k 1 (0,5,1,3) (1,6,2,2), 3 states; 3 after 1 row",
            "8 with 1, 3",
        ),
        same(
            "U6",
            "prod0 -1, k 2 (0,5,1,1) (1,6,2,2), 3 states; 2 after 2 rows",
            "prod0 -1, k 2 (0,5,1,1) (1,6,2,2), 3 states; 2 after 2 rows",
        ),
        same(
            "U6",
            "prod0 -1, k 1 (0,5,1,-1) (1,6,2,2), 3 states; 11",
            "prod0 -1, k 2 (0,5,1,1) (1,6,2,2), 3 states; 2 after 2 rows",
        ),
        same(
            "S1",
            "prod0 -1, k 2 (0,5,1,1) (0,7,1,1), 3 states; 1 after 1 row",
            "prod0 -1, k 2 (0,5,1,1) (0,7,3,1) (1,6,2,2), 4 states; 2 after 2 rows",
        ),
        same(
            "S1'",
            "prod0 -1, k 2 (0,5,1,1), 2 states; 1 after 1 row",
            "prod0 -1, k 2 (0,5,1,1) (1,6,2,1), 3 states; 1 after 2 rows",
        ),
        same(
            "S2",
            "prod0 -1, k 2 (0,4,2,-1) (0,5,1,1) (0,7,4,1) (2,4,3,1) (4,6,5,2), 6 states; 1 after 1 row",
            "prod0 -1, k 2 (0,4,2,-1) (0,5,1,1) (0,7,4,1) (2,4,3,1) (4,6,5,2), 6 states; 1 after 1 row",
        ),
        same(
            "S2",
            "prod0 -1, k 2 (0,4,2,-1) (0,5,1,1) (0,7,1,1) (1,6,3,2) (2,4,1,1), 4 states; 2 after 2 rows",
            "prod0 -1, k 2 (0,4,2,-1) (0,5,1,1) (0,7,3,1) (2,4,1,1) (3,6,4,2), 5 states; 1 after 1 row",
        ),
        same(
            "S3",
            "prod0 1, k 1, 2 states; 1 after 0 rows",
            "prod0 1, k 1 (0,3,1,1) (0,5,2,2), 3 states; 2 after 1 row",
        ),
        same(
            "S4",
            "prod0 1, k 2 (1,6,2,2), 3 states",
            "prod0 1, k 2 (0,3,1,1) (0,5,2,-1) (2,6,3,2), 4 states",
        ),
        same(
            "S4'",
            "prod0 1, k 2 (1,5,0,1), 2 states",
            "prod0 1, k 2 (0,3,1,-1) (1,5,2,1), 3 states",
        ),
        same(
            "S5",
            "prod0 -1, k 3 (0,5,1,1), 2 states",
            "prod0 -1, k 3 (0,5,1,1) (1,6,2,-1) (2,5,3,1), 4 states",
        ),
        (
            "P1",
            "prod0 3, k 1 (0,5,1,-1), 2 states; -1 as usize",
            "prod0 3, k 1 (0,5,1,-1), 2 states; 12",
            "prod0 3, k 1 (0,5,1,-1), 2 states; 3 after 1 row",
        ),
        same(
            "P2",
            "prod0 -1, k 2 (0,5,1,1), 2 states; 1 after 1 row",
            "prod0 -1, k 2 (0,5,1,1), 2 states; 1 after 1 row",
        ),
    ];
    check(&known(), &expected);
}

#[test]
fn differences_outside_the_port() {
    let expected = [
        ("padding", "1 after 1 row", "10", "10"),
        (
            "order of strings",
            "prod0 -1, k 1 (0,5,1,1) (0,7,2,1), 3 states",
            "prod0 -1, k 1 (0,5,2,1) (0,7,1,1), 3 states",
            "prod0 -1, k 1 (0,5,2,1) (0,7,1,1), 3 states",
        ),
        (
            "epsilon",
            "prod0 1, k 0, 1 state",
            "prod0 -1, k 1 (0,65535,1,1), 2 states",
            "prod0 -1, k 1 (0,65535,1,1), 2 states",
        ),
        ("stream's k", "1 after 1 row", "9", "9"),
    ];
    check(&outside(), &expected);
}

/// Why archive keeps refusing by 4: the Rust makes a circle of a table without one.
#[test]
fn off_the_domain_the_rust_makes_a_circle() {
    let rows = [0, 5, 2, 1, 2, 6, 1, 1];
    let made = rust::shrink(Lent::new(-1, 2, &rows));
    assert!(made.rows.ends_with(&[1, 6, 1, 1]), "{made:?}");
}

/// Why a table has to be ruled: the Rust can stop on one that isn't. prod0 must be 1 here; with
/// -1 the same row gives (1,1,1,1).
#[test]
#[should_panic(expected = "called `Option::unwrap()` on a `None` value")]
fn off_the_domain_the_rust_can_stop() {
    rust::shrink(Lent::new(1, 1, &[2, 1, 2, 1]));
}
