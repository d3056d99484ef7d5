//! The faults that archive mode keeps.

use super::{Fault, List, Start, Story};

fn lists(of: &[List], tokens: Option<&[u16]>, name: &'static str, about: &'static str) -> Fault {
    let story = Story {
        start: Start::Lists(of),
        shrink: false,
        tokens,
    };
    story.told(name, about)
}

fn shrunk(of: Start, tokens: Option<&[u16]>, name: &'static str, about: &'static str) -> Fault {
    let story = Story {
        start: of,
        shrink: true,
        tokens,
    };
    story.told(name, about)
}

fn walked(of: Start, tokens: &[u16], name: &'static str, about: &'static str) -> Fault {
    let story = Story {
        start: of,
        shrink: false,
        tokens: Some(tokens),
    };
    story.told(name, about)
}

const FIVE: List = (1, &[&[5]]);
const FIVE_SIX: List = (2, &[&[5, 6]]);

/// B1, U1 to U6, S1 to S5, P1, P2.
pub fn known() -> Vec<Fault> {
    let mut all = vec![lists(
        &[(4, &[])],
        None,
        "B1",
        "an empty list makes state 0 accept",
    )];
    all.extend(of_unite());
    all.extend(of_shrink());
    all.extend(of_predict());
    all
}

fn of_unite() -> Vec<Fault> {
    let order = "the order of the lists changes answers";
    vec![
        lists(
            &[FIVE, (2, &[&[]])],
            Some(&[9]),
            "U1",
            "the second's empty string is dropped",
        ),
        lists(
            &[(1, &[&[]]), (2, &[&[]])],
            None,
            "U2",
            "a clash at state 0 is not seen",
        ),
        lists(
            &[FIVE, FIVE_SIX],
            Some(&[5, 9]),
            "U3",
            "an accepting state is overwritten by -1",
        ),
        lists(
            &[FIVE, (2, &[&[7, 8]])],
            Some(&[7, 8]),
            "U4",
            "k stays the first's",
        ),
        lists(
            &[FIVE, FIVE_SIX, (3, &[&[5]])],
            Some(&[5]),
            "U5",
            "a clash is hidden by an overwriting between",
        ),
        lists(&[FIVE_SIX, FIVE], Some(&[5, 6]), "U6", order),
        lists(&[FIVE, FIVE_SIX], Some(&[5, 6]), "U6", order),
    ]
}

fn of_shrink() -> Vec<Fault> {
    let t = [[0, 5, 1, 1], [0, 7, 3, 1], [1, 6, 2, 2]];
    let alien: [List; 3] = [(1, &[&[5], &[4, 4]]), (2, &[&[7, 6]]), (1, &[&[7]])];
    let two = [[0, 5, 1, 1], [1, 6, 2, 1]];
    let own = [[0, 3, 1, 1], [0, 5, 2, 2]];
    let loose = [[0, 3, 1, 1], [0, 5, 2, -1], [2, 6, 3, 2]];
    let back = [[0, 3, 1, -1], [1, 5, 2, 1]];
    let swallow = [[0, 5, 1, 1], [1, 6, 2, -1], [2, 5, 3, 1]];
    vec![
        shrunk(
            Start::Table(-1, 2, &t),
            Some(&[5, 6]),
            "S1",
            "of the accepting states of one production only the highest's rows live",
        ),
        shrunk(
            Start::Table(-1, 2, &two),
            Some(&[5, 6]),
            "S1'",
            "the same with two rows",
        ),
        lists(
            &alien,
            Some(&[5, 6]),
            "S2",
            "a string in no list gets a production: before shrink",
        ),
        shrunk(
            Start::Lists(&alien),
            Some(&[5, 6]),
            "S2",
            "a string in no list gets a production: after shrink",
        ),
        shrunk(
            Start::Table(1, 1, &own),
            Some(&[5]),
            "S3",
            "state 0 takes another's rows and loses its own",
        ),
        shrunk(
            Start::Table(1, 2, &loose),
            None,
            "S4",
            "states that nothing reaches stay, with their rows",
        ),
        shrunk(
            Start::Table(1, 2, &back),
            None,
            "S4'",
            "a state that nothing reaches keeps a row to 0",
        ),
        shrunk(
            Start::Table(-1, 3, &swallow),
            None,
            "S5",
            "state 0 swallows a state that nothing reaches",
        ),
    ]
}

fn of_predict() -> Vec<Fault> {
    vec![
        walked(
            Start::Table(3, 1, &[[0, 5, 1, -1]]),
            &[5],
            "P1",
            "prod0 accepts, a row was entered, none accepts",
        ),
        walked(
            Start::Table(-1, 2, &[[0, 5, 1, 1]]),
            &[9, 5],
            "P2",
            "stray tokens are stepped over",
        ),
    ]
}
