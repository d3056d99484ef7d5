//! The intake desk's call: lists that show one thing each, in all their orders.

use super::{Named, made};
use crate::Table;
use crate::list::{Ask, Predicted, ROOM, Said};
use crate::make::{self, Strings, Window};
use crate::reading::{Answer, Lists, Refusal};

/// A window and what the lists define for it: the production and how many tokens begin a string.
type Told = (Window, Option<(i32, usize)>);

pub fn all() -> Vec<Named> {
    let [begun, empties, thrice, longer, alike, merged] = make::fixed().try_into().unwrap();
    let mut all = vec![
        begins(&begun),
        clash(
            "intake of two empty strings: 8 with their pair",
            &empties,
            [1, 2],
        ),
        clash(
            "intake of a clash with the third list: 8 in all orders",
            &thrice,
            [1, 3],
        ),
    ];
    all.push(chain(&longer));
    all.push(twice(&alike));
    all.push(paths(&merged));
    all
}

/// The lists in all their orders, which give these tables.
fn named(
    name: &'static str,
    lists: &[(i32, Strings)],
    told: &[Told],
    table: impl Fn(&Lists) -> Answer<Table>,
) -> Named {
    let case = |order: Vec<usize>| {
        let ordered: Vec<_> = order.iter().map(|&i| lists[i].clone()).collect();
        served(Lists::of(&ordered), told, &table)
    };
    let cases = make::orders(lists.len()).into_iter().map(case).collect();
    Named { name, cases }
}

/// A named case lends its input for good.
fn served(
    lists: Lists,
    told: &[Told],
    table: impl Fn(&Lists) -> Answer<Table>,
) -> (Ask<'static>, Said) {
    let windows: Vec<Window> = told.iter().map(|t| t.0).collect();
    let predicted = |t: &Told| -> (Window, Predicted) { (t.0, t.1.ok_or(Refusal::Plain(11))) };
    let said = Said::Served {
        made: table(&lists),
        windows: told.iter().map(predicted).collect(),
    };
    let ask = Ask::Intake {
        lists: Box::leak(Box::new(lists)),
        room: ROOM,
        windows: windows.leak(),
    };
    (ask, said)
}

/// 1 and 3 under 1, 1 2 under 2; the states are numbered as the lists come.
fn begins(lists: &[(i32, Strings)]) -> Named {
    let told = [
        ([1, 2, 4], Some((2, 2))),
        ([1, 4, 2], Some((1, 1))),
        ([4, 1, 2], Some((1, 1))),
        ([3, 2, 1], Some((1, 1))),
        ([4, 4, 1], None),
    ];
    let first = made(-1, 2, 4, &[[0, 1, 1, 1], [0, 3, 2, 1], [1, 2, 3, 2]]);
    let second = made(-1, 2, 4, &[[0, 1, 1, 1], [0, 3, 3, 1], [1, 2, 2, 2]]);
    named(
        "intake A with B in both orders: 1 2 is 2, 1 alone is 1",
        lists,
        &told,
        |l| {
            if l.productions[0] == 1 {
                first.clone()
            } else {
                second.clone()
            }
        },
    )
}

/// A clash of two of the lists, whose production comes first is told first.
fn clash(name: &'static str, lists: &[(i32, Strings)], pair: [i32; 2]) -> Named {
    named(name, lists, &[], |l| {
        let place = |p| l.productions.iter().position(|&q| q == p);
        let [one, other] = pair;
        if place(one) < place(other) {
            Err(Refusal::Clash(one, other))
        } else {
            Err(Refusal::Clash(other, one))
        }
    })
}

/// The empty string under 0, 1 under 1, 1 2 under 2, 1 2 3 under 3.
fn chain(lists: &[(i32, Strings)]) -> Named {
    let told = [
        ([4, 4, 4], Some((0, 0))),
        ([1, 4, 4], Some((1, 1))),
        ([1, 2, 4], Some((2, 2))),
        ([1, 2, 3], Some((3, 3))),
        ([4, 1, 2], Some((2, 2))),
        ([2, 3, 1], Some((1, 1))),
    ];
    let rows = [[0, 1, 1, 1], [1, 2, 2, 2], [2, 3, 3, 3]];
    let name = "intake of strings that begin each other: one table in all orders";
    named(name, lists, &told, |_| made(0, 3, 4, &rows))
}

/// 1 2 in two lists of one production, and 3.
fn twice(lists: &[(i32, Strings)]) -> Named {
    let told = [
        ([1, 2, 3], Some((65_535, 2))),
        ([3, 1, 2], Some((65_535, 1))),
        ([1, 1, 2], None),
    ];
    let rows = [[0, 1, 1, -1], [0, 3, 2, 65_535], [1, 2, 2, 65_535]];
    let name = "intake of one string in two lists of one production: no clash";
    named(name, lists, &told, |_| made(-1, 2, 3, &rows))
}

/// 1 2 and 3 2 under 1, 1 2 2 and 3 2 2 under 2.
fn paths(lists: &[(i32, Strings)]) -> Named {
    let told = [
        ([1, 2, 4], Some((1, 2))),
        ([3, 2, 2], Some((2, 3))),
        ([1, 4, 2], Some((1, 2))),
        ([1, 1, 1], None),
        ([2, 2, 2], None),
    ];
    let rows = [[0, 1, 1, -1], [0, 3, 1, -1], [1, 2, 2, 1], [2, 2, 3, 2]];
    let name = "intake of paths that merge: one table in all orders";
    named(name, lists, &told, |_| made(-1, 3, 4, &rows))
}
