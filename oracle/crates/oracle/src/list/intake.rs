//! The intake desk's call: lists in all their orders with every window, and each refusal at its boundary.

use super::{List, ROOM};
use crate::make::{self, Dice, Strings};
use crate::reading::Lists;

pub fn add(list: &mut List) {
    for lists in make::fixed() {
        in_all_orders(list, &lists);
    }
    let mut dice = Dice::new(107);
    for _ in 0..28 {
        for count in 1..=4 {
            let lists = make::few_lists(&mut dice, count);
            in_all_orders(list, &lists);
        }
    }
    lengths(list);
    ranges(list);
    orders(list);
    states(list);
}

fn in_all_orders(list: &mut List, lists: &[(i32, Strings)]) {
    let windows = make::windows();
    for order in make::orders(lists.len()) {
        let ordered: Vec<_> = order.iter().map(|&i| lists[i].clone()).collect();
        list.intake(&Lists::of(&ordered), ROOM, &windows);
    }
}

/// The string 1 under 1, and the string 2 under 2.
fn good() -> Lists {
    Lists::of(&[(1, Strings::of(&[&[1]])), (2, Strings::of(&[&[2]]))])
}

fn expect(number: u64, list: &mut List, lists: &Lists, room: usize) {
    assert_eq!(number, list.intake(lists, room, &[]), "{lists:?}");
}

fn changed(change: impl Fn(&mut Lists)) -> Lists {
    let mut lists = good();
    change(&mut lists);
    lists
}

/// 1: the output, no lists, productions without a count, counts and lengths that do not sum up, also where they wrap.
fn lengths(list: &mut List) {
    for (room, number) in [(0, 1), (ROOM - 1, 1), (ROOM, 0), (ROOM + 1, 0), (20_000, 0)] {
        expect(number, list, &good(), room);
    }
    let max = usize::MAX;
    for lists in [
        Lists::default(),
        changed(|l| l.productions.push(3)),
        changed(|l| l.productions.truncate(1)),
        changed(|l| l.counts.push(0)),
        changed(|l| l.counts[0] = 2),
        changed(|l| l.counts[1] = 0),
        changed(|l| l.counts = vec![max, 3]),
        changed(|l| l.lengths.push(0)),
        changed(|l| l.lengths[0] = 0),
        changed(|l| l.lengths = vec![max, 3]),
        changed(|l| l.lengths[1] = 1 << 63),
        changed(|l| l.tokens.push(5)),
        changed(|l| l.tokens.truncate(1)),
    ] {
        expect(1, list, &lists, ROOM);
    }
    // A list without strings claims the empty string.
    let mut more = good();
    more.push(3, &Strings::default());
    expect(0, list, &more, ROOM);
}

/// 2: a production, and a length, in each place.
fn ranges(list: &mut List) {
    for (production, number) in [(i32::MIN, 2), (-1, 2), (0, 0), (65_535, 0), (65_536, 2)] {
        for place in [0, 1] {
            let lists = changed(|l| l.productions[place] = production);
            expect(number, list, &lists, ROOM);
        }
    }
    for (length, number) in [(15, 0), (16, 0), (17, 2)] {
        let long = (3, Strings::of(&[&vec![9; length]]));
        let short = (1, Strings::of(&[&[1]]));
        expect(
            number,
            list,
            &Lists::of(&[long.clone(), short.clone()]),
            ROOM,
        );
        expect(number, list, &Lists::of(&[short, long]), ROOM);
    }
}

/// 1 before all, and then the first step that refuses: a clash of the first two before a third that is bad.
fn orders(list: &mut List) {
    let bad = changed(|l| {
        l.productions[0] = -1;
        l.tokens.push(5);
    });
    expect(1, list, &bad, ROOM);
    expect(1, list, &changed(|l| l.productions[0] = -1), ROOM - 1);
    let [first, clash, low] = [1, 2, -1].map(|p| (p, Strings::of(&[&[1]])));
    expect(
        8,
        list,
        &Lists::of(&[first.clone(), clash.clone(), low.clone()]),
        ROOM,
    );
    expect(2, list, &Lists::of(&[first, low, clash]), ROOM);
}

/// Strings of 16 tokens with no first token in common that need so many states.
fn comb(states: usize, first: u16) -> Strings {
    let mut list = Strings::default();
    let mut left = states - 1;
    while left > 0 {
        let length = left.min(16);
        list.push(&vec![first + list.lengths.len() as u16; length]);
        left -= length;
    }
    list
}

/// 14: more than 1,024 states in one list, and in two.
fn states(list: &mut List) {
    for (one, other, number) in [(1_024, 1, 0), (1_025, 1, 14), (512, 513, 0), (513, 513, 14)] {
        let lists = Lists::of(&[(1, comb(one, 0)), (2, comb(other, 100))]);
        expect(number, list, &lists, ROOM);
    }
}
