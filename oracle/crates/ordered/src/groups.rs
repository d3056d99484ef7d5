//! Stand-in for `group_by`: the same groups, in a chosen order.

use std::cell::Cell;

/// The order of the groups.
#[derive(Debug, Clone, Copy, PartialEq, Eq)]
pub enum Order {
    /// By first appearance.
    Rising,
    /// By first appearance, last first.
    Falling,
    /// Shuffled from a seed; each call shuffles anew.
    Shuffled(u64),
}

thread_local! {
    static CHOSEN: Cell<Order> = const { Cell::new(Order::Rising) };
}

/// Chooses the order for this thread.
pub fn choose(order: Order) {
    CHOSEN.set(order);
}

/// Same signature and groups as the original in `utils/mod.rs`.
pub(crate) fn group_by<P, T, K>(data: &[T], projection: P) -> Vec<(K, Vec<T>)>
where
    P: Fn(&T) -> K,
    K: Eq,
    T: Clone,
{
    let mut groups: Vec<(K, Vec<T>)> = Vec::new();
    for t in data {
        let key = projection(t);
        match groups.iter_mut().find(|g| g.0 == key) {
            Some(group) => group.1.push(t.clone()),
            None => groups.push((key, vec![t.clone()])),
        }
    }
    arrange(&mut groups);
    groups
}

fn arrange<G>(groups: &mut [G]) {
    match CHOSEN.get() {
        Order::Rising => {}
        Order::Falling => groups.reverse(),
        Order::Shuffled(seed) => CHOSEN.set(Order::Shuffled(shuffle(groups, seed))),
    }
}

/// Shuffles and gives the seed for the next call.
fn shuffle<G>(groups: &mut [G], mut seed: u64) -> u64 {
    for last in (1..groups.len()).rev() {
        seed = seed
            .wrapping_mul(6364136223846793005)
            .wrapping_add(1442695040888963407);
        groups.swap(last, (seed >> 33) as usize % (last + 1));
    }
    seed.wrapping_add(1)
}
