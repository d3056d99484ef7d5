//! All small inputs.

use super::{List, ROOM};
use crate::make;
use crate::reading::MODES;

pub fn add(list: &mut List) {
    for strings in make::lists(3, 2, 2) {
        list.build(4, &strings.lengths, &strings.tokens, ROOM);
    }
    let trees = make::trees(1, 2, &[-1, 1, 2]);
    for first in &trees {
        for second in &trees {
            for mode in MODES {
                list.unite(mode, first.lent(), second.lent(), ROOM);
            }
        }
    }
    for table in make::ruled_tables(3, 2, &[-1, 1, 2]) {
        for mode in MODES {
            list.shrink(mode, table.lent(), ROOM);
        }
    }
    walks(list);
}

/// Every small table, each on tokens that change from table to table.
fn walks(list: &mut List) {
    let streams: Vec<Vec<u16>> = make::lists(1, 3, 3).into_iter().map(|s| s.tokens).collect();
    for (i, mut table) in make::walk_tables(&[-1, 1]).into_iter().enumerate() {
        let stream = &streams[i * 7 % streams.len()];
        table.k = stream.len().min(i % 4);
        for prod0 in [-1, 3] {
            table.prod0 = prod0;
            for mode in MODES {
                list.predict(mode, table.lent(), 3, stream);
            }
        }
        list.explain(table.lent(), stream);
    }
}
