//! Small inputs in full.

use crate::desk::Desk;
use crate::part::Part;
use oracle::list::{ROOM, TEXT_ROOM};
use oracle::make;
use oracle::reading::MODES;

/// Up to 3 strings of up to 2 tokens out of 3, 4 of 2 out of 2, 2 of 4 out of 2; long: 5 of 2 and 3 of 4 out of 2.
pub fn lists(desk: &mut Desk, part: Part) {
    let mut all = make::lists(3, 2, 3);
    all.extend(make::lists(4, 2, 2));
    all.extend(make::lists(2, 4, 2));
    if part.long {
        all.extend(make::lists(5, 2, 2));
        all.extend(make::lists(3, 4, 2));
    }
    for (_, list) in all.iter().enumerate().filter(|(i, _)| part.has(*i)) {
        let made = desk.build(4, &list.lengths, &list.tokens, ROOM);
        assert!(made.is_ok(), "{list:?}");
    }
}

/// Trees of up to 2 rows with trees of up to 3, either first; long: of up to 3 with of up to 3. Productions -1, 1, 2.
pub fn pairs(desk: &mut Desk, part: Part) {
    let small = make::trees(if part.long { 3 } else { 2 }, 2, &[-1, 1, 2]);
    let large = make::trees(3, 2, &[-1, 1, 2]);
    for (i, a) in small.iter().enumerate() {
        for (j, b) in large.iter().enumerate() {
            if !part.has(i + j) {
                continue;
            }
            for mode in MODES {
                let _ = desk.unite(mode, a.lent(), b.lent(), ROOM);
                if !part.long {
                    let _ = desk.unite(mode, b.lent(), a.lent(), ROOM);
                }
            }
        }
    }
}

/// Up to 4 states over 2 terminals, up to 3 over 3, productions -1, 1, 2; long: up to 5 over 2, productions -1, 1.
/// All states of a table are numbered without gaps.
pub fn ruled(desk: &mut Desk, part: Part) {
    let mut all = make::ruled_tables(4, 2, &[-1, 1, 2]);
    all.extend(make::ruled_tables(3, 3, &[-1, 1, 2]));
    if part.long {
        all.extend(make::ruled_tables(5, 2, &[-1, 1]));
    }
    for (_, table) in all.iter().enumerate().filter(|(i, _)| part.has(*i)) {
        for mode in MODES {
            let made = desk.shrink(mode, table.lent(), ROOM);
            assert!(made.is_ok(), "{table:?}");
        }
        let text = desk.text_out(table.lent(), TEXT_ROOM).unwrap();
        let back = desk.text_in(&text, ROOM).unwrap();
        assert_eq!(table.lent(), back.lent());
    }
}

/// Rising tables of 2 states and 2 terminals, ruled or not, and tokens up to 3 out of 3; k and the stream's k 0 to 3.
pub fn walks(desk: &mut Desk, part: Part) {
    let windows = make::lists(1, 3, 3);
    let all = make::walk_tables(&[-1, 1]);
    for (_, mut table) in all.into_iter().enumerate().filter(|(i, _)| part.has(*i)) {
        for prod0 in [-1, 3] {
            for k in 0..=3 {
                (table.prod0, table.k) = (prod0, k);
                let mut lent = desk.lend(table.lent());
                for window in &windows {
                    for (mode, stream_k) in MODES.iter().flat_map(|m| (0..=3).map(move |s| (*m, s)))
                    {
                        let _ = desk.predict(&mut lent, mode, stream_k, &window.tokens);
                    }
                    desk.explain(&mut lent, &window.tokens);
                }
            }
        }
    }
}
