//! Texts: every one-byte change, and random ones there and back.

use super::{room, size};
use crate::desk::Desk;
use crate::part::Part;
use oracle::list::{ROOM, TEXT_ROOM};
use oracle::make;

const TEXTS: [&str; 3] = [
    "Dfa(-1, 2)\nTrans(0, 5, 1, 1),\nTrans(0, 7, 3, 1),\nTrans(1, 6, 2, 2),\n",
    "Dfa(65535, 16)\nTrans(1023, 65535, 1023, 65535),\n",
    "Dfa(0, 0)\n",
];

/// Every byte of six texts replaced by every byte, dropped, doubled, swapped with the next, or with every byte put
/// before it; every cut; and all texts of up to 2 bytes.
pub fn bytes(desk: &mut Desk, part: Part) {
    let bytes: Vec<u8> = (0..=255).collect();
    for text in TEXTS.iter().chain(&make::TEXTS).map(|t| t.as_bytes()) {
        for place in (0..=text.len()).filter(|&p| part.has(p)) {
            let (front, back) = text.split_at(place);
            read(desk, back);
            for &byte in &bytes {
                read(desk, &[front, &[byte], back].concat());
            }
            if place < text.len() {
                let copies = make::damages(text, place, &bytes);
                copies.iter().for_each(|copy| read(desk, copy));
            }
        }
    }
    for first in (0..=255).filter(|&b: &u8| part.has(b.into())) {
        read(desk, &[first]);
        for second in 0..=255 {
            read(desk, &[first, second]);
        }
    }
}

/// Text in, and of a text that is taken text out, which must give it back.
pub fn read(desk: &mut Desk, text: &[u8]) {
    if let Ok(table) = desk.text_in(text, ROOM) {
        let back = desk.text_out(table.lent(), TEXT_ROOM);
        assert_eq!(Ok(text), back.as_deref());
    }
}

pub fn back(desk: &mut Desk, part: Part) {
    let mut dice = part.dice(15);
    for round in 0..part.share(20_000) {
        let large = round % 200 == 0;
        let (states, rows) = match large {
            true => (1_024, 4_096),
            false => dice.pick(&[(8, 12), (1_024, 40)]),
        };
        let size = size(&mut dice, states, rows);
        let mut table = make::rising(&mut dice, &size);
        table.rows.truncate(ROOM);
        let bytes = room(&mut dice, TEXT_ROOM);
        let Ok(text) = desk.text_out(table.lent(), bytes) else {
            continue;
        };
        let numbers = room(&mut dice, ROOM);
        if let Ok(back) = desk.text_in(&text, numbers) {
            assert_eq!(table.lent(), back.lent());
        }
    }
}
