//! Texts, and copies of them with one damage.

/// A head alone, one row, and rows of long numbers.
pub const TEXTS: [&str; 3] = [
    "Dfa(-1, 16)\n",
    "Dfa(0, 9)\nTrans(0, 5, 1, -1),\n",
    "Dfa(65535, 2)\nTrans(7, 99, 1023, 1),\nTrans(8, 98, 100, 65535),\nTrans(8, 99, 2, -1),\n",
];

/// At a place of a text: its byte dropped, doubled, swapped with the next, the text cut off, the byte changed to each
/// of some.
pub fn damages(text: &[u8], place: usize, bytes: &[u8]) -> Vec<Vec<u8>> {
    let (front, back) = text.split_at(place);
    let mut all = vec![
        [front, &back[1..]].concat(),
        [front, &back[..1], back].concat(),
        front.to_vec(),
    ];
    if back.len() > 1 {
        all.push([front, &[back[1], back[0]], &back[2..]].concat());
    }
    all.extend(bytes.iter().map(|&b| [front, &[b], &back[1..]].concat()));
    all
}

/// The most rows, in short lines: rows of one head, which rise.
pub fn most_rows() -> Vec<i32> {
    (0..4_096).flat_map(|i| [i / 10, i % 10, 1, 1]).collect()
}

/// A text with these rows, -1 and 2 at its head.
pub fn text_of(rows: &[i32]) -> String {
    let mut text = String::from("Dfa(-1, 2)\n");
    for r in rows.chunks_exact(4) {
        text += &format!("Trans({}, {}, {}, {}),\n", r[0], r[1], r[2], r[3]);
    }
    text
}
