//! The compiled files are the kept copies, byte for byte.

use std::fs;
use std::path::Path;

const FILES: [&str; 4] = [
    "crates/parol/src/analysis/lookahead_dfa.rs",
    "crates/parol/src/analysis/compiled_la_dfa.rs",
    "crates/parol/src/utils/mod.rs",
    "crates/parol_runtime/src/parser/lookahead_dfa.rs",
];

#[test]
fn compiled_files_are_the_kept_copies() {
    let root = Path::new(env!("CARGO_MANIFEST_DIR")).join("../..");
    for file in FILES {
        let compiled = fs::read(root.join(file)).unwrap();
        let kept = fs::read(root.join("original").join(file)).unwrap();
        assert!(compiled == kept, "{file}");
    }
}
