//! Prints the faults of the Rust, each with its smallest input and three answers.

fn main() {
    print!("{}", oracle::faults::printed(&oracle::faults::all()));
}
