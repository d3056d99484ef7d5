//! Writes the fixed list into the folder of the crates, where the program that replays it reads it, and prints its
//! counts.

use std::path::PathBuf;

fn main() -> std::io::Result<()> {
    let Some(folder) = std::env::args_os().nth(1) else {
        eprintln!("usage: list FOLDER, the repository's folder `crates`");
        std::process::exit(2);
    };
    let list = oracle::list::make();
    std::fs::write(PathBuf::from(folder).join(oracle::list::PATH), &list.bytes)?;
    print!("{}", list.counts());
    Ok(())
}
