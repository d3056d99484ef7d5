//! The proved calls beside the Rust and the reading of document 01, on the same inputs.
//!
//! `compare` is the short run, `compare long [ROUNDS]` the long one, of ten rounds if no number is named.
//! `compare spoilt` spoils our answers on purpose, to show that differences are reported; `compare spoilt run` is a
//! short run that is spoilt, which must fail.

mod calls;
mod damage;
mod desk;
mod expected;
mod families;
mod part;
mod spoil;
mod spoilt;
mod work;

fn main() {
    let words: Vec<String> = std::env::args().skip(1).collect();
    let words: Vec<&str> = words.iter().map(String::as_str).collect();
    match words[..] {
        [] => work::run(1, false, None),
        ["long"] => work::run(work::LONG, true, None),
        ["long", rounds] => work::run(rounds.parse().expect("a count of rounds"), true, None),
        ["spoilt"] => spoilt::run(),
        ["spoilt", "run"] => work::run(1, false, Some(spoil::Spoil::Behind)),
        _ => {
            eprintln!("compare [long [ROUNDS] | spoilt [run]]");
            std::process::exit(2);
        }
    }
}
