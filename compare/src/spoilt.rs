//! Each thing spoilt on purpose after each call: whatever can show must be reported.

use crate::desk::Desk;
use crate::spoil::{ALL, Spoil};
use oracle::Lent;
use oracle::list::{ROOM, TEXT_ROOM};
use oracle::make::Strings;
use oracle::reading::{Lists, Mode};
use std::panic::{AssertUnwindSafe, catch_unwind};

type Call = (&'static str, fn(&mut Desk), &'static [Spoil]);

const ROWS: [i32; 8] = [0, 5, 1, 1, 1, 6, 2, 2];
const NO_OUTPUT: [Spoil; 4] = [Spoil::Front, Spoil::Behind, Spoil::End, Spoil::Beyond];
/// Of a call that refuses there is no front.
const NO_FRONT: [Spoil; 1] = [Spoil::Front];
/// The check alone has neither values nor output.
const NUMBER_ALONE: [Spoil; 8] = [
    Spoil::Value(0),
    Spoil::Value(1),
    Spoil::Value(2),
    Spoil::Value(3),
    Spoil::Front,
    Spoil::Behind,
    Spoil::End,
    Spoil::Beyond,
];

fn table() -> Lent<'static> {
    Lent::new(-1, 2, &ROWS)
}

fn lists() -> Lists {
    let mut lists = Lists::default();
    lists.push(1, &Strings::of(&[&[5], &[7]]));
    lists
}

/// The calls, each with what cannot show in it.
const CALLS: [Call; 12] = [
    ("build", |d| drop(d.build(1, &[1], &[5], ROOM)), &[]),
    (
        "unite",
        |d| drop(d.unite(Mode::Archive, table(), table(), ROOM)),
        &[],
    ),
    (
        "shrink",
        |d| drop(d.shrink(Mode::Intake, table(), ROOM)),
        &[],
    ),
    ("intake", |d| drop(d.intake(&lists(), ROOM)), &[]),
    (
        "text in",
        |d| drop(d.text_in(b"Dfa(-1, 2)\nTrans(0, 5, 1, 1),\n", ROOM)),
        &[],
    ),
    ("text out", |d| drop(d.text_out(table(), TEXT_ROOM)), &[]),
    (
        "a refused build",
        |d| drop(d.build(-1, &[1], &[5], ROOM)),
        &NO_FRONT,
    ),
    (
        "a refused text in",
        |d| drop(d.text_in(b"Dfa(-1, 2)", ROOM)),
        &NO_FRONT,
    ),
    ("check", |d| drop(d.lend(table())), &NUMBER_ALONE),
    ("predict", |d| predicted(d), &NO_OUTPUT),
    ("batch", |d| batched(d), &[]),
    ("explain", |d| explained(d), &NO_OUTPUT),
];

/// Predict alone is spoilt, not the check before it.
fn predicted(desk: &mut Desk) {
    let spoil = desk.spoil.take();
    let mut lent = desk.lend(table());
    desk.spoil = spoil;
    let _ = desk.predict(&mut lent, Mode::Archive, 2, &[5, 6]);
}

fn batched(desk: &mut Desk) {
    let spoil = desk.spoil.take();
    let mut lent = desk.lend(table());
    desk.spoil = spoil;
    desk.batch(&mut lent, Mode::Archive, 2, 2, &[5, 6, 9, 9], 3);
}

fn explained(desk: &mut Desk) {
    let spoil = desk.spoil.take();
    let mut lent = desk.lend(table());
    desk.spoil = spoil;
    desk.explain(&mut lent, &[5, 9]);
}

/// Whether a difference is reported.
fn reported(call: fn(&mut Desk), spoil: Option<Spoil>) -> bool {
    let mut desk = Desk::new();
    desk.spoil = spoil;
    catch_unwind(AssertUnwindSafe(|| call(&mut desk))).is_err()
}

pub fn run() {
    std::panic::set_hook(Box::new(|_| ()));
    let mut made = 0;
    for (name, call, hidden) in CALLS {
        let quiet = !reported(call, None);
        let missed: Vec<&Spoil> = ALL
            .iter()
            .filter(|s| !hidden.contains(s) && !reported(call, Some(**s)))
            .collect();
        if !quiet || !missed.is_empty() {
            println!(
                "{name}: as expected if nothing is spoilt: {quiet}; spoilt and not reported: {missed:?}"
            );
            std::process::exit(1);
        }
        made += ALL.len() - hidden.len();
    }
    println!("{made} times spoilt on purpose, each time reported");
    println!("a run that is spoilt: {}", failed_run());
}

/// A whole run that is spoilt: its last line, after it has failed as it must.
fn failed_run() -> String {
    let program = std::env::current_exe().expect("the path of this program");
    let mut run = std::process::Command::new(program);
    // One thread, so that it says the same every time.
    run.args(["spoilt", "run"]).env("COMPARE_THREADS", "1");
    let run = run.output().expect("a run of this program");
    let said = String::from_utf8_lossy(&run.stderr).into_owned();
    let last = said.lines().last().unwrap_or_default();
    if run.status.code() != Some(1) || !last.starts_with("differs: ") {
        println!("a run that is spoilt ended with {}: {said}", run.status);
        std::process::exit(1);
    }
    last.to_owned()
}
