//! Where a call is made and everything that it leaves is looked at.

use crate::expected::Expected;
use crate::spoil::Spoil;
use std::fmt::Debug;

/// Numbers behind an output slice that must stay as they were.
pub const GUARD: usize = 128;

/// What an answer holds before a call, so that a value that is not written shows.
const UNWRITTEN: u64 = 0xdead_beef_dead_beef;

/// How a number is spoilt.
pub type Change<T> = fn(T) -> T;

/// An output with a pattern in it, and guards behind it.
pub struct Output<T> {
    now: Vec<T>,
    before: Vec<T>,
}

impl<T: Copy + PartialEq + Debug> Output<T> {
    pub fn new(room: usize, pattern: impl Fn(usize) -> T) -> Self {
        let before: Vec<T> = (0..room + 2 * GUARD).map(pattern).collect();
        let now = before.clone();
        Output { now, before }
    }
}

/// A slice as it is lent: a copy of its own, so that a change would show.
pub struct Held<'a, T> {
    now: Vec<T>,
    before: &'a [T],
}

impl<'a, T: Copy + PartialEq + Debug> Held<'a, T> {
    pub fn new(before: &'a [T]) -> Self {
        let now = before.to_vec();
        Held { now, before }
    }

    /// The pointer and the length, good while this lives.
    pub fn lent(&mut self) -> (*const T, usize) {
        (self.now.as_mut_ptr(), self.now.len())
    }

    /// Spoils the last element, if there is one.
    pub fn spoil(&mut self, change: impl FnOnce(T) -> T) -> bool {
        let last = self.now.last_mut();
        last.map(|n| *n = change(*n)).is_some()
    }

    /// The lent slice is as it was.
    pub fn unchanged(&self, input: &impl Debug) {
        assert!(self.now == self.before, "a lent slice changed: {input:?}");
    }
}

/// The outputs, the counts, and what is spoilt on purpose, if anything.
pub struct Desk {
    pub rows: Output<i32>,
    pub bytes: Output<u8>,
    pub cases: u64,
    /// Of these, the cases in which the Rust was asked.
    pub asked: u64,
    /// How many were accepted (0) and refused by each number.
    pub by: [u64; 15],
    pub spoil: Option<Spoil>,
}

impl Desk {
    pub fn new() -> Self {
        let number = |i: usize| (i as i32).wrapping_mul(0x0061_c889) ^ 0x5a5a_5a5a;
        Desk {
            rows: Output::new(oracle::list::ROOM, number),
            bytes: Output::new(oracle::list::TEXT_ROOM, |i| (i * 7 + i / 251) as u8 | 128),
            cases: 0,
            asked: 0,
            by: [0; 15],
            spoil: None,
        }
    }

    /// A call without output; what it gets is good for four values.
    pub fn plain(
        &mut self,
        expected: &Expected<i32>,
        input: &impl Debug,
        call: impl FnOnce(*mut u64) -> usize,
    ) {
        let mut answer = [UNWRITTEN; 4];
        let mut number = call(answer.as_mut_ptr());
        if let Some(spoil) = self.spoil {
            spoil.answer(&mut number, &mut answer);
        }
        answers(expected, number, answer, input);
        self.count(number);
    }

    /// One more case, with this number.
    pub fn count(&mut self, number: usize) {
        self.cases += 1;
        self.by[number] += 1;
    }
}

/// A call with an output of `room` elements: the number, the values, the front, and all that follows. What the call
/// gets is good for `room` elements and for four values, and nothing else holds it.
pub fn with_output<T: Copy + PartialEq + Debug>(
    output: &mut Output<T>,
    room: usize,
    spoil: Option<(Spoil, Change<T>)>,
    expected: &Expected<T>,
    input: &impl Debug,
    call: impl FnOnce(*mut T, usize, *mut u64) -> usize,
) {
    assert!(room + GUARD <= output.now.len(), "no room for {input:?}");
    let mut answer = [UNWRITTEN; 4];
    let mut number = call(output.now.as_mut_ptr(), room, answer.as_mut_ptr());
    let front = expected.front.len();
    if let Some((spoil, change)) = spoil {
        spoil.answer(&mut number, &mut answer);
        spoil.output(&mut output.now, front, room, change);
    }
    answers(expected, number, answer, input);
    let now = &output.now;
    if now[..front] != expected.front[..] {
        let place = (0..front).find(|&i| now[i] != expected.front[i]).unwrap();
        let (ours, theirs) = (&now[..front], &expected.front);
        panic!("the output differs at {place}: {ours:?}, expected {theirs:?}, for {input:?}");
    }
    if now[front..] != output.before[front..] {
        let place = (front..now.len()).find(|&i| now[i] != output.before[i]);
        panic!(
            "what follows the {front} of the result changed at {place:?} of {room}, for {input:?}"
        );
    }
    output.now[..front].copy_from_slice(&output.before[..front]);
}

fn answers<T>(expected: &Expected<T>, number: usize, answer: [u64; 4], input: &impl Debug) {
    let theirs = (expected.number, expected.values);
    assert_eq!((number, answer), theirs, "for {input:?}");
}
