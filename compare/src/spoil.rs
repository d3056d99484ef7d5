//! What is spoilt on purpose, to see that a difference is reported.

/// What is changed after a call.
#[derive(Debug, Clone, Copy, PartialEq, Eq)]
pub enum Spoil {
    /// The refusal's number.
    Number,
    /// One of the four values.
    Value(usize),
    /// The last number of the result.
    Front,
    /// The number behind the result.
    Behind,
    /// The last number of the lent output.
    End,
    /// The number behind the lent output.
    Beyond,
    /// The last number of a lent input.
    Input,
}

pub const ALL: [Spoil; 10] = [
    Spoil::Number,
    Spoil::Value(0),
    Spoil::Value(1),
    Spoil::Value(2),
    Spoil::Value(3),
    Spoil::Front,
    Spoil::Behind,
    Spoil::End,
    Spoil::Beyond,
    Spoil::Input,
];

impl Spoil {
    pub fn answer(self, number: &mut usize, answer: &mut [u64; 4]) {
        match self {
            Spoil::Number => *number ^= 1,
            Spoil::Value(i) => answer[i] ^= 1,
            _ => (),
        }
    }

    pub fn output<T: Copy>(self, now: &mut [T], front: usize, room: usize, change: fn(T) -> T) {
        let place = match self {
            Spoil::Front if front > 0 => front - 1,
            Spoil::Behind => front,
            Spoil::End if room > 0 => room - 1,
            Spoil::Beyond => room,
            _ => return,
        };
        now[place] = change(now[place]);
    }
}
