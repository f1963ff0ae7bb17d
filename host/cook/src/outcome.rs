//! The result of a call, taken apart.

use std::fmt;

/// The 64-bit result of a call.
#[derive(Clone, Copy, PartialEq, Eq, Hash)]
pub struct Outcome(u64);

impl Outcome {
    /// The outcome held in a result word.
    pub const fn from_word(word: u64) -> Outcome {
        Outcome(word)
    }

    /// The result word as the library gave it.
    pub const fn word(self) -> u64 {
        self.0
    }

    /// 0 accepted, 11 to 31 a refusal of document 01, 41 an alarm setting out of
    /// range, 99 a call of no known form.
    pub const fn number(self) -> u8 {
        self.0 as u8
    }

    /// Whether the call was accepted.
    pub const fn is_accepted(self) -> bool {
        self.number() == 0
    }

    /// First value of the number: offset, pair, pattern or the writer's length.
    pub const fn first(self) -> u16 {
        (self.0 >> 8) as u16
    }

    /// Second value of the number: the step.
    pub const fn second(self) -> u8 {
        (self.0 >> 24) as u8
    }

    /// Set value in tenths of a degree, 0 on a refusal.
    pub const fn set_value(self) -> i16 {
        (self.0 >> 32) as i16
    }

    /// The four time signals, all off on a refusal.
    pub fn signals(self) -> [bool; 4] {
        std::array::from_fn(|signal| self.0 >> (48 + signal) & 1 == 1)
    }
}

impl fmt::Debug for Outcome {
    fn fmt(&self, out: &mut fmt::Formatter<'_>) -> fmt::Result {
        out.debug_struct("Outcome")
            .field("number", &self.number())
            .field("first", &self.first())
            .field("second", &self.second())
            .field("set_value", &self.set_value())
            .field("signals", &self.signals())
            .finish()
    }
}
