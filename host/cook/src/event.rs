//! Events and their byte form.

use crate::EVENT_LEN;

/// What the sensor says: tenths of a degree, over or under range.
#[derive(Clone, Copy, Debug, PartialEq, Eq)]
pub enum Reading {
    Value(i32),
    Over,
    Under,
}

/// One event of a controller.
#[derive(Clone, Copy, Debug, PartialEq, Eq)]
pub enum Event {
    Tick(Reading),
    Select(i32),
    /// Under start choice 0 at step 1 if its target is SLL, which is the timer;
    /// else at step 2, or at the end if there is none.
    Start,
    Pause,
    Reset,
    Feed,
    Back,
    Plus,
    Minus,
    Cut,
    Return(Reading),
}

impl Event {
    /// The kind's number, 0 to 14.
    pub const fn kind(self) -> u32 {
        match self {
            Event::Tick(reading) => reading.kind(),
            Event::Select(_) => 3,
            Event::Start => 4,
            Event::Pause => 5,
            Event::Reset => 6,
            Event::Feed => 7,
            Event::Back => 8,
            Event::Plus => 9,
            Event::Minus => 10,
            Event::Cut => 11,
            Event::Return(reading) => 12 + reading.kind(),
        }
    }

    /// The value that the event brings, 0 where it has none.
    pub const fn value(self) -> i32 {
        match self {
            Event::Tick(Reading::Value(value)) | Event::Return(Reading::Value(value)) => value,
            Event::Select(pattern) => pattern,
            _ => 0,
        }
    }

    /// The event as it stands in a list.
    pub fn to_bytes(self) -> [u8; EVENT_LEN] {
        let value = self.value().to_le_bytes();
        [self.kind() as u8, value[0], value[1], value[2], value[3]]
    }
}

impl Reading {
    const fn kind(self) -> u32 {
        match self {
            Reading::Value(_) => 0,
            Reading::Over => 1,
            Reading::Under => 2,
        }
    }
}

/// A list of events as `run` takes it.
pub fn list_bytes(events: &[Event]) -> Vec<u8> {
    events.iter().flat_map(|event| event.to_bytes()).collect()
}
