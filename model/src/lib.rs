//! A model of the cook-room program controller: "a controller over a checked
//! bank of patterns, with a record in retained memory".
//!
//! The quoted words in the comments are those of the scope document and of its
//! change requests 1, the four event alarms, and 2, the timer before the first
//! ramp.

#![forbid(unsafe_code)]

mod alarms;
mod bank;
mod controller;
mod fields;
mod machine;
mod record;
mod replay;
mod sheet;
mod timer;
mod types;

pub use alarms::{config_bytes, config_from};
pub use bank::{check, read_back, write, Contents};
pub use controller::{event, make};
pub use record::{readable, record_of, sound};
pub use replay::{credits_due, replay, saves, what_is_left, Left};
pub use sheet::{credits, sheet};
pub use types::{
    Alarm, AlarmSetting, Answer, Command, Config, Event, Measured, Reading, Refusal, Settings,
    State, Step,
};
