//! Safe calls of the cook-room program controller.
//!
//! The calls work on slices and keep nothing between calls; `Outcome` takes a
//! result apart, `Config`, `State` and `Event` are typed views of the byte
//! forms. What each call does is said in `cook.h` and in documents 01 and 02.

mod calls;
mod config;
mod event;
mod outcome;
mod state;

pub use calls::{check, event, make, raw_event, run, write};
pub use config::{AlarmKind, AlarmSetting, Config};
pub use event::{list_bytes, Event, Reading};
pub use outcome::Outcome;
pub use state::{Alarm, Measured, State};

/// Bytes of the settings, laid out as at the start of a bank.
pub const SETTINGS_LEN: usize = 45;
/// Bytes of 15 pairs of runs and s.
pub const PATTERNS_LEN: usize = 30;
/// Bytes of 99 steps.
pub const STEPS_LEN: usize = 891;
/// Bytes of one step.
pub const STEP_LEN: usize = 9;
/// Bytes of the longest bank.
pub const BANK_MAX: usize = 1011;
/// Bytes of the settings beside the bank.
pub const CONFIG_LEN: usize = ALARM_LEN * ALARM_COUNT;
/// Bytes of the settings of one alarm.
pub const ALARM_LEN: usize = 10;
/// Bytes of the record in retained memory.
pub const RECORD_LEN: usize = 423;
/// Bytes of a state.
pub const STATE_LEN: usize = 434;
/// Bytes of one event of a list.
pub const EVENT_LEN: usize = 5;
/// Steps, each with its credit.
pub const STEP_COUNT: usize = 99;
/// Alarms.
pub const ALARM_COUNT: usize = 4;
