//! The values that pass through the interface.

use std::ops::RangeInclusive;

/// "Temperatures are whole tenths of °C, −19,999 to 29,999."
pub(crate) const TEMPERATURES: RangeInclusive<i16> = -19_999..=29_999;

/// "one credit for each of the 99 steps"
pub(crate) const CREDITS: usize = 99;

pub(crate) const STOPPED: u8 = 0;
pub(crate) const RUNNING: u8 = 1;
pub(crate) const PAUSED: u8 = 2;
pub(crate) const ENDED: u8 = 3;

/// A row of "What a caller gets back": its number, then its values, 0 where
/// it has none.
#[derive(Clone, Copy, Debug, PartialEq, Eq)]
pub struct Refusal {
    pub number: u8,
    pub first: u16,
    pub second: u8,
}

impl Refusal {
    /// A row that has no values.
    pub(crate) const fn plain(number: u8) -> Self {
        Self {
            number,
            first: 0,
            second: 0,
        }
    }
}

/// "its answer, unless a refusal, carries set value and signals"
#[derive(Clone, Copy, Debug, PartialEq, Eq)]
pub enum Answer {
    Accepted { set_value: i16, signals: [bool; 4] },
    Refused(Refusal),
}

/// "Measured value: no reading, over range, under range, or a filtered value
/// y held as a 64-bit float."
#[derive(Clone, Copy, Debug)]
pub enum Measured {
    NoReading,
    Over,
    Under,
    Value(f64),
}

/// Filtered values are equal when their bits are.
impl PartialEq for Measured {
    fn eq(&self, other: &Self) -> bool {
        match (self, other) {
            (Self::Value(y), Self::Value(z)) => y.to_bits() == z.to_bits(),
            (Self::NoReading, Self::NoReading) => true,
            (Self::Over, Self::Over) | (Self::Under, Self::Under) => true,
            _ => false,
        }
    }
}

impl Eq for Measured {}

/// What a tick or a return brings.
#[derive(Clone, Copy, Debug, PartialEq, Eq)]
pub enum Reading {
    Value(i32),
    Over,
    Under,
}

#[derive(Clone, Copy, Debug, PartialEq, Eq)]
pub enum Command {
    Select(i32),
    Start,
    Pause,
    Reset,
    Feed,
    Back,
    Plus,
    Minus,
}

#[derive(Clone, Copy, Debug, PartialEq, Eq)]
pub enum Event {
    Tick(Reading),
    Command(Command),
    Cut,
    Return(Reading),
}

/// What the state has of an event alarm: "flags (one byte: on 1, standby passed
/// 2, kept 0 without standby) and delay count (16 bits)".
#[derive(Clone, Copy, Debug, Default, PartialEq, Eq)]
pub struct Alarm {
    pub flags: u8,
    pub count: u16,
}

/// "State: power on or off; mode (0 stopped, 1 running, 2 paused, 3 ended);
/// pattern p; step k; pass r; elapsed e and waited w in seconds; base b; u,
/// ticks since the last save; the measured value; one credit for each of the
/// 99 steps, 32 bits." The four event alarms join them.
#[derive(Clone, Copy, Debug, PartialEq, Eq)]
pub struct State {
    pub power: bool,
    pub mode: u8,
    pub p: u8,
    pub k: u8,
    pub r: u16,
    pub e: u32,
    pub w: u32,
    pub b: i16,
    pub u: u8,
    pub measured: Measured,
    pub credits: [u32; CREDITS],
    pub alarms: [Alarm; 4],
}

impl State {
    /// "With power off the state is all zeros."
    pub(crate) const OFF: Self = Self {
        power: false,
        mode: 0,
        p: 0,
        k: 0,
        r: 0,
        e: 0,
        w: 0,
        b: 0,
        u: 0,
        measured: Measured::NoReading,
        credits: [0; CREDITS],
        alarms: [Alarm { flags: 0, count: 0 }; 4],
    };
}

/// The settings of a bank, in the order of its table; pair j of wait zone and
/// wait minutes is `zones[j - 1]` and `waits[j - 1]`, pair j of on and off
/// minute is `on[j - 1]` and `off[j - 1]`.
#[derive(Clone, Copy, Debug, Default, PartialEq, Eq)]
pub struct Settings {
    pub n: u8,
    pub start: u8,
    pub outage: u8,
    pub sll: i16,
    pub slh: i16,
    pub start_value: i16,
    pub width: u16,
    pub filter: u16,
    pub zones: [u16; 4],
    pub waits: [u16; 4],
    pub on: [u16; 4],
    pub off: [u16; 4],
}

/// "Each alarm has a kind 0–8 ..., bounds H and L (−19,999 to 29,999),
/// sensitivity C (0–9,999), a delay of 0–9,999 ticks and flags hold, standby."
/// The flags are one number: hold 1, standby 2.
#[derive(Clone, Copy, Debug, Default, PartialEq, Eq)]
pub struct AlarmSetting {
    pub kind: u8,
    pub high: i16,
    pub low: i16,
    pub sensitivity: u16,
    pub delay: u16,
    pub flags: u8,
}

/// The settings that "go beside the bank to every call but its check and its
/// writer".
#[derive(Clone, Copy, Debug, Default, PartialEq, Eq)]
pub struct Config {
    pub alarms: [AlarmSetting; 4],
}

/// One step of a pattern.
#[derive(Clone, Copy, Debug, Default, PartialEq, Eq)]
pub struct Step {
    pub target: i16,
    pub minutes: u16,
    pub wait: u8,
    pub signals: [u8; 4],
}
