//! A typed view of a state's bytes.

use crate::{ALARM_COUNT, RECORD_LEN, STATE_LEN, STEP_COUNT};

const CREDITS: usize = 16;
const ALARMS: usize = CREDITS + 4 * STEP_COUNT;
const ALARM: usize = 3;
const U: usize = 1 + RECORD_LEN;
const MEASURED: usize = U + 1;
const VALUE: usize = MEASURED + 1;

/// The measured value: no reading, over range, under range, or filtered.
#[derive(Clone, Copy, Debug, PartialEq)]
pub enum Measured {
    NoReading,
    Over,
    Under,
    Value(f64),
}

/// What a state holds of an alarm.
#[derive(Clone, Copy, Debug, Default, PartialEq, Eq)]
pub struct Alarm {
    /// On 1, standby passed 2.
    pub flags: u8,
    /// Ticks that the condition has lasted while the delay runs.
    pub count: u16,
}

impl Alarm {
    /// Whether the alarm is on.
    pub const fn is_on(self) -> bool {
        self.flags & 1 != 0
    }

    /// Whether the alarm has passed its standby; never without standby.
    pub const fn has_passed(self) -> bool {
        self.flags & 2 != 0
    }
}

/// A controller's state.
#[derive(Clone, Debug, PartialEq)]
pub struct State {
    pub power: bool,
    /// 0 stopped, 1 running, 2 paused, 3 ended.
    pub mode: u8,
    /// Pattern.
    pub p: u8,
    /// Step.
    pub k: u8,
    /// Pass.
    pub r: u16,
    /// Seconds elapsed.
    pub e: u32,
    /// Seconds waited.
    pub w: u32,
    /// Base.
    pub b: i16,
    /// Ticks since the last save.
    pub u: u8,
    pub measured: Measured,
    /// Seconds credited to each step.
    pub credits: [u32; STEP_COUNT],
    pub alarms: [Alarm; ALARM_COUNT],
}

impl State {
    /// The state held in bytes; nothing if they are no state.
    pub fn from_bytes(bytes: &[u8]) -> Option<State> {
        let bytes: &[u8; STATE_LEN] = bytes.try_into().ok()?;
        Some(State {
            power: power_of(bytes[0])?,
            mode: bytes[1],
            p: bytes[2],
            k: bytes[3],
            r: u16::from_le_bytes(part(bytes, 4)),
            e: u32::from_le_bytes(part(bytes, 6)),
            w: u32::from_le_bytes(part(bytes, 10)),
            b: i16::from_le_bytes(part(bytes, 14)),
            u: bytes[U],
            measured: measured_of(bytes[MEASURED], u64::from_le_bytes(part(bytes, VALUE)))?,
            credits: std::array::from_fn(|i| u32::from_le_bytes(part(bytes, CREDITS + 4 * i))),
            alarms: std::array::from_fn(|i| alarm_at(bytes, ALARMS + ALARM * i)),
        })
    }

    /// The state as the calls take it.
    pub fn to_bytes(&self) -> [u8; STATE_LEN] {
        let mut bytes = [0; STATE_LEN];
        bytes[0] = self.power as u8;
        bytes[1] = self.mode;
        bytes[2] = self.p;
        bytes[3] = self.k;
        bytes[4..6].copy_from_slice(&self.r.to_le_bytes());
        bytes[6..10].copy_from_slice(&self.e.to_le_bytes());
        bytes[10..14].copy_from_slice(&self.w.to_le_bytes());
        bytes[14..16].copy_from_slice(&self.b.to_le_bytes());
        for (credit, place) in self
            .credits
            .iter()
            .zip(bytes[CREDITS..ALARMS].chunks_exact_mut(4))
        {
            place.copy_from_slice(&credit.to_le_bytes());
        }
        for (alarm, place) in self
            .alarms
            .iter()
            .zip(bytes[ALARMS..U].chunks_exact_mut(ALARM))
        {
            place[0] = alarm.flags;
            place[1..].copy_from_slice(&alarm.count.to_le_bytes());
        }
        let (kind, value) = match self.measured {
            Measured::NoReading => (0, 0),
            Measured::Over => (1, 0),
            Measured::Under => (2, 0),
            Measured::Value(y) => (3, y.to_bits()),
        };
        bytes[U] = self.u;
        bytes[MEASURED] = kind;
        bytes[VALUE..].copy_from_slice(&value.to_le_bytes());
        bytes
    }
}

fn part<const N: usize>(bytes: &[u8; STATE_LEN], at: usize) -> [u8; N] {
    std::array::from_fn(|i| bytes[at + i])
}

fn alarm_at(bytes: &[u8; STATE_LEN], at: usize) -> Alarm {
    Alarm {
        flags: bytes[at],
        count: u16::from_le_bytes(part(bytes, at + 1)),
    }
}

fn power_of(byte: u8) -> Option<bool> {
    match byte {
        0 => Some(false),
        1 => Some(true),
        _ => None,
    }
}

fn measured_of(kind: u8, bits: u64) -> Option<Measured> {
    match (kind, bits) {
        (0, 0) => Some(Measured::NoReading),
        (1, 0) => Some(Measured::Over),
        (2, 0) => Some(Measured::Under),
        (3, _) if !f64::from_bits(bits).is_nan() => Some(Measured::Value(f64::from_bits(bits))),
        _ => None,
    }
}
