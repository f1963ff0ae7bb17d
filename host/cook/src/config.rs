//! The settings that go beside the bank: four alarms.

use crate::{ALARM_COUNT, ALARM_LEN, CONFIG_LEN};

const HOLD: u8 = 1;
const STANDBY: u8 = 2;

/// What an alarm judges, by its bounds H and L. The deviation is the measured
/// whole value less the set value.
#[derive(Clone, Copy, Debug, Default, PartialEq, Eq)]
pub enum AlarmKind {
    /// The alarm never goes on.
    #[default]
    Never = 0,
    /// The deviation is at least H or at most L.
    DeviationOutside = 1,
    /// The deviation is at least H.
    DeviationAtLeast = 2,
    /// The deviation is at most L.
    DeviationAtMost = 3,
    /// The deviation is between L and H, both included; needs L ≤ H.
    DeviationBetween = 4,
    /// The measured whole value is at least H or at most L.
    MeasuredOutside = 5,
    /// The measured whole value is at least H.
    MeasuredAtLeast = 6,
    /// The measured whole value is at most L.
    MeasuredAtMost = 7,
    /// The measured whole value is between L and H, both included; needs L ≤ H.
    MeasuredBetween = 8,
}

/// The settings of one alarm. Every field is held to its range, whatever the
/// kind; the answer to one out of range is 41.
#[derive(Clone, Copy, Debug, Default, PartialEq, Eq)]
pub struct AlarmSetting {
    pub kind: AlarmKind,
    /// H in tenths of a degree, −19,999 to 29,999.
    pub high: i16,
    /// L in tenths of a degree, −19,999 to 29,999.
    pub low: i16,
    /// C, 0 to 9,999: by so much the bounds give way while the alarm is on.
    pub sensitivity: u16,
    /// Ticks beyond the first that the condition has to last, 0 to 9,999.
    pub delay: u16,
    /// Once on, the alarm stays on until a start or a move to stopped.
    pub hold: bool,
    /// After a start the alarm waits for one false tick.
    pub standby: bool,
}

/// The settings beside the bank; the default is four alarms that never go on.
#[derive(Clone, Copy, Debug, Default, PartialEq, Eq)]
pub struct Config {
    pub alarms: [AlarmSetting; ALARM_COUNT],
}

impl AlarmSetting {
    fn to_bytes(self) -> [u8; ALARM_LEN] {
        let mut bytes = [0; ALARM_LEN];
        bytes[0] = self.kind as u8;
        bytes[1..3].copy_from_slice(&self.high.to_le_bytes());
        bytes[3..5].copy_from_slice(&self.low.to_le_bytes());
        bytes[5..7].copy_from_slice(&self.sensitivity.to_le_bytes());
        bytes[7..9].copy_from_slice(&self.delay.to_le_bytes());
        bytes[9] = if self.hold { HOLD } else { 0 } | if self.standby { STANDBY } else { 0 };
        bytes
    }
}

impl Config {
    /// The settings as the calls take them.
    pub fn to_bytes(&self) -> [u8; CONFIG_LEN] {
        let mut bytes = [0; CONFIG_LEN];
        for (alarm, place) in self.alarms.iter().zip(bytes.chunks_exact_mut(ALARM_LEN)) {
            place.copy_from_slice(&alarm.to_bytes());
        }
        bytes
    }
}
