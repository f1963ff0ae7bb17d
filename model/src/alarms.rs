//! The four event alarms: their settings, which go "beside the bank", and how
//! a tick judges them.

use crate::fields::{FieldReader, FieldWriter};
use crate::types::{Alarm, AlarmSetting, Config, Refusal, State, STOPPED, TEMPERATURES};

/// Kind, H and L, C, delay, flags, alarm by alarm.
const SETTING_BYTES: usize = 10;
const CONFIG_BYTES: usize = 4 * SETTING_BYTES;

/// "Each alarm has a kind 0–8".
const KINDS: u8 = 8;
/// "sensitivity C (0–9,999), a delay of 0–9,999 ticks"
const MOST: u16 = 9_999;

/// "flags hold, standby", one number: hold 1, standby 2.
const HOLD: u8 = 1;
const STANDBY: u8 = 2;

/// "flags (one byte: on 1, standby passed 2, kept 0 without standby)"
const ON: u8 = 1;
const PASSED: u8 = 2;

impl AlarmSetting {
    fn read(fields: &mut FieldReader) -> Self {
        Self {
            kind: fields.u8(),
            high: fields.i16(),
            low: fields.i16(),
            sensitivity: fields.u16(),
            delay: fields.u16(),
            flags: fields.u8(),
        }
    }

    fn write(&self, fields: &mut FieldWriter) {
        fields.put([self.kind]);
        fields.put(self.high.to_le_bytes());
        fields.put(self.low.to_le_bytes());
        fields.put(self.sensitivity.to_le_bytes());
        fields.put(self.delay.to_le_bytes());
        fields.put([self.flags]);
    }

    #[inline]
    fn holds(&self) -> bool {
        self.flags & HOLD != 0
    }

    #[inline]
    fn has_standby(&self) -> bool {
        self.flags & STANDBY != 0
    }

    /// All fields are asked, whatever the kind; "between L and H inclusive,
    /// which needs L ≤ H" is said of kinds 4 and 8 alone.
    #[inline]
    fn is_in_range(&self) -> bool {
        self.kind <= KINDS
            && TEMPERATURES.contains(&self.high)
            && TEMPERATURES.contains(&self.low)
            && self.sensitivity <= MOST
            && self.delay <= MOST
            && self.flags <= HOLD | STANDBY
            && (!matches!(self.kind, 4 | 8) || self.low <= self.high)
    }

    /// "Kinds 1–4 judge the measured whole value less the set value, 5–8 the
    /// measured whole value: at least H or at most L; at least H; at most L;
    /// between L and H inclusive ... Kind 0 is never true." `slack` is by how
    /// much an alarm that is on is easier to keep.
    #[inline]
    fn is_true(&self, slack: i32, measured: i32, set_value: i32) -> bool {
        let (high, low) = (i32::from(self.high), i32::from(self.low));
        let judged = if self.kind <= 4 {
            measured - set_value
        } else {
            measured
        };
        match self.kind {
            1 | 5 => judged >= high - slack || judged <= low + slack,
            2 | 6 => judged >= high - slack,
            3 | 7 => judged <= low + slack,
            4 | 8 => (low - slack..=high + slack).contains(&judged),
            _ => false,
        }
    }
}

impl Config {
    /// Refusal 41: "an alarm setting out of range".
    #[inline]
    pub(crate) fn check(&self) -> Result<(), Refusal> {
        if self.alarms.iter().all(AlarmSetting::is_in_range) {
            Ok(())
        } else {
            Err(Refusal::plain(41))
        }
    }
}

/// The settings that 40 bytes bring, in range or not; none for another length.
pub fn config_from(bytes: &[u8]) -> Option<Config> {
    let bytes: &[u8; CONFIG_BYTES] = bytes.try_into().ok()?;
    let mut fields = FieldReader::new(bytes);
    Some(Config {
        alarms: std::array::from_fn(|_| AlarmSetting::read(&mut fields)),
    })
}

/// The bytes of the settings, alarm by alarm.
pub fn config_bytes(config: &Config) -> [u8; CONFIG_BYTES] {
    let mut bytes = [0; CONFIG_BYTES];
    let mut fields = FieldWriter::new(&mut bytes);
    for setting in &config.alarms {
        setting.write(&mut fields);
    }
    bytes
}

impl Alarm {
    /// What a record has of an alarm: "flags (one byte ...) and delay count (16
    /// bits)".
    #[inline]
    pub(crate) fn read(fields: &mut FieldReader) -> Self {
        Self {
            flags: fields.u8(),
            count: fields.u16(),
        }
    }

    #[inline]
    pub(crate) fn write(&self, fields: &mut FieldWriter) {
        fields.put([self.flags]);
        fields.put(self.count.to_le_bytes());
    }

    /// "a record with a flag byte above 3 (above 1 without standby, or 1 with
    /// it), a count above its delay ... isn't readable"
    #[inline]
    fn is_readable(&self, setting: &AlarmSetting) -> bool {
        let flags_are = if setting.has_standby() {
            self.flags <= ON | PASSED && self.flags != ON
        } else {
            self.flags <= ON
        };
        flags_are && self.count <= setting.delay
    }

    /// One alarm on one tick. "standby waits for one false tick after start",
    /// and "hold keeps it on until cleared"; the count is "0 after a false one,
    /// once on or while standby waits".
    #[inline]
    fn judge(&mut self, setting: &AlarmSetting, measured: i32, set_value: i32) {
        let is_on = self.flags & ON != 0;
        // "Once on, H − C replaces an "at least H" and L + C an "at most L",
        // and the range of kinds 4 and 8 widens by C at both ends, until it
        // goes off."
        let slack = if is_on {
            i32::from(setting.sensitivity)
        } else {
            0
        };
        let is_true = setting.is_true(slack, measured, set_value);
        if setting.has_standby() && self.flags & PASSED == 0 {
            self.flags = if is_true { 0 } else { PASSED };
            self.count = 0;
        } else if is_on {
            self.switch(is_true || setting.holds());
        } else if is_true && self.count < setting.delay {
            // "Delay wants the condition on that many ticks running beyond the
            // first; its count is the true ticks so far".
            self.count += 1;
        } else {
            self.switch(is_true);
        }
    }

    /// Leaves the alarm on or off, with nothing counted.
    #[inline]
    fn switch(&mut self, on: bool) {
        self.flags = (self.flags & PASSED) | if on { ON } else { 0 };
        self.count = 0;
    }
}

/// Judges each alarm by itself.
#[inline]
pub(crate) fn judge(config: &Config, alarms: &mut [Alarm; 4], measured: i16, set_value: i16) {
    let (measured, set_value) = (i32::from(measured), i32::from(set_value));
    for (alarm, setting) in alarms.iter_mut().zip(&config.alarms) {
        alarm.judge(setting, measured, set_value);
    }
}

/// The bounds of the alarms in a record or a state; the settings are taken as
/// they are given, in range or not. "in mode 0, any flag or count not 0 isn't
/// readable"
#[inline]
pub(crate) fn are_readable(config: &Config, state: &State) -> bool {
    if state.mode == STOPPED {
        return state.alarms == [Alarm::default(); 4];
    }
    let mut both = state.alarms.iter().zip(&config.alarms);
    both.all(|(alarm, setting)| alarm.is_readable(setting))
}
