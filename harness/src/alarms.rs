//! Settings of alarms, in range and out of it, and what states hold of alarms.

use cook::AlarmKind;
use model::{Alarm, AlarmSetting, Config};

use crate::random::Random;
use crate::report::{Compared, Difference};

/// Bytes of the settings beside the bank.
pub const CONFIG: usize = 40;
/// Kinds of alarms, 0 to 8.
pub const KINDS: usize = 9;
pub const HOLD: u8 = 1;
pub const STANDBY: u8 = 2;

/// An alarm that is off, with standby not passed and no tick counted.
pub const CLEAR: Alarm = Alarm { flags: 0, count: 0 };

/// How far bounds lie from what is often judged.
const OFFSETS: [i64; 16] = [
    -300, -60, -30, -5, -2, -1, -1, 0, 0, 1, 1, 2, 5, 30, 60, 300,
];

/// An alarm with bounds L and H, and no sensitivity.
pub const fn between(kind: u8, low: i16, high: i16, delay: u16, flags: u8) -> AlarmSetting {
    AlarmSetting {
        kind,
        high,
        low,
        sensitivity: 0,
        delay,
        flags,
    }
}

/// The kinds that judge a range, and so need L ≤ H.
fn is_range(kind: u8) -> bool {
    kind == 4 || kind == 8
}

fn bound(random: &mut Random, near: i16) -> i16 {
    let bound = match random.below(16) {
        0 => random.range(-19_999, 29_999),
        1 => random.pick(&[-19_999, 29_999]),
        _ => i64::from(near) + random.pick(&OFFSETS),
    };
    bound.clamp(-19_999, 29_999) as i16
}

/// An alarm in range, with bounds near a temperature or near no deviation.
fn setting(random: &mut Random, temperature: i16) -> AlarmSetting {
    let kind = random.below(KINDS) as u8;
    let near = if kind < 5 { 0 } else { temperature };
    let (mut low, mut high) = (bound(random, near), bound(random, near));
    if low > high && (is_range(kind) || !random.once_in(4)) {
        (low, high) = (high, low);
    }
    AlarmSetting {
        kind,
        high,
        low,
        sensitivity: random.pick(&[0, 0, 0, 1, 2, 5, 60, 9_999]),
        delay: random.pick(&[0, 0, 0, 1, 1, 2, 3, 4, 5, 59, 60, 61, 300, 9_999]),
        flags: random.pick(&[0, 0, 0, HOLD, STANDBY, STANDBY, STANDBY, HOLD | STANDBY]),
    }
}

/// Four alarms in range, with bounds near some temperatures.
pub fn config(random: &mut Random, temperatures: &[i16]) -> Config {
    let alarms = std::array::from_fn(|_| {
        let temperature = random.pick(temperatures);
        setting(random, temperature)
    });
    Config { alarms }
}

/// Moves one setting out of its range.
fn put_out(random: &mut Random, setting: &mut AlarmSetting) {
    const OUT: [i16; 4] = [-20_000, 30_000, i16::MIN, i16::MAX];
    const MORE: [u16; 4] = [10_000, 10_001, 32_768, u16::MAX];
    match random.below(7) {
        0 => setting.kind = random.pick(&[9, 10, 128, 255]),
        1 => setting.high = random.pick(&OUT),
        2 => setting.low = random.pick(&OUT),
        3 => setting.sensitivity = random.pick(&MORE),
        4 => setting.delay = random.pick(&MORE),
        5 => setting.flags = random.pick(&[4, 5, 6, 7, 128, 255]),
        _ => {
            setting.kind = random.pick(&[4, 8]);
            setting.low = setting.low.max(-19_000);
            setting.high = setting.low - random.pick(&[1, 2, 300]);
        }
    }
}

/// Four alarms, mostly in range, sometimes with one setting out of it.
pub fn any(random: &mut Random, temperatures: &[i16]) -> Config {
    let mut config = config(random, temperatures);
    match random.below(32) {
        0 => config = model::config_from(&random.bytes(CONFIG)).unwrap_or_default(),
        place @ 1..=4 => put_out(random, &mut config.alarms[place - 1]),
        5 => config = Config::default(),
        _ => (),
    }
    config
}

/// Settings as a call is given them: sometimes changed since the state was left, sometimes of another length.
pub fn given(random: &mut Random, config: &Config) -> Vec<u8> {
    let mut config = *config;
    let setting = &mut config.alarms[random.below(4)];
    match random.below(40) {
        0 => setting.flags ^= STANDBY,
        1 => setting.delay = setting.delay.saturating_sub(1),
        _ => (),
    }
    let mut bytes = model::config_bytes(&config).to_vec();
    if random.once_in(40) {
        bytes.resize(random.pick(&[0, 1, 10, 30, 39, 41, 48, 80]), 0);
    }
    bytes
}

/// What a sound state holds of an alarm.
fn sound_one(random: &mut Random, setting: &AlarmSetting, mode: u8) -> Alarm {
    if mode == 0 {
        return CLEAR;
    }
    let flags = match setting.flags & STANDBY {
        0 => random.pick(&[0, 0, 1]),
        _ => random.pick(&[0, 2, 2, 3]),
    };
    let delay = setting.delay;
    let any = random.below(usize::from(delay) + 1) as u16;
    let count = random.pick(&[0, 0, 1.min(delay), delay, delay, delay.max(1) - 1, any]);
    Alarm { flags, count }
}

/// What a sound state in a mode holds of its alarms.
pub fn sound(random: &mut Random, config: &Config, mode: u8) -> [Alarm; 4] {
    std::array::from_fn(|i| sound_one(random, &config.alarms[i], mode))
}

/// Gives one alarm any flags, or a count around its delay.
pub fn disturb(random: &mut Random, config: &Config, alarms: &mut [Alarm; 4]) {
    let place = random.below(4);
    let delay = config.alarms[place].delay;
    let alarm = &mut alarms[place];
    let what = random.below(5);
    if what < 3 {
        alarm.flags = random.pick(&[0, 1, 1, 2, 2, 3, 3, 4, 5, 128, 255]);
    }
    if what > 1 {
        let more = delay.saturating_add(1);
        alarm.count = random.pick(&[1, delay, more, more, delay.saturating_add(256), u16::MAX]);
    }
}

const WRAPPED: [AlarmKind; KINDS] = [
    AlarmKind::Never,
    AlarmKind::DeviationOutside,
    AlarmKind::DeviationAtLeast,
    AlarmKind::DeviationAtMost,
    AlarmKind::DeviationBetween,
    AlarmKind::MeasuredOutside,
    AlarmKind::MeasuredAtLeast,
    AlarmKind::MeasuredAtMost,
    AlarmKind::MeasuredBetween,
];

/// An alarm in the wrapper's form; nothing for a kind or flags that it has no form for.
fn wrapped(setting: &AlarmSetting) -> Option<cook::AlarmSetting> {
    if setting.flags > HOLD | STANDBY {
        return None;
    }
    Some(cook::AlarmSetting {
        kind: *WRAPPED.get(usize::from(setting.kind))?,
        high: setting.high,
        low: setting.low,
        sensitivity: setting.sensitivity,
        delay: setting.delay,
        hold: setting.flags & HOLD != 0,
        standby: setting.flags & STANDBY != 0,
    })
}

/// The wrapper's settings have the bytes that the model reads.
pub fn viewed(config: &Config) -> Compared {
    let alarms: Vec<_> = config.alarms.iter().filter_map(wrapped).collect();
    let Ok(alarms) = alarms.try_into() else {
        return Ok(());
    };
    let view = cook::Config { alarms }.to_bytes();
    if model::config_from(&view) == Some(*config) && model::config_bytes(config) == view {
        return Ok(());
    }
    Err(Difference::new("the wrapper's bytes of its settings")
        .bytes("wrapper", &view)
        .bytes("model", &model::config_bytes(config)))
}
