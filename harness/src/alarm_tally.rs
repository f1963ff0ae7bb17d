//! Counts of what alarms did; nothing is compared by them.

use std::fmt;

use model::{Alarm, AlarmSetting, Config};

use crate::alarms::{CLEAR, KINDS, STANDBY};
use crate::calls::Given;
use crate::events::{CUT, RETURN, TICK_UNDER};
use crate::oracle::{self, ALARMS, MEASURED, VALUE};

/// The settings that 41 is for.
const FIELDS: [&str; 7] = ["kind", "H", "L", "C", "delay", "flags", "L above H"];

/// What each count is of, in the order of `counts`.
const NAMES: [&str; 10] = [
    "alarms that a delay kept off",
    "alarms that standby kept off",
    "alarms that passed standby",
    "alarms that sensitivity kept on",
    "alarms that hold kept on",
    "alarms cleared by a command",
    "alarms on after a return",
    "states unsound by alarms alone",
    "records unreadable by alarms alone",
    "configs of another length",
];

#[derive(Clone, Debug, Default)]
pub struct AlarmTally {
    /// Judged, gone on and gone off, by kind.
    moves: [[u64; KINDS]; 3],
    /// Answers 41 by the setting that alone is out of range.
    wrong: [u64; 7],
    delayed: u64,
    waiting: u64,
    passed: u64,
    kept: u64,
    held: u64,
    cleared: u64,
    brought_back: u64,
    unsound: u64,
    unreadable: u64,
    other_length: u64,
}

/// What a judged tick leaves to judge by.
struct Judged {
    whole: i32,
    set_value: i32,
}

impl Judged {
    /// Nothing if alarms do not move on a tick that leaves this state.
    fn after(word: u64, state: &[u8]) -> Option<Judged> {
        let y = f64::from_le_bytes(state[VALUE..].try_into().ok()?);
        let judged = matches!(state[1], 1 | 2) && state[MEASURED] == 3;
        judged.then_some(Judged {
            whole: y.round() as i32,
            set_value: i32::from((word >> 32) as i16),
        })
    }

    /// Whether the condition is true with bounds that give way by so much.
    fn is_true(&self, setting: &AlarmSetting, give: u16) -> bool {
        let value = match setting.kind {
            1..=4 => self.whole - self.set_value,
            _ => self.whole,
        };
        let (high, low) = (i32::from(setting.high), i32::from(setting.low));
        let give = i32::from(give);
        match setting.kind {
            1 | 5 => value >= high - give || value <= low + give,
            2 | 6 => value >= high - give,
            3 | 7 => value <= low + give,
            4 | 8 => (low - give..=high + give).contains(&value),
            _ => false,
        }
    }
}

fn is_on(alarm: &Alarm) -> bool {
    alarm.flags & 1 == 1
}

/// Which settings of an alarm are out of range, in the order of `FIELDS`.
fn wrong(setting: &AlarmSetting) -> [bool; 7] {
    let out = |bound: i16| !(-19_999..=29_999).contains(&bound);
    [
        setting.kind > 8,
        out(setting.high),
        out(setting.low),
        setting.sensitivity > 9_999,
        setting.delay > 9_999,
        setting.flags > 3,
        matches!(setting.kind, 4 | 8) && setting.low > setting.high,
    ]
}

impl AlarmTally {
    /// Counts a refusal.
    pub fn refused(&mut self, word: u64, given: Given) {
        let Some(config) = model::config_from(given.config) else {
            self.other_length += 1;
            return;
        };
        match word & 0xff {
            21 => self.unsound += is_sound_else(given, &config) as u64,
            31 => self.unreadable += is_readable_else(given, &config) as u64,
            41 => self.out_of_range(&config),
            _ => (),
        }
    }

    /// Counts settings of which one alone is out of range.
    fn out_of_range(&mut self, config: &Config) {
        let wrong = config.alarms.iter().flat_map(wrong).enumerate();
        let mut places = wrong.filter_map(|(place, wrong)| wrong.then_some(place % FIELDS.len()));
        if let (Some(place), None) = (places.next(), places.next()) {
            self.wrong[place] += 1;
        }
    }

    /// Counts an accepted event of a kind, and what it left.
    pub fn event(&mut self, kind: u32, word: u64, given: Given, state: &[u8]) {
        let Some(config) = model::config_from(given.config) else {
            return;
        };
        let (before, after) = (oracle::alarms_of(given.state), oracle::alarms_of(state));
        let on = |alarms: [Alarm; 4]| alarms.into_iter().filter(is_on).count() as u64;
        match kind {
            ..=TICK_UNDER => (),
            CUT => return,
            RETURN.. => return self.brought_back += on(after),
            _ => return self.cleared += on(before).saturating_sub(on(after)),
        }
        let Some(judged) = Judged::after(word, state) else {
            return;
        };
        for ((setting, before), after) in config.alarms.iter().zip(before).zip(after) {
            self.judged(&judged, setting, before, after);
        }
    }

    fn judged(&mut self, judged: &Judged, setting: &AlarmSetting, before: Alarm, after: Alarm) {
        let (was, is) = (is_on(&before), is_on(&after));
        for (count, moved) in self.moves.iter_mut().zip([true, is && !was, was && !is]) {
            if let Some(count) = count.get_mut(usize::from(setting.kind)) {
                *count += moved as u64;
            }
        }
        let near = judged.is_true(setting, 0);
        let wide = judged.is_true(setting, setting.sensitivity);
        let waits = setting.flags & STANDBY != 0 && after.flags == 0;
        self.delayed += (after.count > before.count) as u64;
        self.kept += (was && is && wide && !near) as u64;
        self.held += (was && is && !wide) as u64;
        self.waiting += (waits && near) as u64;
        self.passed += (before.flags == 0 && after.flags == 2) as u64;
    }

    /// Adds what another has counted.
    pub fn add(&mut self, mut other: AlarmTally) {
        for (count, more) in self.counts().into_iter().zip(other.counts()) {
            *count += *more;
        }
        let moves = self
            .moves
            .iter_mut()
            .flatten()
            .zip(other.moves.iter().flatten());
        for (count, more) in moves.chain(self.wrong.iter_mut().zip(&other.wrong)) {
            *count += more;
        }
    }

    fn counts(&mut self) -> [&mut u64; 10] {
        [
            &mut self.delayed,
            &mut self.waiting,
            &mut self.passed,
            &mut self.kept,
            &mut self.held,
            &mut self.cleared,
            &mut self.brought_back,
            &mut self.unsound,
            &mut self.unreadable,
            &mut self.other_length,
        ]
    }
}

/// Whether a state would be sound with its alarms clear.
fn is_sound_else(given: Given, config: &Config) -> bool {
    let Some(mut state) = oracle::state_of(given.state) else {
        return false;
    };
    state.alarms = [CLEAR; 4];
    model::sound(given.bank, config, &state)
}

/// Whether a record would be readable with its alarms clear.
fn is_readable_else(given: Given, config: &Config) -> bool {
    let mut record = given.record.to_vec();
    record[ALARMS - 1..].fill(0);
    model::readable(given.bank, config, &record)
}

/// A line of counts by name; none if there is nothing to tell.
fn line<T: fmt::Display>(
    out: &mut fmt::Formatter<'_>,
    what: &str,
    names: impl IntoIterator<Item = T>,
    counts: &[u64],
) -> fmt::Result {
    if counts.iter().all(|&count| count == 0) {
        return Ok(());
    }
    let counts = names.into_iter().zip(counts);
    let counts: Vec<_> = counts
        .map(|(name, count)| format!(" {name}: {count}"))
        .collect();
    writeln!(out, "{what}:{}", counts.join(","))
}

impl fmt::Display for AlarmTally {
    fn fmt(&self, out: &mut fmt::Formatter<'_>) -> fmt::Result {
        for (name, count) in NAMES.iter().zip(self.clone().counts()) {
            if *count > 0 {
                writeln!(out, "{name:<34}{count:>12}")?;
            }
        }
        let [judged, on, off] = &self.moves;
        line(out, "alarms judged, by kind", 0..KINDS, judged)?;
        line(out, "alarms gone on, by kind", 0..KINDS, on)?;
        line(out, "alarms gone off, by kind", 0..KINDS, off)?;
        line(out, "41 for one setting alone", FIELDS, &self.wrong)
    }
}
