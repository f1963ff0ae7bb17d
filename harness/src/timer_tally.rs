//! Counts of what happened around the timer; nothing is compared by them.

use std::fmt;

use model::Config;

use crate::calls::Given;
use crate::events::{BACK, RETURN, START, TICK_UNDER};
use crate::oracle;

/// What each count is of.
const NAMES: [&str; 10] = [
    "starts into the timer",
    "starts at step 2",
    "starts that ended at once",
    "ticks in the timer",
    "ticks that left the timer",
    "backs into the timer",
    "backs into a skipped step 1",
    "returns into the timer",
    "states unsound by the timer alone",
    "records unreadable by it alone",
];

/// The places of the counts.
const INTO: usize = 0;
const SKIPPED: usize = 1;
const ENDED: usize = 2;
const TICKS: usize = 3;
const LEFT: usize = 4;
const BACKS: usize = 5;
const PLAIN_BACKS: usize = 6;
const RETURNS: usize = 7;
const UNSOUND: usize = 8;
const UNREADABLE: usize = 9;

#[derive(Clone, Debug, Default)]
pub struct TimerTally {
    counts: [u64; 10],
}

/// Mode, p, k and r in the bytes of a state or, without power, of a record.
struct Place {
    mode: u8,
    p: u8,
    k: u8,
    r: u16,
}

impl Place {
    fn of(position: &[u8]) -> Place {
        Place {
            mode: position[0],
            p: position[1],
            k: position[2],
            r: u16::from_le_bytes([position[3], position[4]]),
        }
    }

    /// Whether it is in step 1 of pass 1 under start choice 0.
    fn begins(&self, bank: &[u8]) -> bool {
        bank[1] == 0 && matches!(self.mode, 1 | 2) && (self.k, self.r) == (1, 1)
    }

    /// Whether it is in the timer of an accepted bank.
    fn in_timer(&self, bank: &[u8]) -> bool {
        self.begins(bank) && (1..=bank[0]).contains(&self.p) && {
            let pair = 41 + 4 * usize::from(self.p);
            let body = usize::from(u16::from_le_bytes([bank[pair], bank[pair + 1]]));
            bank[body + 1] > 0 && bank[body + 2..body + 4] == bank[3..5]
        }
    }
}

/// The same bank under start choice 1, which has no timer.
fn without_timer(bank: &[u8]) -> Vec<u8> {
    let mut plain = bank.to_vec();
    plain[1] = 1;
    plain
}

impl TimerTally {
    /// Counts a refusal that the timer alone is the reason of.
    pub fn refused(&mut self, word: u64, given: Given) {
        let Some(config) = model::config_from(given.config) else {
            return;
        };
        match word & 0xff {
            21 => self.counts[UNSOUND] += is_sound_else(given, &config) as u64,
            31 => self.counts[UNREADABLE] += is_readable_else(given, &config) as u64,
            _ => (),
        }
    }

    /// Counts an accepted event of a kind, and what it left.
    pub fn event(&mut self, kind: u32, given: Given, state: &[u8]) {
        let (before, after) = (Place::of(&given.state[1..]), Place::of(&state[1..]));
        if given.bank[1] != 0 {
            return;
        }
        let (was, is) = (before.in_timer(given.bank), after.in_timer(given.bank));
        let place = match kind {
            ..=TICK_UNDER if was && before.mode == 1 => {
                self.counts[TICKS] += 1;
                LEFT
            }
            START if is => INTO,
            START if after.mode == 3 => ENDED,
            START => SKIPPED,
            BACK if is => BACKS,
            BACK if after.begins(given.bank) => PLAIN_BACKS,
            RETURN.. if is => RETURNS,
            _ => return,
        };
        self.counts[place] += (place != LEFT || !is) as u64;
    }

    /// Adds what another has counted.
    pub fn add(&mut self, other: TimerTally) {
        for (count, more) in self.counts.iter_mut().zip(other.counts) {
            *count += more;
        }
    }
}

/// Whether a state would be sound without the timer.
fn is_sound_else(given: Given, config: &Config) -> bool {
    let Some(state) = oracle::state_of(given.state) else {
        return false;
    };
    let in_timer = Place::of(&given.state[1..]).in_timer(given.bank);
    in_timer && model::sound(&without_timer(given.bank), config, &state)
}

/// Whether a record would be readable without the timer.
fn is_readable_else(given: Given, config: &Config) -> bool {
    let in_timer = Place::of(given.record).in_timer(given.bank);
    in_timer && model::readable(&without_timer(given.bank), config, given.record)
}

impl fmt::Display for TimerTally {
    fn fmt(&self, out: &mut fmt::Formatter<'_>) -> fmt::Result {
        for (name, count) in NAMES.iter().zip(self.counts) {
            if count > 0 {
                writeln!(out, "{name:<34}{count:>12}")?;
            }
        }
        Ok(())
    }
}
