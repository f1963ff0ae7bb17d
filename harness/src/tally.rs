//! Counts of what was compared.

use std::collections::BTreeMap;
use std::fmt;

use crate::alarm_tally::AlarmTally;
use crate::timer_tally::TimerTally;

#[derive(Clone, Debug, Default)]
pub struct Tally {
    pub checks: u64,
    pub writes: u64,
    pub makes: u64,
    pub events: u64,
    pub runs: u64,
    pub lists: u64,
    pub list_events: u64,
    pub walked: u64,
    pub replays: u64,
    pub cuts: u64,
    pub returns: u64,
    pub saves: u64,
    pub steps: u64,
    pub passes: u64,
    pub ends: u64,
    pub cook_cuts: u64,
    pub inputs: u64,
    pub printed: u64,
    pub alarms: AlarmTally,
    pub timer: TimerTally,
    /// Results by number.
    pub answers: BTreeMap<u64, u64>,
}

/// What each count is of, in the order of `counts`.
const NAMES: [&str; 18] = [
    "cook_check calls",
    "cook_write calls",
    "cook_make calls",
    "cook_event calls",
    "cook_run calls",
    "random lists",
    "events in random lists",
    "lists of the tree walk",
    "lists against the replay machine",
    "cuts in lists",
    "returns in lists",
    "saves in lists",
    "step changes in lists",
    "pass changes in lists",
    "ends in lists",
    "cuts in the fixed cook",
    "inputs of a program",
    "lines that it printed",
];

impl Tally {
    /// Adds what another has counted.
    pub fn add(&mut self, mut other: Tally) {
        for (count, more) in self.counts().into_iter().zip(other.counts()) {
            *count += *more;
        }
        self.alarms.add(other.alarms);
        self.timer.add(other.timer);
        for (number, more) in other.answers {
            *self.answers.entry(number).or_default() += more;
        }
    }

    fn counts(&mut self) -> [&mut u64; 18] {
        [
            &mut self.checks,
            &mut self.writes,
            &mut self.makes,
            &mut self.events,
            &mut self.runs,
            &mut self.lists,
            &mut self.list_events,
            &mut self.walked,
            &mut self.replays,
            &mut self.cuts,
            &mut self.returns,
            &mut self.saves,
            &mut self.steps,
            &mut self.passes,
            &mut self.ends,
            &mut self.cook_cuts,
            &mut self.inputs,
            &mut self.printed,
        ]
    }
}

impl fmt::Display for Tally {
    fn fmt(&self, out: &mut fmt::Formatter<'_>) -> fmt::Result {
        for (name, count) in NAMES.iter().zip(self.clone().counts()) {
            if *count > 0 {
                writeln!(out, "{name:<34}{count:>12}")?;
            }
        }
        write!(out, "{}{}", self.timer, self.alarms)?;
        if self.answers.is_empty() {
            return Ok(());
        }
        let answers = self
            .answers
            .iter()
            .map(|(number, count)| format!(" {number}: {count}"));
        writeln!(
            out,
            "results by number:{}",
            answers.collect::<Vec<_>>().join(",")
        )
    }
}
