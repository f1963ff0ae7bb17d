//! Banks: drafts, their bytes, and random ones in which much happens.

use model::{Settings, Step};

use crate::random::Random;

pub const SETTINGS: usize = 45;
pub const STEP: usize = 9;
pub const ENDLESS: u16 = 6000;

/// What a bank holds, valid or not.
#[derive(Clone)]
pub struct Draft {
    pub settings: Settings,
    pub patterns: [(u8, u8); 15],
    pub steps: [Step; 99],
}

pub const NO_STEP: Step = Step {
    target: 0,
    minutes: 0,
    wait: 0,
    signals: [0; 4],
};

pub fn capacity(n: u8) -> u8 {
    99 / n.max(1)
}

fn put(bytes: &mut [u8], at: usize, word: u16) {
    bytes[at..at + 2].copy_from_slice(&word.to_le_bytes());
}

pub fn step_bytes(step: &Step) -> [u8; STEP] {
    let (target, minutes) = (step.target.to_le_bytes(), step.minutes.to_le_bytes());
    let [one, two, three, four] = step.signals;
    let [low, high] = minutes;
    [
        target[0], target[1], low, high, step.wait, one, two, three, four,
    ]
}

impl Draft {
    pub fn settings_bytes(&self) -> [u8; SETTINGS] {
        let from = &self.settings;
        let mut bytes = [0; SETTINGS];
        bytes[..3].copy_from_slice(&[from.n, from.start, from.outage]);
        put(&mut bytes, 3, from.sll as u16);
        put(&mut bytes, 5, from.slh as u16);
        put(&mut bytes, 7, from.start_value as u16);
        put(&mut bytes, 9, from.width);
        put(&mut bytes, 11, from.filter);
        for i in 0..4 {
            put(&mut bytes, 13 + 4 * i, from.zones[i]);
            put(&mut bytes, 15 + 4 * i, from.waits[i]);
            put(&mut bytes, 29 + 4 * i, from.on[i]);
            put(&mut bytes, 31 + 4 * i, from.off[i]);
        }
        bytes
    }

    pub fn patterns_bytes(&self) -> Vec<u8> {
        self.patterns
            .iter()
            .flat_map(|&(runs, s)| [runs, s])
            .collect()
    }

    pub fn steps_bytes(&self) -> Vec<u8> {
        self.steps.iter().flat_map(step_bytes).collect()
    }

    /// The bank of a draft, laid out as document 01 says; steps past the last
    /// one start again from the first.
    pub fn bank(&self) -> Vec<u8> {
        let used = &self.patterns[..self.settings.n.min(15) as usize];
        let mut bank = self.settings_bytes().to_vec();
        let mut offset = SETTINGS + 4 * used.len();
        for &(_, s) in used {
            let length = 2 + STEP * s as usize;
            bank.extend_from_slice(&(offset as u16).to_le_bytes());
            bank.extend_from_slice(&(length as u16).to_le_bytes());
            offset += length;
        }
        let mut steps = self.steps.iter().cycle();
        for &(runs, s) in used {
            bank.extend_from_slice(&[runs, s]);
            bank.extend(steps.by_ref().take(s as usize).flat_map(step_bytes));
        }
        bank
    }

    /// The number of steps in use.
    pub fn used(&self) -> usize {
        let n = self.settings.n.min(15) as usize;
        self.patterns[..n].iter().map(|&(_, s)| s as usize).sum()
    }

    /// The targets of the steps in use; that of the first step if none is.
    pub fn targets(&self) -> Vec<i16> {
        let used = self.used().clamp(1, self.steps.len());
        self.steps[..used].iter().map(|step| step.target).collect()
    }

    /// The step k of pattern p, both from 1.
    pub fn step(&self, p: u8, k: u8) -> Option<&Step> {
        let before: usize = self.patterns[..15.min(p as usize).checked_sub(1)?]
            .iter()
            .map(|&(_, s)| s as usize)
            .sum();
        self.steps.get(before + (k as usize).checked_sub(1)?)
    }

    /// Whether step k of pattern p is the timer in pass r.
    pub fn is_timer(&self, p: u8, k: u8, r: u16) -> bool {
        let Settings { start, sll, .. } = self.settings;
        let first = self.step(p, 1).map(|step| step.target);
        (start, k, r, first) == (0, 1, 1, Some(sll))
    }

    /// Gives half of the patterns the first target that the timer has.
    fn set_timers(&mut self, random: &mut Random) {
        let mut at = 0;
        for &(_, s) in &self.patterns[..self.settings.n as usize] {
            if s > 0 && random.once_in(2) {
                self.steps[at].target = self.settings.sll;
            }
            at += s as usize;
        }
    }
}

fn limits(random: &mut Random) -> (i16, i16) {
    match random.below(8) {
        0 => (-19_999, 29_999),
        1 => {
            let low = random.range(-19_999, 29_998);
            (low as i16, random.range(low + 1, 29_999) as i16)
        }
        2 => (-1, 0),
        3 => (-600, 300),
        _ => (0, 1000),
    }
}

fn settings(random: &mut Random, n: u8) -> Settings {
    let (sll, slh) = limits(random);
    let mut minutes = |choices: &[u16]| std::array::from_fn(|_| random.pick(choices));
    let zones = minutes(&[0, 0, 1, 5, 50, 9_999]);
    let waits = minutes(&[0, 1, 1, 2, 3, 5_999]);
    let on = minutes(&[0, 0, 1, 2, 5_999]);
    let off = minutes(&[0, 1, 2, 3, 5_999]);
    Settings {
        n,
        start: random.below(2) as u8,
        outage: random.below(3) as u8,
        sll,
        slh,
        start_value: random.range(sll.into(), slh.into()) as i16,
        width: random.pick(&[0, 0, 1, 10, 100, 400, 29_999]),
        filter: random.pick(&[0, 0, 1, 7, 10, 30, 999]),
        zones,
        waits,
        on,
        off,
    }
}

fn step(random: &mut Random, targets: &[i16; 3]) -> Step {
    const MINUTES: [u16; 16] = [0, 0, 0, 0, 1, 1, 1, 1, 1, 2, 2, 3, 5, 12, 5_999, ENDLESS];
    Step {
        target: random.pick(targets),
        minutes: random.pick(&MINUTES),
        wait: random.pick(&[0, 0, 0, 0, 1, 2, 3, 4]),
        signals: std::array::from_fn(|_| random.below(6) as u8),
    }
}

fn pattern(random: &mut Random, n: u8) -> (u8, u8) {
    let most = capacity(n) as usize;
    let s = match random.below(12) {
        0 => 0,
        1 => most,
        2 => random.below(most + 1),
        _ => 1 + random.below(most.min(4)),
    };
    (random.pick(&[0, 1, 1, 2, 2, 3, 99]), s as u8)
}

/// A fixed draft: runs and s of its patterns; target, minutes and wait number
/// of its steps; the same signals in each.
pub fn fixed(
    settings: Settings,
    patterns: &[(u8, u8)],
    steps: &[(i16, u16, u8)],
    signals: [u8; 4],
) -> Draft {
    let mut draft = Draft {
        settings,
        patterns: [(0, 0); 15],
        steps: [NO_STEP; 99],
    };
    draft.patterns[..patterns.len()].copy_from_slice(patterns);
    for (place, &(target, minutes, wait)) in draft.steps.iter_mut().zip(steps) {
        *place = Step {
            target,
            minutes,
            wait,
            signals,
        };
    }
    draft
}

/// A valid draft of n patterns, with rubbish in the places that are not used.
pub fn lively_of(random: &mut Random, n: u8) -> Draft {
    let settings = settings(random, n);
    let (low, high) = (settings.sll.into(), settings.slh.into());
    let targets = std::array::from_fn(|_| random.range(low, high) as i16);
    let mut draft = Draft {
        settings,
        patterns: [(0, 0); 15],
        steps: [NO_STEP; 99],
    };
    for i in 0..15 {
        let rubbish = (random.byte(), random.byte());
        draft.patterns[i] = if i < n as usize {
            pattern(random, n)
        } else {
            rubbish
        };
    }
    let used = draft.used();
    for i in 0..99 {
        draft.steps[i] = if i < used {
            step(random, &targets)
        } else {
            any_step(random)
        };
    }
    draft
}

pub fn lively(random: &mut Random) -> Draft {
    let n = if random.once_in(2) {
        1 + random.below(3)
    } else {
        1 + random.below(15)
    };
    let mut draft = lively_of(random, n as u8);
    draft.set_timers(random);
    draft
}

/// A valid draft of n patterns with as many steps as fit.
pub fn full(random: &mut Random, n: u8) -> Draft {
    let mut draft = lively_of(random, n);
    let (low, high) = (draft.settings.sll.into(), draft.settings.slh.into());
    let targets = std::array::from_fn(|_| random.range(low, high) as i16);
    for pattern in &mut draft.patterns[..n as usize] {
        pattern.1 = capacity(n);
    }
    for place in &mut draft.steps {
        *place = step(random, &targets);
    }
    draft
}

/// A bank that would be valid if a pattern could have one step more.
pub fn over_capacity(random: &mut Random, n: u8) -> Vec<u8> {
    let mut draft = full(random, n);
    for pattern in &mut draft.patterns[..n as usize] {
        pattern.1 = random.below(capacity(n) as usize + 1) as u8;
    }
    let place = random.below(n as usize);
    draft.patterns[place].1 = capacity(n) + 1;
    draft.bank()
}

/// Nine random bytes as a step.
pub fn any_step(random: &mut Random) -> Step {
    Step {
        target: random.bits() as i16,
        minutes: random.bits() as u16,
        wait: random.byte(),
        signals: std::array::from_fn(|_| random.byte()),
    }
}
