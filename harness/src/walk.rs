//! Every list up to some length of a small alphabet, walked as a tree.

use model::{AlarmSetting, Config, Settings};

use crate::alarms::{self, between, HOLD, STANDBY};
use crate::banks;
use crate::calls::Comparer;
use crate::events::{
    self, Raw, BACK, CUT, FEED, MINUS, PAUSE, PLUS, RESET, RETURN, RETURN_OVER, RETURN_UNDER,
    SELECT, START, TICK, TICK_OVER,
};
use crate::held::Held;
use crate::lists;
use crate::random::Random;
use crate::report::Compared;
use crate::setup::Setup;

/// A tree of lists over one bank and its settings.
struct Tree<'a> {
    setup: &'a Setup,
    alphabet: &'a [Raw],
    list: Vec<Raw>,
}

impl Tree<'_> {
    /// Every list that goes on from here by up to `depth` events.
    fn walk(&mut self, comparer: &mut Comparer, held: &Held, depth: usize) -> Compared {
        for &event in self.alphabet {
            let next = held.after(comparer, self.setup, event)?;
            self.list.push(event);
            lists::same_by_run(comparer, &next, self.setup, &self.list)?;
            lists::same_by_replay(comparer, &next, self.setup, &self.list)?;
            comparer.tally.walked += 1;
            if depth > 1 {
                self.walk(comparer, &next, depth - 1)?;
            }
            self.list.pop();
        }
        Ok(())
    }
}

fn walk(comparer: &mut Comparer, setup: &Setup, alphabet: &[Raw], depth: usize) -> Compared {
    let made = Held::made(comparer, setup)?;
    lists::same_by_run(comparer, &made, setup, &[])?;
    lists::same_by_replay(comparer, &made, setup, &[])?;
    Tree {
        setup,
        alphabet,
        list: Vec::new(),
    }
    .walk(comparer, &made, depth)
}

/// A small bank, its alarms, and the alphabet of its lists.
struct Small {
    start: u8,
    outage: u8,
    patterns: &'static [(u8, u8)],
    steps: &'static [(i16, u16, u8)],
    alarms: [AlarmSetting; 4],
    alphabet: [Raw; 10],
}

/// Short steps and passes, with the keys that move through them.
const PASSES: Small = Small {
    start: 1,
    outage: 2,
    patterns: &[(2, 2)],
    steps: &[(600, 0, 0), (300, 0, 0)],
    alarms: [
        between(6, 0, 600, 1, 0),
        between(2, 0, 300, 0, HOLD),
        between(4, -10, 10, 0, STANDBY),
        between(1, -300, 300, 2, HOLD | STANDBY),
    ],
    alphabet: [
        (TICK, 600),
        (START, 0),
        (PAUSE, 0),
        (RESET, 0),
        (FEED, 0),
        (BACK, 0),
        (CUT, 0),
        (RETURN, 600),
        (RETURN_UNDER, 0),
        (SELECT, 1),
    ],
};

/// A wait and an endless step, with readings in and out of the outage width.
const OUTAGES: Small = Small {
    start: 1,
    outage: 2,
    patterns: &[(0, 2)],
    steps: &[(400, 0, 1), (400, 6_000, 0)],
    alarms: [
        AlarmSetting {
            sensitivity: 20,
            ..between(5, 340, 390, 0, 0)
        },
        between(7, 365, 400, 1, HOLD),
        between(8, 390, 410, 0, STANDBY),
        AlarmSetting {
            sensitivity: 5,
            ..between(3, -30, 0, 0, STANDBY)
        },
    ],
    alphabet: [
        (TICK, 400),
        (TICK, 330),
        (TICK_OVER, 0),
        (START, 0),
        (PAUSE, 0),
        (CUT, 0),
        (RETURN, 350),
        (RETURN, 349),
        (RETURN_OVER, 0),
        (FEED, 0),
    ],
};

/// Times moved by plus and minus, and an outage that pauses.
const TIMES: Small = Small {
    start: 1,
    outage: 1,
    patterns: &[(1, 2)],
    steps: &[(600, 2, 2), (0, 0, 2)],
    alarms: [
        between(2, 0, 300, 1, 0),
        between(3, -9, 0, 0, STANDBY),
        AlarmSetting {
            sensitivity: 9_999,
            ..between(4, 0, 1, 0, 0)
        },
        between(0, 0, 0, 0, STANDBY),
    ],
    alphabet: [
        (TICK, 200),
        (TICK, 590),
        (START, 0),
        (FEED, 0),
        (PLUS, 0),
        (MINUS, 0),
        (BACK, 0),
        (PAUSE, 0),
        (CUT, 0),
        (RETURN, 200),
    ],
};

/// The timer with a wait number and a second pass; a first step that is skipped, and alone ends its start.
const TIMERS: Small = Small {
    start: 0,
    outage: 2,
    patterns: &[(2, 1), (1, 2), (5, 1)],
    steps: &[(0, 1, 1), (400, 0, 1), (330, 6_000, 0), (400, 1, 0)],
    alarms: [
        between(2, 0, 0, 0, 0),
        between(3, -50, 0, 1, HOLD),
        between(4, -1, 1, 0, STANDBY),
        between(1, -70, 70, 0, 0),
    ],
    alphabet: [
        (TICK, 400),
        (TICK, 330),
        (START, 0),
        (FEED, 0),
        (BACK, 0),
        (MINUS, 0),
        (CUT, 0),
        (RETURN, 350),
        (SELECT, 2),
        (SELECT, 3),
    ],
};

impl Small {
    fn setup(&self) -> Setup {
        let settings = Settings {
            n: self.patterns.len() as u8,
            start: self.start,
            outage: self.outage,
            sll: 0,
            slh: 1_000,
            start_value: 200,
            width: 50,
            filter: 10,
            zones: [0, 20, 0, 0],
            waits: [1, 2, 0, 0],
            on: [0, 1, 0, 0],
            off: [1, 2, 0, 0],
        };
        let draft = banks::fixed(settings, self.patterns, self.steps, [1, 2, 5, 0]);
        let alarms = self.alarms;
        Setup::new(draft.bank(), Config { alarms })
    }
}

/// Every list up to `depth` events of four alphabets over small banks.
pub fn every_list(comparer: &mut Comparer, depth: usize) -> Compared {
    [PASSES, OUTAGES, TIMES, TIMERS]
        .iter()
        .try_for_each(|small| walk(comparer, &small.setup(), &small.alphabet, depth))
}

/// Every short list of a random alphabet over a random bank.
pub fn random_tree(comparer: &mut Comparer, random: &mut Random, depth: usize) -> Compared {
    let draft = banks::lively(random);
    let target = draft.steps[0].target;
    let mut alphabet = vec![
        (START, 0),
        (CUT, 0),
        events::reading(random, RETURN, target),
        events::reading(random, TICK, target),
    ];
    alphabet.extend((0..4).map(|_| match random.below(3) {
        0 => events::reading(random, TICK, target),
        _ => events::any_of_form(random),
    }));
    let config = alarms::config(random, &draft.targets());
    walk(
        comparer,
        &Setup::new(draft.bank(), config),
        &alphabet,
        depth,
    )
}
