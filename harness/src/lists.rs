//! Lists of events, one by one and in one call, beside the replay machine.

use model::Config;

use crate::alarms::{self, between, HOLD, STANDBY};
use crate::banks::{self, Draft, ENDLESS};
use crate::calls::{Call, Comparer};
use crate::events::{self, list_bytes, Raw};
use crate::held::Held;
use crate::oracle::{RECORD, STATE};
use crate::random::Random;
use crate::replay;
use crate::report::{Compared, Difference};
use crate::setup::Setup;

/// The whole list in one call leaves the same.
pub fn same_by_run(comparer: &mut Comparer, held: &Held, setup: &Setup, list: &[Raw]) -> Compared {
    let events = list_bytes(list);
    let given = setup.given(&[0x33; RECORD], &[0xcc; STATE]);
    let word = comparer.library_alone(Call::Run { events: &events }, given)?;
    if word == held.word && comparer.state() == held.state && comparer.record() == held.record {
        return Ok(());
    }
    let report = Difference::new("cook_run, against its events one by one");
    Err(setup
        .describe(report)
        .bytes("events", &events)
        .word("result, cook_run", word)
        .word("result, one by one", held.word)
        .sides(
            "state (library: cook_run, model: one by one)",
            comparer.state(),
            &held.state,
        )
        .sides("record (likewise)", comparer.record(), &held.record))
}

/// The replay machine leaves the same.
pub fn same_by_replay(
    comparer: &mut Comparer,
    held: &Held,
    setup: &Setup,
    list: &[Raw],
) -> Compared {
    comparer.tally.replays += 1;
    replay::compare(setup, list, held)
}

/// A list as it grows.
struct Growing {
    setup: Setup,
    list: Vec<Raw>,
    held: Held,
}

impl Growing {
    fn new(comparer: &mut Comparer, setup: Setup) -> Result<Growing, Difference> {
        let held = Held::made(comparer, &setup)?;
        Ok(Growing {
            setup,
            list: Vec::new(),
            held,
        })
    }

    fn give(&mut self, comparer: &mut Comparer, event: Raw) -> Compared {
        self.held = self.held.after(comparer, &self.setup, event)?;
        self.list.push(event);
        comparer.tally.list_events += 1;
        Ok(())
    }

    fn compare(&self, comparer: &mut Comparer) -> Compared {
        same_by_run(comparer, &self.held, &self.setup, &self.list)?;
        same_by_replay(comparer, &self.held, &self.setup, &self.list)
    }
}

/// One random list, compared at its end and at some places before.
fn random_list(comparer: &mut Comparer, random: &mut Random, draft: &Draft) -> Compared {
    let config = alarms::config(random, &draft.targets());
    let mut growing = Growing::new(comparer, Setup::new(draft.bank(), config))?;
    let length = random.pick(&[5, 20, 80, 400, 1_200, 4_000]);
    let mut next = random.below(length / 4 + 1);
    while growing.list.len() < length {
        for event in events::burst(random, draft, &growing.held.state) {
            growing.give(comparer, event)?;
        }
        if growing.list.len() >= next {
            growing.compare(comparer)?;
            next = growing.list.len() + 1 + random.below(length / 4 + 1);
        }
    }
    comparer.tally.lists += 1;
    growing.compare(comparer)
}

/// Random lists over random banks.
pub fn compare(comparer: &mut Comparer, random: &mut Random, count: usize) -> Compared {
    for _ in 0..count {
        let draft = banks::lively(random);
        random_list(comparer, random, &draft)?;
    }
    Ok(())
}

/// A draft of one pattern with one step, started from the start value.
fn one_step(random: &mut Random, runs: u8, minutes: u16) -> Draft {
    let mut draft = banks::full(random, 1);
    (draft.settings.start, draft.settings.outage) = (1, 2);
    draft.patterns[0] = (runs, 1);
    draft.steps[0].minutes = minutes;
    draft.steps[0].wait = 0;
    draft
}

/// A start, then ticks at the target, with alarms that are true from the first on and go on by these delays.
fn at_the_target(
    comparer: &mut Comparer,
    draft: &Draft,
    delays: [u16; 3],
    ticks: usize,
) -> Result<Growing, Difference> {
    let target = draft.steps[0].target;
    let [one, two, three] = delays;
    let alarms = [
        between(6, 0, target, one, 0),
        between(4, 0, 0, two, HOLD),
        between(7, target, 0, three, 0),
        between(5, target, target, 0, STANDBY),
    ];
    let mut growing = Growing::new(comparer, Setup::new(draft.bank(), Config { alarms }))?;
    growing.give(comparer, (events::START, 0))?;
    for _ in 0..ticks {
        growing.give(comparer, (events::TICK, target.into()))?;
    }
    comparer.tally.lists += 1;
    Ok(growing)
}

/// A pattern of one short step up to the limit of its passes, and past it.
pub fn to_the_last_pass(comparer: &mut Comparer, random: &mut Random) -> Compared {
    for (runs, ticks) in [(0, 10_040), (99, 140)] {
        let draft = one_step(random, runs, 0);
        at_the_target(comparer, &draft, [97, 9_997, 9_998], ticks)?.compare(comparer)?;
    }
    Ok(())
}

/// An endless step up to the longest delay, one tick before it, and past it.
pub fn to_the_longest_delay(comparer: &mut Comparer, random: &mut Random) -> Compared {
    for ticks in [9_998, 9_999, 10_000, 10_001] {
        let draft = one_step(random, 1, ENDLESS);
        let mut growing = at_the_target(comparer, &draft, [9_998, 9_999, 9_997], ticks)?;
        for event in [(events::CUT, 0), (events::RETURN_OVER, 0)] {
            growing.compare(comparer)?;
            growing.give(comparer, event)?;
        }
        growing.compare(comparer)?;
    }
    Ok(())
}
