//! Times the static library beside the outside model, over the same events in
//! one process. The ratio is the model's time over the library's: above 1 the
//! library is faster.
//!
//! bench [--beside PROGRAM]
//!
//! With --beside the library is timed beside that of another build, of which
//! PROGRAM is the bench: the ratio is this one's time over the other's.

use std::process::ExitCode;

use harness::alarms::{between, STANDBY};
use harness::banks::{self, Draft};
use harness::beside::{self, Other};
use harness::events::{self, list_bytes, Raw};
use harness::oracle::{self, RECORD, STATE};
use harness::random::Random;
use harness::setup::Setup;
use harness::timing;
use model::{Config, Event};

const SEED: u64 = 7;
/// Events of a measurement of single events.
const SINGLE: usize = 20_000;
/// Events of a long list.
const LONG: usize = 200_000;
const CHECKS: usize = 20_000;

/// A cook's bank: the longest there is, or one pattern of three steps.
fn bank(random: &mut Random, large: bool) -> Draft {
    let mut draft = banks::full(random, if large { 14 } else { 1 });
    if !large {
        draft.patterns[0].1 = 3;
    }
    let settings = &mut draft.settings;
    (
        settings.start,
        settings.outage,
        settings.width,
        settings.filter,
    ) = (1, 2, 0, 10);
    (settings.zones, settings.waits) = ([20; 4], [1; 4]);
    for (runs, _) in &mut draft.patterns {
        *runs = 0;
    }
    for (i, step) in draft.steps.iter_mut().enumerate() {
        step.minutes = 1 + i as u16 % 5;
    }
    draft
}

/// A start, then ticks, with keys and outages between them if `mixed`.
fn cook(random: &mut Random, draft: &Draft, length: usize, mixed: bool) -> Vec<Raw> {
    let target = i64::from(draft.steps[0].target);
    let mut list = vec![(events::START, 0)];
    while list.len() < length {
        let reading = (target + random.range(-50, 50)).clamp(-19_999, 29_999);
        list.push((events::TICK, reading as i32));
        if mixed && random.once_in(50) {
            list.extend(keys(random, reading as i32));
        }
    }
    list.truncate(length);
    list
}

fn keys(random: &mut Random, reading: i32) -> Vec<Raw> {
    match random.below(5) {
        0 => vec![(events::CUT, 0), (events::RETURN, reading)],
        1 => vec![
            (events::PAUSE, 0),
            (events::TICK, reading),
            (events::PAUSE, 0),
        ],
        2 => vec![(events::PLUS, 0)],
        3 => vec![(events::MINUS, 0)],
        _ => vec![(events::FEED, 0)],
    }
}

fn model_events(list: &[Raw]) -> Vec<Event> {
    oracle::events_of(&list_bytes(list)).expect("the list holds known kinds")
}

fn library_one_by_one(setup: &Setup, list: &[Raw]) -> u64 {
    let (bank, config) = (&setup.bank[..], &setup.config_bytes[..]);
    let (mut record, mut state) = ([0; RECORD], [0; STATE]);
    let made = cook::make(bank, config, &mut record, &mut state).word();
    let word = list.iter().fold(made, |sum, &(kind, value)| {
        let outcome = cook::raw_event(bank, config, &mut record, &mut state, kind, value);
        sum.wrapping_mul(31).wrapping_add(outcome.word())
    });
    digest(word, &state)
}

fn model_one_by_one(setup: &Setup, events: &[Event]) -> u64 {
    let (bank, config) = (&setup.bank[..], &setup.config);
    let mut record = [0; RECORD];
    let Ok((mut state, made)) = model::make(bank, config, &mut record) else {
        return 0;
    };
    let made = oracle::answer_word(&made);
    let word = events.iter().fold(made, |sum, &event| {
        let answer = model::event(bank, config, &mut record, &mut state, event);
        sum.wrapping_mul(31)
            .wrapping_add(oracle::answer_word(&answer))
    });
    digest(word, &oracle::state_bytes(&state))
}

/// A word and a state, as one number.
fn digest(word: u64, state: &[u8]) -> u64 {
    state.iter().fold(word, |sum, &byte| {
        sum.wrapping_mul(31).wrapping_add(byte.into())
    })
}

fn library_run(setup: &Setup, list: &[u8]) -> u64 {
    let (mut record, mut state) = ([0; RECORD], [0; STATE]);
    let word = cook::run(
        &setup.bank,
        &setup.config_bytes,
        &mut record,
        &mut state,
        list,
    )
    .word();
    digest(word, &state)
}

fn model_run(setup: &Setup, events: &[Event]) -> u64 {
    let (bank, config) = (&setup.bank[..], &setup.config);
    let mut record = [0; RECORD];
    let Ok((mut state, mut answer)) = model::make(bank, config, &mut record) else {
        return 0;
    };
    for &event in events {
        answer = model::event(bank, config, &mut record, &mut state, event);
    }
    digest(oracle::answer_word(&answer), &oracle::state_bytes(&state))
}

/// What the library is timed beside.
enum Beside {
    Model,
    Other(Other),
    /// Another build's bench, which asks for each round.
    Asking,
}

impl Beside {
    fn heading(&self) {
        match self {
            Beside::Model => timing::heading(),
            Beside::Other(_) => beside::heading(),
            Beside::Asking => (),
        }
    }

    fn row(
        &mut self,
        name: &str,
        events: usize,
        library: &mut dyn FnMut() -> u64,
        model: &mut dyn FnMut() -> u64,
    ) -> Result<(), String> {
        match self {
            Beside::Model => timing::compare(name, events, library, model),
            Beside::Other(other) => beside::compare(other, name, events, library),
            Beside::Asking => beside::answer(name, library),
        }
    }

    fn checks(&mut self, name: &str, bank: &[u8]) -> Result<(), String> {
        let hidden = || std::hint::black_box(bank);
        let mut library = || (0..CHECKS).map(|_| cook::check(hidden()).word()).sum();
        let mut model = || (0..CHECKS).map(|_| oracle::check(hidden())).sum();
        self.row(&format!("check, {name}"), CHECKS, &mut library, &mut model)
    }

    fn single(&mut self, name: &str, setup: &Setup, list: &[Raw]) -> Result<(), String> {
        let events = model_events(list);
        let mut library = || library_one_by_one(setup, list);
        let mut model = || model_one_by_one(setup, &events);
        self.row(name, list.len(), &mut library, &mut model)
    }

    fn long(&mut self, name: &str, setup: &Setup, list: &[Raw]) -> Result<(), String> {
        let (bytes, events) = (list_bytes(list), model_events(list));
        let mut library = || library_run(setup, &bytes);
        let mut model = || model_run(setup, &events);
        self.row(name, list.len(), &mut library, &mut model)
    }
}

/// Four alarms that go on and off while the room is near a step's target.
fn four_alarms(target: i16) -> Config {
    let (below, above) = (target.max(-19_899) - 100, target.min(29_899) + 100);
    let mut alarms = [
        between(1, -40, 40, 2, 0),
        between(2, 0, 20, 0, 0),
        between(5, below, target, 3, STANDBY),
        between(8, target, above, 1, 0),
    ];
    for alarm in &mut alarms {
        alarm.sensitivity = 5;
    }
    Config { alarms }
}

/// Ticks with four alarms set, in a long list and one by one.
fn alarms(beside: &mut Beside, random: &mut Random) -> Result<(), String> {
    let draft = bank(random, false);
    let setup = Setup::new(draft.bank(), four_alarms(draft.steps[0].target));
    let list = cook(random, &draft, LONG, false);
    beside.long("long list, ticks, small bank, alarms", &setup, &list)?;
    let list = cook(random, &draft, SINGLE, false);
    beside.single("single events, ticks, small bank, alarms", &setup, &list)
}

fn options() -> Result<Beside, String> {
    let arguments: Vec<String> = std::env::args().skip(1).collect();
    let words: Vec<&str> = arguments.iter().map(String::as_str).collect();
    match words[..] {
        [] => Ok(Beside::Model),
        ["--beside", program] => Ok(Beside::Other(Other::start(program)?)),
        [beside::ANSWERING] => Ok(Beside::Asking),
        _ => Err("usage: bench [--beside PROGRAM]".to_string()),
    }
}

fn bench() -> Result<(), String> {
    let mut beside = options()?;
    let mut random = Random::new(SEED);
    beside.heading();
    for (size, large) in [("small bank", false), ("large bank", true)] {
        let draft = bank(&mut random, large);
        let setup = Setup::new(draft.bank(), Config::default());
        beside.checks(size, &setup.bank)?;
        for (kind, mixed) in [("ticks", false), ("mixed", true)] {
            let list = cook(&mut random, &draft, SINGLE, mixed);
            beside.single(&format!("single events, {kind}, {size}"), &setup, &list)?;
            let list = cook(&mut random, &draft, LONG, mixed);
            beside.long(&format!("long list, {kind}, {size}"), &setup, &list)?;
        }
    }
    alarms(&mut beside, &mut random)
}

fn main() -> ExitCode {
    match bench() {
        Ok(()) => ExitCode::SUCCESS,
        Err(message) => {
            eprintln!("bench: {message}");
            ExitCode::FAILURE
        }
    }
}
