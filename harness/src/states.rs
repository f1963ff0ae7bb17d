//! States and records: sound and unsound in each way, and single events on them.

use model::{Config, Measured, Settings, State};

use crate::alarms;
use crate::banks::{self, Draft, ENDLESS};
use crate::calls::{Call, Comparer, Given};
use crate::damage;
use crate::events;
use crate::oracle::{self, ALARMS, MEASURED, RECORD, STATE, VALUE};
use crate::random::Random;
use crate::report::{Compared, Difference};

const MOST_ELAPSED: u32 = 359_999;

fn limit(runs: u8) -> u16 {
    if runs == 0 {
        9_999
    } else {
        runs.into()
    }
}

/// A half near a zone's edge, or a float next to it.
fn half(random: &mut Random, near: f64) -> f64 {
    let edge = near + random.pick(&[0.0, 1.0, -1.0, 5.0, -5.0, 50.0, -50.0]);
    let half = edge + random.pick(&[0.5, -0.5]);
    match random.below(4) {
        0 => half.next_up(),
        1 => half.next_down(),
        _ => half,
    }
}

fn measured(random: &mut Random, near: i16) -> Measured {
    const EDGES: [f64; 8] = [
        -0.0,
        0.0,
        -19_999.0,
        29_999.0,
        0.5,
        -0.5,
        0.499_999_999_999_999_94,
        5e-324,
    ];
    let near = f64::from(near);
    let tail = random.range(-1_000_000, 1_000_000) as f64 / 1_000_000.0;
    let value = match random.below(9) {
        0 => return Measured::NoReading,
        1 => return Measured::Over,
        2 => return Measured::Under,
        3 => random.pick(&EDGES),
        4 => near,
        5 => half(random, near),
        6 => near + 60.0 * tail,
        7 => 5_000.0 + 24_999.0 * tail,
        _ => random.range(-19_999, 29_999) as f64 + tail / 2.0,
    };
    Measured::Value(value.clamp(-19_999.0, 29_999.0))
}

/// Elapsed and waited seconds of a step in a pass, as a readable record may hold them.
fn times(random: &mut Random, draft: &Draft, p: u8, k: u8, r: u16) -> (u32, u32) {
    let Some(step) = draft.step(p, k) else {
        return (0, 0);
    };
    if step.minutes == ENDLESS {
        let e = random.pick(&[0, 59, 60, 119, 359_998, MOST_ELAPSED]);
        return (e, 0);
    }
    let t = 60 * u32::from(step.minutes);
    let e = match random.below(6) {
        0 => 0,
        1 | 2 => t,
        3 => t.saturating_sub(1),
        4 => t.saturating_sub(60),
        _ => random.below(t as usize + 1) as u32,
    };
    let wait = match step.wait {
        _ if draft.is_timer(p, k, r) => 0,
        number @ 1..=4 => 60 * u32::from(draft.settings.waits[number as usize - 1]),
        _ => 0,
    };
    if e < t || wait == 0 {
        return (e, 0);
    }
    let w = random.pick(&[0, 1, 59, 60, 61, wait - 1, wait - 2, wait - 60]);
    (e, w.min(wait - 1))
}

fn credits(random: &mut Random) -> [u32; 99] {
    let all = random.below(3);
    std::array::from_fn(|_| match (all, random.below(8)) {
        (0, _) => 0,
        (_, 0) => u32::MAX,
        (_, 1) => u32::MAX - 1,
        (_, 2) => 0,
        _ => random.bits() as u32,
    })
}

/// A stopped state of pattern p.
fn stopped(random: &mut Random, p: u8) -> State {
    State {
        power: true,
        mode: 0,
        p,
        k: 1,
        r: 1,
        e: 0,
        w: 0,
        b: 0,
        u: random.pick(&[0, 1, 30, 58, 59, 59]),
        measured: measured(random, 0),
        credits: credits(random),
        alarms: [alarms::CLEAR; 4],
    }
}

/// A base: a target or limit of the bank, an end of the range, or any.
fn base(random: &mut Random, draft: &Draft, target: i16) -> i16 {
    let any = random.range(-19_999, 29_999) as i16;
    let Settings { sll, slh, .. } = draft.settings;
    random.pick(&[target, sll, slh, -19_999, 29_999, any, any, any, any])
}

/// A state with power on and clear alarms whose position is readable.
fn placed(random: &mut Random, draft: &Draft) -> State {
    let p = 1 + random.below(draft.settings.n as usize) as u8;
    let (runs, s) = draft.patterns[p as usize - 1];
    let mut state = stopped(random, p);
    if s == 0 {
        return state;
    }
    state.mode = random.weighted(&[2, 8, 4, 1]) as u8;
    if state.mode == 0 {
        return state;
    }
    let any = 1 + random.below(s as usize) as u8;
    state.k = random.pick(&[1, s, any]);
    let last = limit(runs);
    let any = 1 + random.below(last as usize) as u16;
    state.r = random.pick(&[1, last, last, last.max(2) - 1, any]);
    if state.mode == 3 {
        return state;
    }
    (state.e, state.w) = times(random, draft, p, state.k, state.r);
    let target = draft.step(p, state.k).map_or(0, |step| step.target);
    state.b = base(random, draft, target);
    state.measured = measured(random, target);
    state
}

/// A state with power on that is sound.
pub fn sound(random: &mut Random, draft: &Draft, config: &Config) -> State {
    let mut state = placed(random, draft);
    state.alarms = alarms::sound(random, config, state.mode);
    state
}

/// The floats next to the ends of the temperature range.
const JUST_OUT: [f64; 2] = [29_999.000_000_000_004, -19_999.000_000_000_004];

/// Has a run wait at step 1 of pass 1, which no timer does.
fn wait_first(random: &mut Random, draft: &Draft, state: &mut State) {
    let Some(step) = draft.step(state.p, 1).filter(|_| state.mode % 3 != 0) else {
        return;
    };
    (state.k, state.r) = (1, 1);
    (state.e, state.w) = (60 * u32::from(step.minutes), random.pick(&[1, 1, 59, 60]));
}

/// A state with one thing moved out of its place.
fn unsound(random: &mut Random, draft: &Draft, config: &Config) -> State {
    let mut state = sound(random, draft, config);
    let (runs, s) = draft.patterns[state.p as usize - 1];
    match random.below(24) {
        0 => state.mode = random.pick(&[4, 5, 128, 255]),
        1 => state.mode = random.below(4) as u8,
        2 => state.p = random.pick(&[0, draft.settings.n + 1, 16, 255]),
        3 => state.k = random.pick(&[0, s + 1, 99, 100, 255]),
        4 => state.r = random.pick(&[0, limit(runs) + 1, limit(runs) + 1, u16::MAX]),
        5 => state.e = state.e.wrapping_add(random.pick(&[1, 60, u32::MAX])),
        6 => state.e = random.pick(&[1, 61, 121, 359_940, 359_999, 360_000, u32::MAX]),
        7 => state.w += random.pick(&[1, 2, 60, 61]),
        8 => state.w = random.pick(&[1, 60, 120, 359_939, 359_940, u32::MAX]),
        9 => state.b = random.pick(&[-20_000, 30_000, i16::MIN, i16::MAX, 1, -1]),
        10 => state.u = random.pick(&[60, 61, 128, 255]),
        11 => {
            state.measured =
                Measured::Value(random.pick(&[29_999.5, -19_999.5, 3e4, -2e4, 1e300, -1e300]))
        }
        12 => state.measured = Measured::Value(random.pick(&[f64::INFINITY, f64::NEG_INFINITY])),
        13 => state.measured = Measured::Value(random.pick(&JUST_OUT)),
        14 => state.p = 1 + random.below(15) as u8,
        15 => state.k = 1 + random.below(99) as u8,
        16 | 17 => wait_first(random, draft, &mut state),
        _ => alarms::disturb(random, config, &mut state.alarms),
    }
    state
}

/// Bytes with power off and anything else that a state can hold.
fn powered_off(random: &mut Random) -> Vec<u8> {
    let mut bytes = random.bytes(STATE);
    bytes[0] = 0;
    bytes[MEASURED] = random.below(4) as u8;
    let value = match bytes[MEASURED] {
        3 => random.pick(&[f64::INFINITY, f64::NEG_INFINITY, -0.0, 1e9, 12.5]),
        _ => 0.0,
    };
    bytes[VALUE..].copy_from_slice(&value.to_bits().to_le_bytes());
    bytes
}

/// Bytes that are no state, made from those of one.
fn no_state(random: &mut Random, mut bytes: Vec<u8>) -> Vec<u8> {
    const NANS: [u64; 4] = [
        0x7ff8 << 48,
        0xfff8 << 48,
        0x7ff0_0000_0000_0001,
        0xffff_ffff_ffff_ffff,
    ];
    match random.below(5) {
        0 => bytes.resize(random.pick(&[0, 1, 422, 423, 433, 435, 500]), 0),
        1 => bytes[0] = random.pick(&[2, 3, 128, 255]),
        2 => bytes[MEASURED] = random.pick(&[4, 5, 128, 255]),
        3 => {
            bytes[MEASURED] = 3;
            bytes[VALUE..].copy_from_slice(&random.pick(&NANS).to_le_bytes());
        }
        _ => {
            bytes[MEASURED] = random.below(3) as u8;
            bytes[VALUE..].fill(0);
            bytes[VALUE + random.below(8)] = random.pick(&[1, 128, 255]);
        }
    }
    bytes
}

/// Any bytes for a state over a draft's bank.
pub fn any_state(random: &mut Random, draft: &Draft, config: &Config) -> Vec<u8> {
    match random.below(20) {
        0 => random.bytes(STATE),
        1 => vec![0; STATE],
        2 | 3 => powered_off(random),
        4 => {
            let bytes = powered_off(random);
            no_state(random, bytes)
        }
        5 | 6 => {
            let bytes = oracle::state_bytes(&sound(random, draft, config)).to_vec();
            no_state(random, bytes)
        }
        7..=11 => oracle::state_bytes(&unsound(random, draft, config)).to_vec(),
        _ => oracle::state_bytes(&sound(random, draft, config)).to_vec(),
    }
}

/// Any bytes for a record: readable, nearly so, random, of any length.
pub fn any_record(random: &mut Random, draft: &Draft, config: &Config) -> Vec<u8> {
    let state = if random.once_in(3) {
        unsound(random, draft, config)
    } else {
        sound(random, draft, config)
    };
    let mut record = oracle::state_bytes(&state)[1..1 + RECORD].to_vec();
    match random.below(16) {
        0 => record = random.bytes(RECORD),
        1 => record.fill(0),
        2 => record.resize(random.pick(&[0, 1, 15, 411, 422, 424, 434, 1_000]), 1),
        3 => record[random.below(15)] = random.byte(),
        4 => record[ALARMS - 1 + random.below(12)] = random.pick(&[0, 1, 2, 3, 4, 5, 128, 255]),
        _ => (),
    }
    record
}

/// A record and a state that know of no bank.
pub fn any_buffers(random: &mut Random) -> (Vec<u8>, Vec<u8>) {
    let record = random.pick(&[
        RECORD,
        RECORD,
        RECORD,
        0,
        411,
        RECORD - 1,
        RECORD + 1,
        1_000,
    ]);
    let state = random.pick(&[STATE, STATE, STATE, 0, 422, STATE - 1, STATE + 1, 1_000]);
    let mut held = random.bytes(state);
    if state == STATE && random.once_in(2) {
        held = powered_off(random);
        held[0] = random.below(2) as u8;
    }
    (random.bytes(record), held)
}

/// An event, mostly one that a state with power on or off may take.
fn event(random: &mut Random, draft: &Draft, state: &[u8]) -> events::Raw {
    if random.once_in(3) || state.len() != STATE {
        return events::any(random);
    }
    if state[0] == 0 && random.once_in(2) {
        return events::reading(random, events::RETURN, draft.steps[0].target);
    }
    events::burst(random, draft, state)[0]
}

fn same_alarms(view: &cook::State, due: &State) -> bool {
    let seen = |alarm: &cook::Alarm| (alarm.is_on(), alarm.has_passed(), alarm.count);
    let held = |alarm: &model::Alarm| (alarm.flags & 1 == 1, alarm.flags & 2 == 2, alarm.count);
    view.alarms.iter().map(seen).eq(due.alarms.iter().map(held))
}

/// The wrapper's view of a state holds what the bytes hold, or nothing.
fn viewed(bytes: &[u8]) -> Compared {
    let view = cook::State::from_bytes(bytes);
    let due = oracle::state_of(bytes);
    let same = match (&view, &due) {
        (Some(view), Some(due)) => view.to_bytes() == bytes && same_alarms(view, due),
        (None, None) => true,
        _ => false,
    };
    if same {
        return Ok(());
    }
    Err(Difference::new("the wrapper's view of a state")
        .bytes("bytes", bytes)
        .line("view", format_args!("{view:?}"))
        .line("due", format_args!("{due:?}")))
}

/// Single events over many states and records of one bank.
fn over_bank(comparer: &mut Comparer, random: &mut Random, draft: &Draft, bank: &[u8]) -> Compared {
    let targets = draft.targets();
    let mut config = alarms::any(random, &targets);
    for _ in 0..40 {
        if random.once_in(4) {
            config = alarms::any(random, &targets);
            alarms::viewed(&config)?;
        }
        let (state, record) = (
            any_state(random, draft, &config),
            any_record(random, draft, &config),
        );
        viewed(&state)?;
        let config = alarms::given(random, &config);
        let given = Given {
            bank,
            config: &config,
            record: &record,
            state: &state,
        };
        let (kind, value) = event(random, draft, &state);
        comparer.call(Call::Event { kind, value }, given)?;
        if random.once_in(20) {
            comparer.call(Call::Make, given)?;
            let list = events::any_list(random);
            comparer.call(Call::Run { events: &list }, given)?;
        }
    }
    Ok(())
}

/// Single events over many banks; one bank in twenty is hostile.
pub fn compare(comparer: &mut Comparer, random: &mut Random, count: usize) -> Compared {
    for _ in 0..count {
        let draft = banks::lively(random);
        let bank = if random.once_in(20) {
            damage::bank(random)
        } else {
            draft.bank()
        };
        over_bank(comparer, random, &draft, &bank)?;
    }
    Ok(())
}
