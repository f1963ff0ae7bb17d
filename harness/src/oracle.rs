//! The library's five calls as the model answers them, in the library's forms.

use model::{
    Alarm, Answer, Command, Config, Event, Measured, Reading, Refusal, Settings, State, Step,
};

pub const RECORD: usize = 423;
pub const STATE: usize = 434;

/// Offsets in a state: the alarms, u, and the measured value.
pub const ALARMS: usize = 412;
pub const U: usize = 424;
pub const MEASURED: usize = 425;
pub const VALUE: usize = 426;

/// A call of no known form.
pub const NO_FORM: u64 = 99;
/// Bytes that are no state.
pub const NO_STATE: u64 = 21;

pub fn refusal_word(refusal: &Refusal) -> u64 {
    refusal.number as u64 | (refusal.first as u64) << 8 | (refusal.second as u64) << 24
}

pub fn answer_word(answer: &Answer) -> u64 {
    match answer {
        Answer::Refused(refusal) => refusal_word(refusal),
        Answer::Accepted { set_value, signals } => {
            let on = |word: u64, (i, &signal): (usize, &bool)| word | (signal as u64) << (48 + i);
            let set_value = (*set_value as u16 as u64) << 32;
            signals.iter().enumerate().fold(set_value, on)
        }
    }
}

fn part<const N: usize>(bytes: &[u8], at: usize) -> [u8; N] {
    bytes[at..at + N].try_into().expect("a slice of N bytes")
}

fn measured_of(kind: u8, bits: u64) -> Option<Measured> {
    let y = f64::from_bits(bits);
    match kind {
        3 if !y.is_nan() => Some(Measured::Value(y)),
        0 if bits == 0 => Some(Measured::NoReading),
        1 if bits == 0 => Some(Measured::Over),
        2 if bits == 0 => Some(Measured::Under),
        _ => None,
    }
}

/// The alarms in a state's bytes.
pub fn alarms_of(state: &[u8]) -> [Alarm; 4] {
    std::array::from_fn(|i| Alarm {
        flags: state[ALARMS + 3 * i],
        count: u16::from_le_bytes(part(state, ALARMS + 3 * i + 1)),
    })
}

/// The state in bytes; nothing if they are no state.
pub fn state_of(bytes: &[u8]) -> Option<State> {
    if bytes.len() != STATE || bytes[0] > 1 {
        return None;
    }
    Some(State {
        power: bytes[0] == 1,
        mode: bytes[1],
        p: bytes[2],
        k: bytes[3],
        r: u16::from_le_bytes(part(bytes, 4)),
        e: u32::from_le_bytes(part(bytes, 6)),
        w: u32::from_le_bytes(part(bytes, 10)),
        b: i16::from_le_bytes(part(bytes, 14)),
        u: bytes[U],
        measured: measured_of(bytes[MEASURED], u64::from_le_bytes(part(bytes, VALUE)))?,
        credits: std::array::from_fn(|i| u32::from_le_bytes(part(bytes, 16 + 4 * i))),
        alarms: alarms_of(bytes),
    })
}

pub fn state_bytes(state: &State) -> [u8; STATE] {
    let mut bytes = [0; STATE];
    bytes[..4].copy_from_slice(&[state.power as u8, state.mode, state.p, state.k]);
    bytes[4..6].copy_from_slice(&state.r.to_le_bytes());
    bytes[6..10].copy_from_slice(&state.e.to_le_bytes());
    bytes[10..14].copy_from_slice(&state.w.to_le_bytes());
    bytes[14..16].copy_from_slice(&state.b.to_le_bytes());
    for (i, credit) in state.credits.iter().enumerate() {
        bytes[16 + 4 * i..20 + 4 * i].copy_from_slice(&credit.to_le_bytes());
    }
    for (alarm, place) in state
        .alarms
        .iter()
        .zip(bytes[ALARMS..U].chunks_exact_mut(3))
    {
        place[0] = alarm.flags;
        place[1..].copy_from_slice(&alarm.count.to_le_bytes());
    }
    let (kind, bits) = match state.measured {
        Measured::NoReading => (0, 0),
        Measured::Over => (1, 0),
        Measured::Under => (2, 0),
        Measured::Value(y) => (3, y.to_bits()),
    };
    bytes[U] = state.u;
    bytes[MEASURED] = kind;
    bytes[VALUE..].copy_from_slice(&bits.to_le_bytes());
    bytes
}

/// The event of a kind and value; nothing for a kind above 14.
pub fn event_of(kind: u32, value: i32) -> Option<Event> {
    Some(match kind {
        0 => Event::Tick(Reading::Value(value)),
        1 => Event::Tick(Reading::Over),
        2 => Event::Tick(Reading::Under),
        3 => Event::Command(Command::Select(value)),
        4 => Event::Command(Command::Start),
        5 => Event::Command(Command::Pause),
        6 => Event::Command(Command::Reset),
        7 => Event::Command(Command::Feed),
        8 => Event::Command(Command::Back),
        9 => Event::Command(Command::Plus),
        10 => Event::Command(Command::Minus),
        11 => Event::Cut,
        12 => Event::Return(Reading::Value(value)),
        13 => Event::Return(Reading::Over),
        14 => Event::Return(Reading::Under),
        _ => return None,
    })
}

/// The events of a list; nothing if the bytes are no list.
pub fn events_of(bytes: &[u8]) -> Option<Vec<Event>> {
    if !bytes.len().is_multiple_of(5) {
        return None;
    }
    let event = |five: &[u8]| event_of(five[0].into(), i32::from_le_bytes(part(five, 1)));
    bytes.chunks_exact(5).map(event).collect()
}

pub fn settings_of(bytes: &[u8]) -> Settings {
    let word = |at| u16::from_le_bytes(part(bytes, at));
    let signed = |at| i16::from_le_bytes(part(bytes, at));
    Settings {
        n: bytes[0],
        start: bytes[1],
        outage: bytes[2],
        sll: signed(3),
        slh: signed(5),
        start_value: signed(7),
        width: word(9),
        filter: word(11),
        zones: std::array::from_fn(|i| word(13 + 4 * i)),
        waits: std::array::from_fn(|i| word(15 + 4 * i)),
        on: std::array::from_fn(|i| word(29 + 4 * i)),
        off: std::array::from_fn(|i| word(31 + 4 * i)),
    }
}

pub fn step_of(bytes: &[u8]) -> Step {
    Step {
        target: i16::from_le_bytes(part(bytes, 0)),
        minutes: u16::from_le_bytes(part(bytes, 2)),
        wait: bytes[4],
        signals: part(bytes, 5),
    }
}

pub fn check(bank: &[u8]) -> u64 {
    model::check(bank).map_or_else(|refusal| refusal_word(&refusal), |()| 0)
}

pub fn write(settings: &[u8], patterns: &[u8], steps: &[u8], out: &mut [u8]) -> u64 {
    if settings.len() != 45 || patterns.len() != 30 || steps.len() != 891 {
        return NO_FORM;
    }
    let patterns = std::array::from_fn(|i| (patterns[2 * i], patterns[2 * i + 1]));
    let steps = std::array::from_fn(|i| step_of(&steps[9 * i..]));
    match model::write(&settings_of(settings), &patterns, &steps, out) {
        Ok(length) => (length as u64) << 8,
        Err(refusal) => refusal_word(&refusal),
    }
}

/// Making, with the state kept in the model's own form.
fn make_state(
    bank: &[u8],
    config: &Config,
    record: &mut [u8],
    length: usize,
) -> Result<(State, u64), u64> {
    model::check(bank).map_err(|refusal| refusal_word(&refusal))?;
    if length != STATE {
        return Err(NO_STATE);
    }
    match model::make(bank, config, record) {
        Ok((state, answer)) => Ok((state, answer_word(&answer))),
        Err(refusal) => Err(refusal_word(&refusal)),
    }
}

pub fn make(bank: &[u8], config: &[u8], record: &mut [u8], state: &mut [u8]) -> u64 {
    let Some(config) = model::config_from(config) else {
        return NO_FORM;
    };
    match make_state(bank, &config, record, state.len()) {
        Err(word) => word,
        Ok((made, word)) => {
            state.copy_from_slice(&state_bytes(&made));
            word
        }
    }
}

pub fn event(
    bank: &[u8],
    config: &[u8],
    record: &mut [u8],
    state: &mut [u8],
    kind: u32,
    value: i32,
) -> u64 {
    let (Some(event), Some(config)) = (event_of(kind, value), model::config_from(config)) else {
        return NO_FORM;
    };
    if let Err(refusal) = model::check(bank) {
        return refusal_word(&refusal);
    }
    let Some(mut held) = state_of(state) else {
        return NO_STATE;
    };
    let answer = model::event(bank, &config, record, &mut held, event);
    state.copy_from_slice(&state_bytes(&held));
    answer_word(&answer)
}

pub fn run(bank: &[u8], config: &[u8], record: &mut [u8], state: &mut [u8], events: &[u8]) -> u64 {
    let (Some(events), Some(config)) = (events_of(events), model::config_from(config)) else {
        return NO_FORM;
    };
    let (mut held, mut word) = match make_state(bank, &config, record, state.len()) {
        Err(word) => return word,
        Ok(made) => made,
    };
    for event in events {
        word = answer_word(&model::event(bank, &config, record, &mut held, event));
    }
    state.copy_from_slice(&state_bytes(&held));
    word
}
