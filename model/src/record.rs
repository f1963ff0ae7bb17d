//! The record in retained memory, and when a record or a state may be used.

use crate::alarms;
use crate::bank::Bank;
use crate::fields::{FieldReader, FieldWriter};
use crate::timer::current_step;
use crate::types::{Alarm, Config, Measured, State, CREDITS, ENDED, STOPPED, TEMPERATURES};

/// "Record, 411 bytes", and for the alarms "12 bytes more".
pub(crate) const RECORD_BYTES: usize = 411 + 12;
const CREDIT_BYTES: usize = 4;

/// "An endless step adds 1 to e, held at 359,999."
pub(crate) const ENDLESS_MOST: u32 = 359_999;

/// "the tick that makes u 60" saves.
pub(crate) const TICKS_TO_SAVE: u8 = 60;

/// "mode, p, k (a byte each), r (16 bits), e, w (32 each), b (signed 16), 99
/// credits"; "Alarm by alarm, flags (one byte ...) and delay count (16 bits) join
/// the record at its end"
pub fn record_of(state: &State) -> [u8; RECORD_BYTES] {
    let mut record = [0; RECORD_BYTES];
    write_record(state, &mut record);
    record
}

/// Writes the record whole.
pub(crate) fn write_record(state: &State, record: &mut [u8; RECORD_BYTES]) {
    let mut fields = FieldWriter::new(record);
    fields.put([state.mode, state.p, state.k]);
    fields.put(state.r.to_le_bytes());
    fields.put(state.e.to_le_bytes());
    fields.put(state.w.to_le_bytes());
    fields.put(state.b.to_le_bytes());
    let mut credits = [0; CREDIT_BYTES * CREDITS];
    let (places, _) = credits.as_chunks_mut();
    for (place, credit) in places.iter_mut().zip(state.credits) {
        *place = credit.to_le_bytes();
    }
    fields.put(credits);
    for alarm in &state.alarms {
        alarm.write(&mut fields);
    }
}

/// The state that a record brings back: power on, u 0, and no reading yet.
pub(crate) fn read_record(record: &[u8; RECORD_BYTES]) -> State {
    let mut fields = FieldReader::new(record);
    State {
        power: true,
        mode: fields.u8(),
        p: fields.u8(),
        k: fields.u8(),
        r: fields.u16(),
        e: fields.u32(),
        w: fields.u32(),
        b: fields.i16(),
        u: 0,
        measured: Measured::NoReading,
        credits: std::array::from_fn(|_| fields.u32()),
        alarms: std::array::from_fn(|_| Alarm::read(&mut fields)),
    }
}

/// Whether the record can be brought back over an accepted bank.
pub fn readable(bank: &[u8], config: &Config, record: &[u8]) -> bool {
    match (Bank::open(bank), <&[u8; RECORD_BYTES]>::try_from(record)) {
        (Ok(bank), Ok(record)) => is_readable(&bank, config, &read_record(record)),
        _ => false,
    }
}

/// Whether the state may be used over an accepted bank.
pub fn sound(bank: &[u8], config: &Config, state: &State) -> bool {
    !state.power || Bank::open(bank).is_ok_and(|bank| is_sound(&bank, config, state))
}

/// "A state is sound if power is off, or if all three hold: its position is
/// readable, u < 60, any y lies within −19,999 and 29,999." Of the alarms: "A
/// powered state is sound only within these bounds."
pub(crate) fn is_sound(bank: &Bank, config: &Config, state: &State) -> bool {
    !state.power
        || (state.u < TICKS_TO_SAVE
            && measured_in_range(state.measured)
            && is_readable(bank, config, state))
}

fn measured_in_range(measured: Measured) -> bool {
    let (least, most) = (
        f64::from(*TEMPERATURES.start()),
        f64::from(*TEMPERATURES.end()),
    );
    match measured {
        Measured::Value(y) => (least..=most).contains(&y),
        _ => true,
    }
}

/// Whether position and alarms are those of a readable record.
pub(crate) fn is_readable(bank: &Bank, config: &Config, state: &State) -> bool {
    position_is_readable(bank, state) && alarms::are_readable(config, state)
}

/// "It is readable exactly when mode ≤ 3, 1 ≤ p ≤ n and: mode 0 is as "to
/// stopped" says; else 1 ≤ k ≤ s, 1 ≤ r ≤ limit, b in the temperature range;
/// mode 3 has e = w = b = 0".
fn position_is_readable(bank: &Bank, state: &State) -> bool {
    if state.mode > ENDED || !(1..=bank.settings.n).contains(&state.p) {
        return false;
    }
    let cleared = state.e == 0 && state.w == 0 && state.b == 0;
    if state.mode == STOPPED {
        return state.k == 1 && state.r == 1 && cleared;
    }
    let pattern = bank.pattern(state.p);
    (1..=pattern.s).contains(&state.k)
        && (1..=pattern.limit()).contains(&state.r)
        && TEMPERATURES.contains(&state.b)
        && if state.mode == ENDED {
            cleared
        } else {
            time_is_readable(bank, state)
        }
}

/// "modes 1, 2 have e ≤ T (endless 359,999) and w = 0, or e = T and
/// 0 < w < W, never endless"; W is 0 in the timer, where w is then 0.
fn time_is_readable(bank: &Bank, state: &State) -> bool {
    let step = current_step(bank, state);
    if step.is_endless() {
        return state.e <= ENDLESS_MOST && state.w == 0;
    }
    let t = step.seconds();
    let (_, most_waited) = bank.settings.wait(step.wait);
    if state.w == 0 {
        state.e <= t
    } else {
        state.e == t && state.w < most_waited
    }
}
