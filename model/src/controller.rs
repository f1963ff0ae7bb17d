//! The controller: the plain machine with power, cut, return and the record.

use crate::bank::Bank;
use crate::machine;
use crate::record::{is_readable, is_sound, read_record, write_record, RECORD_BYTES};
use crate::types::{Answer, Config, Event, Reading, Refusal, State};

/// "making the controller saves before any event"
pub fn make(bank: &[u8], config: &Config, record: &mut [u8]) -> Result<(State, Answer), Refusal> {
    let bank = Bank::open(bank)?;
    let record = record_buffer(record)?;
    config.check()?;
    let mut state = machine::fresh();
    save(&mut state, record);
    Ok((state, machine::answer(&bank, &state)))
}

/// "Each event takes the controller's state and gives back the next." A
/// refusal leaves state and record as they were.
pub fn event(
    bank: &[u8],
    config: &Config,
    record: &mut [u8],
    state: &mut State,
    event: Event,
) -> Answer {
    accept(bank, config, record, state, event).unwrap_or_else(Answer::Refused)
}

/// The refusals in the order of their numbers, but 41 "after 22"; then the
/// event itself.
fn accept(
    bank: &[u8],
    config: &Config,
    record: &mut [u8],
    state: &mut State,
    event: Event,
) -> Result<Answer, Refusal> {
    let bank = Bank::open(bank)?;
    if !is_sound(&bank, config, state) {
        return Err(Refusal::plain(21));
    }
    let record = record_buffer(record)?;
    config.check()?;
    let saves = match event {
        Event::Return(reading) => {
            *state = returned(&bank, config, record, state.power, reading)?;
            true
        }
        _ if !state.power => return Err(Refusal::plain(23)),
        Event::Tick(reading) => machine::tick(&bank, config, state, reading)?,
        Event::Command(command) => {
            machine::command(&bank, state, command)?;
            true
        }
        Event::Cut => {
            *state = State::OFF;
            false
        }
    };
    if saves {
        save(state, record);
    }
    Ok(machine::answer(&bank, state))
}

/// Refusal 22: "record buffer not 411 bytes", which "follows" the record's
/// growth.
fn record_buffer(record: &mut [u8]) -> Result<&mut [u8; RECORD_BYTES], Refusal> {
    record.try_into().map_err(|_| Refusal::plain(22))
}

/// "Saving sets u to 0 and writes the record whole from the state that the
/// event leaves".
fn save(state: &mut State, record: &mut [u8; RECORD_BYTES]) {
    state.u = 0;
    write_record(state, record);
}

/// "Return brings back the record, takes its reading as a first reading".
fn returned(
    bank: &Bank,
    config: &Config,
    record: &[u8; RECORD_BYTES],
    power: bool,
    reading: Reading,
) -> Result<State, Refusal> {
    if power {
        return Err(Refusal::plain(24));
    }
    machine::check_reading(reading)?;
    let mut state = read_record(record);
    if !is_readable(bank, config, &state) {
        return Err(Refusal::plain(31));
    }
    machine::after_outage(bank, &mut state, reading);
    Ok(state)
}
