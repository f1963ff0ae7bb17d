//! Demand 3: what a list leaves, beside the model's replay machine.

use model::{Config, Left};

use crate::events::{list_bytes, Raw, CUT, RETURN};
use crate::held::Held;
use crate::oracle::{self, RECORD, STATE};
use crate::report::{Compared, Difference};
use crate::setup::Setup;

const POWER_OFF: u64 = 23;
const NO_READING: u64 = 25;

/// What the replay machine says of a list.
struct Due {
    word: u64,
    state: [u8; STATE],
    record: [u8; RECORD],
    credits: [u32; 99],
}

/// Whether an event is a return that refusal 25 does not meet.
fn returns((kind, value): Raw) -> bool {
    kind > RETURN || kind == RETURN && (-19_999..=29_999).contains(&value)
}

/// Power after a list.
fn power_after(list: &[Raw]) -> bool {
    let step = |power: bool, &event: &Raw| {
        if power {
            event.0 != CUT
        } else {
            returns(event)
        }
    };
    list.iter().fold(true, step)
}

/// The answer to a last event that leaves power off.
fn answer_off(list: &[Raw]) -> u64 {
    let (last, before) = list.split_last().expect("only an event turns power off");
    match (power_after(before), last.0) {
        (true, _) => 0,
        (false, kind) if kind < RETURN => POWER_OFF,
        _ => NO_READING,
    }
}

/// The record of the last save.
fn record_due(bank: &[u8], config: &Config, left: &[Left]) -> [u8; RECORD] {
    let saves = model::saves(bank, config, left);
    let saved = saves
        .iter()
        .rposition(|&saves| saves)
        .map_or(0, |last| last + 1);
    model::record_of(&model::replay(bank, config, &left[..saved]).0)
}

fn due(setup: &Setup, list: &[Raw]) -> Due {
    let (bank, config) = (&setup.bank[..], &setup.config);
    let events = oracle::events_of(&list_bytes(list)).expect("lists hold known kinds");
    let (left, power) = model::what_is_left(bank, config, &events);
    assert_eq!(power, power_after(list), "the model's power after the list");
    let record = record_due(bank, config, &left);
    if !power {
        return Due {
            word: answer_off(list),
            state: [0; STATE],
            record,
            credits: [0; 99],
        };
    }
    let (state, answer) = model::replay(bank, config, &left);
    let held = |credit: u64| credit.min(u32::MAX.into()) as u32;
    Due {
        word: oracle::answer_word(&answer),
        state: oracle::state_bytes(&state),
        record,
        credits: model::credits_due(bank, config, &left).map(held),
    }
}

/// Compares what a list left with the replay machine's word on it.
pub fn compare(setup: &Setup, list: &[Raw], held: &Held) -> Compared {
    let due = due(setup, list);
    let credits = held.credits();
    let same = held.word == due.word
        && held.state == due.state
        && held.record == due.record
        && credits == due.credits;
    if same {
        return Ok(());
    }
    let report = Difference::new("a list, against the replay machine");
    Err(setup
        .describe(report)
        .bytes("events", &list_bytes(list))
        .word("last answer, library", held.word)
        .word("last answer, replay machine", due.word)
        .sides("state", &held.state, &due.state)
        .sides("record", &held.record, &due.record)
        .line("credits, library", format_args!("{credits:?}"))
        .line("credits due", format_args!("{:?}", due.credits)))
}
