//! The library's five calls over slices.
//!
//! A slice's pointer is never null and its length is the slice's own, and the
//! borrow rules keep the buffers of one call apart: this is all that the
//! library asks of its callers.

use crate::{Event, Outcome};

extern "C" {
    fn cook_check(bank: *const u8, bank_len: usize) -> u64;
    fn cook_write(
        settings: *const u8,
        settings_len: usize,
        patterns: *const u8,
        patterns_len: usize,
        steps: *const u8,
        steps_len: usize,
        out: *mut u8,
        out_len: usize,
    ) -> u64;
    fn cook_make(
        bank: *const u8,
        bank_len: usize,
        config: *const u8,
        config_len: usize,
        record: *mut u8,
        record_len: usize,
        state: *mut u8,
        state_len: usize,
    ) -> u64;
    fn cook_event(
        bank: *const u8,
        bank_len: usize,
        config: *const u8,
        config_len: usize,
        record: *mut u8,
        record_len: usize,
        state: *mut u8,
        state_len: usize,
        kind: u32,
        value: i32,
    ) -> u64;
    fn cook_run(
        bank: *const u8,
        bank_len: usize,
        config: *const u8,
        config_len: usize,
        record: *mut u8,
        record_len: usize,
        state: *mut u8,
        state_len: usize,
        events: *const u8,
        events_len: usize,
    ) -> u64;
}

/// Checks a bank of any length.
pub fn check(bank: &[u8]) -> Outcome {
    Outcome::from_word(unsafe { cook_check(bank.as_ptr(), bank.len()) })
}

/// Writes a bank into `out`; accepted, the first value is its length.
///
/// `settings` has `SETTINGS_LEN` bytes, `patterns` `PATTERNS_LEN` and `steps`
/// `STEPS_LEN`, else the answer is 99. Bytes past the bank's end are untouched.
pub fn write(settings: &[u8], patterns: &[u8], steps: &[u8], out: &mut [u8]) -> Outcome {
    Outcome::from_word(unsafe {
        cook_write(
            settings.as_ptr(),
            settings.len(),
            patterns.as_ptr(),
            patterns.len(),
            steps.as_ptr(),
            steps.len(),
            out.as_mut_ptr(),
            out.len(),
        )
    })
}

/// Makes a fresh controller: its state and its record. Here and below `config`
/// is the bytes of a `Config`; another length than `CONFIG_LEN` is answered 99.
pub fn make(bank: &[u8], config: &[u8], record: &mut [u8], state: &mut [u8]) -> Outcome {
    Outcome::from_word(unsafe {
        cook_make(
            bank.as_ptr(),
            bank.len(),
            config.as_ptr(),
            config.len(),
            record.as_mut_ptr(),
            record.len(),
            state.as_mut_ptr(),
            state.len(),
        )
    })
}

/// Gives one event to a controller.
pub fn event(
    bank: &[u8],
    config: &[u8],
    record: &mut [u8],
    state: &mut [u8],
    event: Event,
) -> Outcome {
    raw_event(bank, config, record, state, event.kind(), event.value())
}

/// Gives one event by kind and value; a kind above 14 is answered 99.
pub fn raw_event(
    bank: &[u8],
    config: &[u8],
    record: &mut [u8],
    state: &mut [u8],
    kind: u32,
    value: i32,
) -> Outcome {
    Outcome::from_word(unsafe {
        cook_event(
            bank.as_ptr(),
            bank.len(),
            config.as_ptr(),
            config.len(),
            record.as_mut_ptr(),
            record.len(),
            state.as_mut_ptr(),
            state.len(),
            kind,
            value,
        )
    })
}

/// Makes a controller and gives it a list of events, `EVENT_LEN` bytes each
/// (see `list_bytes`); the outcome is the answer to the last event.
pub fn run(
    bank: &[u8],
    config: &[u8],
    record: &mut [u8],
    state: &mut [u8],
    events: &[u8],
) -> Outcome {
    Outcome::from_word(unsafe {
        cook_run(
            bank.as_ptr(),
            bank.len(),
            config.as_ptr(),
            config.len(),
            record.as_mut_ptr(),
            record.len(),
            state.as_mut_ptr(),
            state.len(),
            events.as_ptr(),
            events.len(),
        )
    })
}
