//! One call of the library beside the same call of the model.

use crate::oracle;
use crate::report::Difference;
use crate::tally::Tally;

const GUARD: usize = 24;
const GUARD_BYTE: u8 = 0xa5;

/// A slice with guard bytes before and after it.
#[derive(Default)]
struct Guarded {
    bytes: Vec<u8>,
}

impl Guarded {
    fn fill(&mut self, slice: &[u8]) {
        self.bytes.clear();
        self.bytes.resize(GUARD, GUARD_BYTE);
        self.bytes.extend_from_slice(slice);
        self.bytes.resize(2 * GUARD + slice.len(), GUARD_BYTE);
    }

    fn end(&self) -> usize {
        self.bytes.len() - GUARD
    }

    fn slice(&self) -> &[u8] {
        &self.bytes[GUARD..self.end()]
    }

    fn slice_mut(&mut self) -> &mut [u8] {
        let end = self.end();
        &mut self.bytes[GUARD..end]
    }

    fn intact(&self) -> bool {
        let whole = |guard: &[u8]| guard.iter().all(|&byte| byte == GUARD_BYTE);
        whole(&self.bytes[..GUARD]) && whole(&self.bytes[self.end()..])
    }
}

/// A call of the library. `Write` takes its output as the record.
#[derive(Clone, Copy)]
pub enum Call<'a> {
    Check,
    Write { patterns: &'a [u8], steps: &'a [u8] },
    Make,
    Event { kind: u32, value: i32 },
    Run { events: &'a [u8] },
}

/// What a call is given. For `Write` the bank holds the settings, the record the output.
#[derive(Clone, Copy)]
pub struct Given<'a> {
    pub bank: &'a [u8],
    /// The settings beside the bank; `Check` and `Write` take none.
    pub config: &'a [u8],
    pub record: &'a [u8],
    pub state: &'a [u8],
}

impl Call<'_> {
    fn name(&self) -> &'static str {
        match self {
            Call::Check => "cook_check",
            Call::Write { .. } => "cook_write (bank is the settings, record the output)",
            Call::Make => "cook_make",
            Call::Event { .. } => "cook_event",
            Call::Run { .. } => "cook_run",
        }
    }

    fn library(&self, bank: &[u8], config: &[u8], record: &mut [u8], state: &mut [u8]) -> u64 {
        let outcome = match *self {
            Call::Check => cook::check(bank),
            Call::Write { patterns, steps } => cook::write(bank, patterns, steps, record),
            Call::Make => cook::make(bank, config, record, state),
            Call::Event { kind, value } => {
                cook::raw_event(bank, config, record, state, kind, value)
            }
            Call::Run { events } => cook::run(bank, config, record, state, events),
        };
        outcome.word()
    }

    fn model(&self, bank: &[u8], config: &[u8], record: &mut [u8], state: &mut [u8]) -> u64 {
        match *self {
            Call::Check => oracle::check(bank),
            Call::Write { patterns, steps } => oracle::write(bank, patterns, steps, record),
            Call::Make => oracle::make(bank, config, record, state),
            Call::Event { kind, value } => oracle::event(bank, config, record, state, kind, value),
            Call::Run { events } => oracle::run(bank, config, record, state, events),
        }
    }

    fn describe(&self, report: Difference) -> Difference {
        match *self {
            Call::Check | Call::Make => report,
            Call::Write { patterns, steps } => {
                report.bytes("patterns", patterns).bytes("steps", steps)
            }
            Call::Event { kind, value } => report.line("kind", kind).line("value", value),
            Call::Run { events } => report.bytes("events", events),
        }
    }
}

/// The buffers of both sides, and the counts.
#[derive(Default)]
pub struct Comparer {
    pub tally: Tally,
    bank: Guarded,
    config: Guarded,
    record: Guarded,
    state: Guarded,
    model_record: Vec<u8>,
    model_state: Vec<u8>,
}

impl Comparer {
    /// The record after the last call.
    pub fn record(&self) -> &[u8] {
        self.record.slice()
    }

    /// The state after the last call.
    pub fn state(&self) -> &[u8] {
        self.state.slice()
    }

    /// Makes a call on both sides and compares the result and every buffer.
    pub fn call(&mut self, call: Call, given: Given) -> Result<u64, Difference> {
        self.fill(given);
        let library = self.library(&call);
        let (record, state) = (&mut self.model_record, &mut self.model_state);
        let model = call.model(given.bank, given.config, record, state);
        self.count(&call, model);
        self.count_moves(&call, model, given);
        let same = library == model
            && self.record.slice() == &self.model_record[..]
            && self.state.slice() == &self.model_state[..];
        if same && self.untouched(given) {
            return Ok(library);
        }
        Err(self.difference(&call, given, library, model))
    }

    /// Calls the library alone, with its buffers guarded.
    pub fn library_alone(&mut self, call: Call, given: Given) -> Result<u64, Difference> {
        self.fill(given);
        let word = self.library(&call);
        self.count(&call, word);
        if self.untouched(given) {
            return Ok(word);
        }
        self.model_record.copy_from_slice(self.record.slice());
        self.model_state.copy_from_slice(self.state.slice());
        Err(self.difference(&call, given, word, word))
    }

    fn fill(&mut self, given: Given) {
        self.bank.fill(given.bank);
        self.config.fill(given.config);
        self.record.fill(given.record);
        self.state.fill(given.state);
        given.record.clone_into(&mut self.model_record);
        given.state.clone_into(&mut self.model_state);
    }

    fn library(&mut self, call: &Call) -> u64 {
        call.library(
            self.bank.slice(),
            self.config.slice(),
            self.record.slice_mut(),
            self.state.slice_mut(),
        )
    }

    fn untouched(&self, given: Given) -> bool {
        self.bank.slice() == given.bank
            && self.config.slice() == given.config
            && self.bank.intact()
            && self.config.intact()
            && self.record.intact()
            && self.state.intact()
    }

    fn count(&mut self, call: &Call, word: u64) {
        match call {
            Call::Check => self.tally.checks += 1,
            Call::Write { .. } => self.tally.writes += 1,
            Call::Make => self.tally.makes += 1,
            Call::Event { .. } => self.tally.events += 1,
            Call::Run { .. } => self.tally.runs += 1,
        }
        *self.tally.answers.entry(word & 0xff).or_default() += 1;
    }

    /// Counts what became of alarms and timer.
    fn count_moves(&mut self, call: &Call, word: u64, given: Given) {
        let Tally { alarms, timer, .. } = &mut self.tally;
        match call {
            Call::Check | Call::Write { .. } => (),
            _ if word & 0xff != 0 => {
                alarms.refused(word, given);
                timer.refused(word, given);
            }
            Call::Event { kind, .. } => {
                alarms.event(*kind, word, given, &self.model_state);
                timer.event(*kind, given, &self.model_state);
            }
            _ => (),
        }
    }

    fn difference(&self, call: &Call, given: Given, library: u64, model: u64) -> Difference {
        let report = Difference::new(call.name())
            .bytes("bank", given.bank)
            .bytes("config", given.config)
            .bytes("record", given.record)
            .bytes("state", given.state);
        let mut report = call
            .describe(report)
            .word("result, library", library)
            .word("result, model", model)
            .sides("record", self.record.slice(), &self.model_record)
            .sides("state", self.state.slice(), &self.model_state);
        let guards = [
            ("bank", &self.bank),
            ("config", &self.config),
            ("record", &self.record),
            ("state", &self.state),
        ];
        for (name, buffer) in guards {
            if !buffer.intact() {
                report = report.bytes(&format!("bytes around {name} touched"), &buffer.bytes);
            }
        }
        if self.bank.slice() != given.bank {
            report = report.bytes("bank changed to", self.bank.slice());
        }
        if self.config.slice() != given.config {
            report = report.bytes("config changed to", self.config.slice());
        }
        report
    }
}
