//! An example host: document 01's example bank, cooked to its end through two
//! outages, with a horn on alarm 1. It checks what it gets back against
//! documents 01 and 02 and exits with a status other than 0 if anything differs.

use std::process::ExitCode;

use cook::{AlarmKind, AlarmSetting, Config, Event, Outcome, Reading, State};

/// The alarm that the horn hangs on, from 0.
const HORN: usize = 0;

type Checked = Result<(), String>;

fn expect<T: PartialEq + std::fmt::Debug>(what: &str, got: T, due: T) -> Checked {
    if got == due {
        return Ok(());
    }
    Err(format!("{what} is {got:?} and should be {due:?}"))
}

/// One pattern, run once: to 60.0 degrees in 2 minutes, then 1 minute there.
fn write_bank() -> Result<Vec<u8>, String> {
    let mut settings = [0; cook::SETTINGS_LEN];
    settings[..3].copy_from_slice(&[1, 1, 2]); // n, start value, continue
    settings[5..7].copy_from_slice(&1000u16.to_le_bytes()); // SLH; SLL is 0
    settings[7..9].copy_from_slice(&200u16.to_le_bytes()); // start value
    let mut patterns = [0; cook::PATTERNS_LEN];
    patterns[..2].copy_from_slice(&[1, 2]); // runs, steps
    let mut steps = [0; cook::STEPS_LEN];
    for (step, minutes) in steps.chunks_exact_mut(cook::STEP_LEN).zip([2u16, 1]) {
        step[..2].copy_from_slice(&600u16.to_le_bytes());
        step[2..4].copy_from_slice(&minutes.to_le_bytes());
    }
    let mut bank = vec![0; cook::BANK_MAX];
    let outcome = cook::write(&settings, &patterns, &steps, &mut bank);
    expect("the writer's number", outcome.number(), 0)?;
    expect("the bank's length", outcome.first(), 45 + 4 + 2 + 2 * 9)?;
    bank.truncate(outcome.first().into());
    expect("the check's number", cook::check(&bank).number(), 0)?;
    Ok(bank)
}

/// The horn: 65.0 degrees or more for 4 seconds; it sounds until cleared.
fn horn() -> Config {
    let mut config = Config::default(); // no other alarm is set
    config.alarms[HORN] = AlarmSetting {
        kind: AlarmKind::MeasuredAtLeast,
        high: 650,
        delay: 3,
        hold: true,
        ..AlarmSetting::default()
    };
    config
}

struct Host {
    bank: Vec<u8>,
    config: [u8; cook::CONFIG_LEN],
    /// Retained memory: outlives a cut.
    record: [u8; cook::RECORD_LEN],
    state: [u8; cook::STATE_LEN],
    /// Whether the horn sounds.
    horn: bool,
}

impl Host {
    fn new() -> Result<Host, String> {
        let (bank, config) = (write_bank()?, horn().to_bytes());
        let (mut record, mut state) = ([0; cook::RECORD_LEN], [0; cook::STATE_LEN]);
        let outcome = cook::make(&bank, &config, &mut record, &mut state);
        expect("making's number", outcome.number(), 0)?;
        expect("the record", &record[..], &state[1..1 + cook::RECORD_LEN])?;
        Ok(Host {
            bank,
            config,
            record,
            state,
            horn: false,
        })
    }

    fn give(&mut self, event: Event) -> Outcome {
        let (record, state) = (&mut self.record, &mut self.state);
        cook::event(&self.bank, &self.config, record, state, event)
    }

    /// Turns the horn on or off as its alarm says, and prints a line if it does.
    fn sound(&mut self) -> Checked {
        let on = self.view()?.alarms[HORN].is_on();
        if on != self.horn {
            let goes = if on { "on" } else { "off" };
            println!("{:<20} the horn goes {goes}", "");
        }
        self.horn = on;
        Ok(())
    }

    fn view(&self) -> Result<State, String> {
        State::from_bytes(&self.state).ok_or_else(|| "the bytes are no state".to_string())
    }

    /// Gives an event, prints a line and checks answer, set value, k and e.
    fn show(&mut self, event: Event, due: (u8, i16, u8, u32)) -> Checked {
        let outcome = self.give(event);
        let state = self.view()?;
        let name = format!("{event:?}");
        println!(
            "{name:<20} answer {:2}  mode {}  step {}  elapsed {:3}  set value {}",
            outcome.number(),
            state.mode,
            state.k,
            state.e,
            outcome.set_value()
        );
        self.sound()?;
        let got = (outcome.number(), outcome.set_value(), state.k, state.e);
        expect(
            &format!("(answer, set value, step, elapsed) after {name}"),
            got,
            due,
        )
    }

    fn ticks(&mut self, count: usize, reading: i32) -> Checked {
        for _ in 0..count {
            expect("a tick's answer", self.give(tick(reading)).number(), 0)?;
            self.sound()?;
        }
        Ok(())
    }

    /// The first outage loses one second, the second one thirty.
    fn cook(&mut self) -> Checked {
        self.show(Event::Start, (0, 200, 1, 0))?;
        self.show(tick(200), (0, 203, 1, 1))?;
        self.show(Event::Cut, (0, 0, 0, 0))?;
        self.show(Event::Return(Reading::Value(200)), (0, 200, 1, 0))?;
        self.show(tick(200), (0, 203, 1, 1))?;
        self.ticks(118, 400)?;
        self.show(tick(600), (0, 600, 2, 0))?;
        self.ticks(30, 600)?;
        self.show(Event::Cut, (0, 0, 0, 0))?;
        self.show(tick(600), (23, 0, 0, 0))?;
        self.show(Event::Return(Reading::Value(600)), (0, 600, 2, 0))?;
        self.ticks(20, 600)?;
        self.too_hot()?;
        self.ticks(35, 600)?;
        self.show(tick(600), (0, 0, 2, 0))?;
        expect("the mode", self.view()?.mode, 3)?;
        expect("the horn after the cook", self.horn, true)?;
        self.show(Event::Reset, (0, 0, 1, 0))?;
        expect("the horn after the reset", self.horn, false)
    }

    /// Four seconds of 66.0 degrees: the first three are counted.
    fn too_hot(&mut self) -> Checked {
        for second in 1..=3 {
            self.ticks(1, 660)?;
            self.expect_horn(false, second)?;
        }
        self.show(tick(660), (0, 600, 2, 24))?;
        self.expect_horn(true, 0)
    }

    fn expect_horn(&self, sounds: bool, count: u16) -> Checked {
        let got = (self.horn, self.view()?.alarms[HORN].count);
        expect("the horn and its count", got, (sounds, count))
    }

    /// A bound above 2,999.9 degrees and a short config are refused, and nothing changes.
    fn wrong_configs(&self) -> Checked {
        let mut wrong = horn();
        wrong.alarms[HORN].high = 30_000;
        let wrong = wrong.to_bytes();
        let (mut record, mut state) = (self.record, self.state);
        let outcome = cook::make(&self.bank, &wrong, &mut record, &mut state);
        expect("the answer to a wrong setting", outcome.number(), 41)?;
        let outcome = cook::event(&self.bank, &wrong, &mut record, &mut state, Event::Start);
        expect("an event's answer to it", outcome.number(), 41)?;
        let short = &self.config[..cook::CONFIG_LEN - 1];
        let outcome = cook::make(&self.bank, short, &mut record, &mut state);
        expect("the answer to a short config", outcome.number(), 99)?;
        expect("the record", record, self.record)?;
        expect("the state", state, self.state)?;
        println!("a wrong setting is answered 41, a short config 99");
        Ok(())
    }

    fn print_credits(&self) -> Checked {
        let credits = self.view()?.credits;
        for (step, due) in [(1, 120), (2, 60)] {
            let credit = credits[step - 1];
            println!("step {step}: {credit} seconds credited");
            expect("the credit", credit, due)?;
        }
        Ok(())
    }
}

fn tick(reading: i32) -> Event {
    Event::Tick(Reading::Value(reading))
}

fn cook_it() -> Checked {
    let mut host = Host::new()?;
    host.wrong_configs()?;
    host.cook()?;
    host.print_credits()
}

fn main() -> ExitCode {
    match cook_it() {
        Ok(()) => ExitCode::SUCCESS,
        Err(message) => {
            eprintln!("example_host: {message}");
            ExitCode::FAILURE
        }
    }
}
