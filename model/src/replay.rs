//! The replay machine: "the plain machine without cut or record, always on; u
//! still goes to 0 at each event that would save".

use crate::bank::Bank;
use crate::machine;
use crate::types::{Answer, Command, Config, Event, Reading, Refusal, State, CREDITS, RUNNING};

/// An event left of the list, "and with each return whether power was on".
/// For any other event power was on, and the field is not looked at.
#[derive(Clone, Copy, Debug, PartialEq, Eq)]
pub struct Left {
    pub event: Event,
    pub power_was_on: bool,
}

struct ReplayMachine<'a> {
    bank: Bank<'a>,
    config: &'a Config,
    state: State,
    answer: Answer,
}

impl<'a> ReplayMachine<'a> {
    fn new(bank: &'a [u8], config: &'a Config) -> Result<Self, Refusal> {
        let bank = Bank::open(bank)?;
        config.check()?;
        let state = machine::fresh();
        Ok(Self {
            bank,
            config,
            state,
            answer: machine::answer(&bank, &state),
        })
    }

    /// Takes one event, and tells whether it saves. "Any other event, a return
    /// added with power on too, is as above, with the refusals below." A cut is
    /// never left of a list; the machine has none, so it passes over one.
    fn take(&mut self, left: &Left) -> bool {
        let (bank, state) = (&self.bank, &mut self.state);
        let acted = match left.event {
            Event::Cut => return false,
            Event::Tick(reading) => machine::tick(bank, self.config, state, reading),
            Event::Command(command) => machine::command(bank, state, command).map(|()| true),
            Event::Return(_) if left.power_was_on => Err(Refusal::plain(24)),
            Event::Return(reading) => power_returns(bank, state, reading).map(|()| true),
        };
        let saves = acted == Ok(true);
        if saves {
            state.u = 0;
        }
        self.answer = match acted {
            Ok(_) => machine::answer(bank, state),
            Err(refusal) => Answer::Refused(refusal),
        };
        saves
    }

    fn accepted(&self) -> bool {
        matches!(self.answer, Answer::Accepted { .. })
    }
}

/// "A return added with power off acts there on the state left by the event
/// before it (the fresh one if none): the reading becomes a first reading, u is
/// 0, the choices apply."
fn power_returns(bank: &Bank, state: &mut State, reading: Reading) -> Result<(), Refusal> {
    machine::check_reading(reading)?;
    machine::after_outage(bank, state, reading);
    Ok(())
}

/// What is left, as it is built, with the replay machine run over it so far.
/// What stays after a strike is a front part of what was left, so the state
/// after the last event that saves is all that the machine has to go back to.
struct Building<'a> {
    machine: ReplayMachine<'a>,
    left: Vec<Left>,
    power: bool,
    saved_length: usize,
    saved_state: State,
}

impl Building<'_> {
    fn add(&mut self, event: Event, power_was_on: bool) {
        let left = Left {
            event,
            power_was_on,
        };
        self.left.push(left);
        if self.machine.take(&left) {
            self.saved_length = self.left.len();
            self.saved_state = self.machine.state;
        }
    }

    /// "every event after the last one added that saves (all, if none does) is
    /// struck out"
    fn strike_out(&mut self) {
        self.left.truncate(self.saved_length);
        self.machine.state = self.saved_state;
    }

    /// "With power on, a cut turns it off; any other event, refused or not, is
    /// added. With power off, a return over the list's bank that refusal 25
    /// does not meet is accepted and turns it on ... then the return is added.
    /// All else is then refused and not added."
    fn take(&mut self, event: Event) {
        match event {
            Event::Cut => self.power = false,
            _ if self.power => self.add(event, true),
            Event::Return(reading) if machine::check_reading(reading).is_ok() => {
                self.power = true;
                self.strike_out();
                self.add(event, false);
            }
            _ => {}
        }
    }
}

/// "What is left is built from the front, empty at first, with power on."
/// The settings beside the bank are one for the whole list, which "keeps them
/// as it keeps its bank". Gives what is left, and whether power is on after the
/// list. Over a refused bank, or settings out of range, no controller is made:
/// nothing is left, and power is off.
pub fn what_is_left(bank: &[u8], config: &Config, events: &[Event]) -> (Vec<Left>, bool) {
    let Ok(machine) = ReplayMachine::new(bank, config) else {
        return (Vec::new(), false);
    };
    let saved_state = machine.state;
    let left = Vec::with_capacity(events.len());
    let mut building = Building {
        machine,
        left,
        power: true,
        saved_length: 0,
        saved_state,
    };
    for &event in events {
        building.take(event);
    }
    (building.left, building.power)
}

/// State and answer after the last event left, making's if nothing is left.
/// If no controller is made: the state of power off, and the refusal.
pub fn replay(bank: &[u8], config: &Config, left: &[Left]) -> (State, Answer) {
    let mut machine = match ReplayMachine::new(bank, config) {
        Ok(machine) => machine,
        Err(refusal) => return (State::OFF, Answer::Refused(refusal)),
    };
    for event in left {
        machine.take(event);
    }
    (machine.state, machine.answer)
}

/// For each event left, whether it saves. If no controller is made none does.
pub fn saves(bank: &[u8], config: &Config, left: &[Left]) -> Vec<bool> {
    match ReplayMachine::new(bank, config) {
        Ok(mut machine) => left.iter().map(|event| machine.take(event)).collect(),
        Err(_) => vec![false; left.len()],
    }
}

/// The ticks counted in each step since the last accepted start: "A tick is
/// counted in step k if it is accepted in mode 1 at k, mode and step taken as
/// before it." If no controller is made none is.
pub fn credits_due(bank: &[u8], config: &Config, left: &[Left]) -> [u64; CREDITS] {
    let mut due = [0; CREDITS];
    let Ok(mut machine) = ReplayMachine::new(bank, config) else {
        return due;
    };
    for one in left {
        let (mode, k) = (machine.state.mode, usize::from(machine.state.k));
        machine.take(one);
        match one.event {
            Event::Command(Command::Start) if machine.accepted() => due = [0; CREDITS],
            Event::Tick(_) if machine.accepted() && mode == RUNNING => due[k - 1] += 1,
            _ => {}
        }
    }
    due
}
