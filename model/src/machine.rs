//! The plain machine: what ticks, commands and the outage choices do to a
//! sound state with power on. It knows nothing of cuts or of the record.

use crate::alarms;
use crate::bank::Bank;
use crate::record::{ENDLESS_MOST, TICKS_TO_SAVE};
use crate::timer::{current_step, in_timer};
use crate::types::{
    Alarm, Answer, Command, Config, Measured, Reading, Refusal, State, Step, ENDED, PAUSED,
    RUNNING, STOPPED, TEMPERATURES,
};

/// "Fresh: power on, mode 0, p = k = r = 1, all else 0, no reading".
pub(crate) fn fresh() -> State {
    State {
        power: true,
        p: 1,
        k: 1,
        r: 1,
        ..State::OFF
    }
}

/// Set value and signals of the state.
pub(crate) fn answer(bank: &Bank, state: &State) -> Answer {
    if !in_program(state) {
        return Answer::Accepted {
            set_value: 0,
            signals: [false; 4],
        };
    }
    let step = current_step(bank, state);
    Answer::Accepted {
        set_value: set_value(bank, state),
        signals: step
            .signals
            .map(|signal| signal_is_on(bank, signal, state.e)),
    }
}

/// Whether the mode is 1 or 2, those that have a set value and signals.
fn in_program(state: &State) -> bool {
    state.mode == RUNNING || state.mode == PAUSED
}

/// "the target if T = 0 or the step is endless; else b moved toward the target
/// by |target − b| × e / T, rounded down."
fn ramp(step: &Step, b: i16, e: u32) -> i16 {
    let t = i64::from(step.seconds());
    if t == 0 || step.is_endless() {
        return step.target;
    }
    let way = i64::from(step.target) - i64::from(b);
    let moved = way.abs() * i64::from(e) / t;
    (i64::from(b) + way.signum() * moved) as i16
}

/// "Set value, modes 1 and 2": in the timer "the set value is b, also at 0
/// minutes or endless".
fn set_value(bank: &Bank, state: &State) -> i16 {
    if in_timer(bank, state) {
        state.b
    } else {
        ramp(&current_step(bank, state), state.b, state.e)
    }
}

/// "A time signal, modes 1 and 2: 5 is on; j from 1 to 4 is on while on minute
/// j ≤ e / 60 rounded down < off minute j; 0 is off."
fn signal_is_on(bank: &Bank, signal: u8, e: u32) -> bool {
    match signal {
        0 => false,
        j @ 1..=4 => {
            let j = usize::from(j) - 1;
            let (on, off) = (bank.settings.on[j], bank.settings.off[j]);
            (u32::from(on)..u32::from(off)).contains(&(e / 60))
        }
        _ => true,
    }
}

/// Refusal 25: "reading outside the temperature range".
pub(crate) fn check_reading(reading: Reading) -> Result<(), Refusal> {
    match reading {
        Reading::Value(v) if i16::try_from(v).map_or(true, |v| !TEMPERATURES.contains(&v)) => {
            Err(Refusal::plain(25))
        }
        _ => Ok(()),
    }
}

/// The measured value after a reading that has none before it.
fn first_reading(reading: Reading) -> Measured {
    match reading {
        Reading::Value(v) => Measured::Value(f64::from(v)),
        Reading::Over => Measured::Over,
        Reading::Under => Measured::Under,
    }
}

/// "Over or under replaces it. A value reading v with no y before it, or
/// F = 0, gives y = v. Otherwise y becomes y + ((v − y) × 10) / (10 + F), each
/// operation rounded once in that order, then kept within −19,999 and 29,999."
fn next_measured(measured: Measured, reading: Reading, filter: u16) -> Measured {
    match (measured, reading) {
        (Measured::Value(y), Reading::Value(v)) if filter != 0 => {
            let next = y + ((f64::from(v) - y) * 10.0) / (10.0 + f64::from(filter));
            let (least, most) = (*TEMPERATURES.start(), *TEMPERATURES.end());
            Measured::Value(next.clamp(f64::from(least), f64::from(most)))
        }
        _ => first_reading(reading),
    }
}

/// "The measured whole value is y to the nearest whole number, halves away
/// from zero."
fn measured_whole_value(measured: Measured) -> Option<i16> {
    match measured {
        Measured::Value(y) => Some(y.round() as i16),
        _ => None,
    }
}

fn distance(one: i16, other: i16) -> u32 {
    i32::from(one).abs_diff(i32::from(other))
}

/// "In zone needs a filtered value, judged by its measured whole value: within
/// the zone of the target; for zone 0, at or past the target seen from b
/// (above counts if b ≤ target, below otherwise)."
fn in_zone(zone: u16, target: i16, state: &State) -> bool {
    match measured_whole_value(state.measured) {
        None => false,
        Some(value) if zone > 0 => distance(value, target) <= u32::from(zone),
        Some(value) if state.b <= target => value >= target,
        Some(value) => value <= target,
    }
}

/// A tick, and whether it saves: it does if it "changes mode, step or pass",
/// or if it is "the tick that makes u 60".
pub(crate) fn tick(
    bank: &Bank,
    config: &Config,
    state: &mut State,
    reading: Reading,
) -> Result<bool, Refusal> {
    check_reading(reading)?;
    let before = (state.mode, state.k, state.r);
    state.measured = next_measured(state.measured, reading, bank.settings.filter);
    state.u += 1;
    if state.mode == RUNNING {
        run_one_second(bank, state);
    }
    judge_alarms(bank, config, state);
    Ok(state.u == TICKS_TO_SAVE || before != (state.mode, state.k, state.r))
}

/// "They are judged after the tick's own step, if the mode is then 1 or 2."
/// "Alarms move only on such ticks with a filtered value."
fn judge_alarms(bank: &Bank, config: &Config, state: &mut State) {
    if !in_program(state) {
        return;
    }
    if let Some(measured) = measured_whole_value(state.measured) {
        let set_value = set_value(bank, state);
        alarms::judge(config, &mut state.alarms, measured, set_value);
    }
}

/// "In mode 1 also: credit of step k gains 1, held at 4,294,967,295."
fn run_one_second(bank: &Bank, state: &mut State) {
    if let Some(credit) = state.credits.get_mut(usize::from(state.k) - 1) {
        *credit = credit.saturating_add(1);
    }
    let step = current_step(bank, state);
    if step.is_endless() {
        state.e = ENDLESS_MOST.min(state.e + 1);
        return;
    }
    let t = step.seconds();
    if state.e < t {
        state.e += 1;
    } else {
        state.w += 1;
    }
    let (zone, most_waited) = bank.settings.wait(step.wait);
    let may_leave = |state: &State| {
        step.wait == 0 || state.w >= most_waited || in_zone(zone, step.target, state)
    };
    if state.e == t && may_leave(state) {
        next(bank, state);
    }
}

/// "Next: b becomes the set value, then e = w = 0. Below the last step k
/// gains 1. At the last, if r is below the limit (runs, or 9,999 for 0), r
/// gains 1 and k = 1; otherwise mode 3."
fn next(bank: &Bank, state: &mut State) {
    let pattern = bank.pattern(state.p);
    leave_step(bank, state);
    if state.k < pattern.s {
        state.k += 1;
    } else if state.r < pattern.limit() {
        state.r += 1;
        state.k = 1;
    } else {
        end(state);
    }
}

/// "b becomes the set value, then e = w = 0"
fn leave_step(bank: &Bank, state: &mut State) {
    state.b = set_value(bank, state);
    state.e = 0;
    state.w = 0;
}

/// "Mode 3 has e = w = b = 0."
fn end(state: &mut State) {
    state.mode = ENDED;
    clear_time_and_base(state);
}

/// ""To stopped": mode 0, k = r = 1, e = w = b = 0." "A start or any move to
/// stopped clears flags and counts."
fn to_stopped(state: &mut State) {
    state.mode = STOPPED;
    state.k = 1;
    state.r = 1;
    clear_time_and_base(state);
    state.alarms = [Alarm::default(); 4];
}

fn clear_time_and_base(state: &mut State) {
    state.e = 0;
    state.w = 0;
    state.b = 0;
}

/// A command, with the refusals 26 to 30; an accepted one always saves.
pub(crate) fn command(bank: &Bank, state: &mut State, command: Command) -> Result<(), Refusal> {
    let n = i32::from(bank.settings.n);
    if matches!(command, Command::Select(q) if !(1..=n).contains(&q)) {
        return Err(Refusal::plain(26));
    }
    if !mode_is_listed(command, state.mode) {
        return Err(Refusal::plain(27));
    }
    match command {
        Command::Select(q) => {
            state.p = q as u8;
            to_stopped(state);
        }
        Command::Start => return start(bank, state),
        Command::Pause if state.mode == RUNNING => state.mode = PAUSED,
        Command::Pause => state.mode = RUNNING,
        Command::Reset => to_stopped(state),
        Command::Feed if current_step(bank, state).is_endless() => end(state),
        Command::Feed => next(bank, state),
        Command::Back => back(bank, state),
        Command::Plus => return move_time(bank, state, plus),
        Command::Minus => return move_time(bank, state, minus),
    }
    Ok(())
}

/// The column "Modes" of the commands.
fn mode_is_listed(command: Command, mode: u8) -> bool {
    match command {
        Command::Select(_) | Command::Start => mode == STOPPED || mode == ENDED,
        Command::Reset => (RUNNING..=ENDED).contains(&mode),
        _ => mode == RUNNING || mode == PAUSED,
    }
}

/// "mode 1, k = r = 1, e = w = 0, credits 0, b the measured whole value or the
/// start value by the start choice"; under start choice 0 step 1 is the timer,
/// "otherwise the run begins at step 2".
fn start(bank: &Bank, state: &mut State) -> Result<(), Refusal> {
    if bank.pattern(state.p).s == 0 {
        return Err(Refusal::plain(28));
    }
    let b = match bank.settings.start {
        0 => measured_whole_value(state.measured).ok_or(Refusal::plain(29))?,
        _ => bank.settings.start_value,
    };
    to_stopped(state);
    state.mode = RUNNING;
    state.b = b;
    state.credits.fill(0);
    if bank.settings.start == 0 && !in_timer(bank, state) {
        skip_step_1(bank, state);
    }
    Ok(())
}

/// "the run begins at step 2, with step 1 skipped in the first pass only"; "A
/// one-step pattern without the timer ends at the start with k = r = 1,
/// whatever its runs."
fn skip_step_1(bank: &Bank, state: &mut State) {
    if bank.pattern(state.p).s > 1 {
        state.k = 2;
    } else {
        end(state);
    }
}

/// "k > 1: b becomes the set value, k falls by 1, e = w = 0; k = 1: only
/// e = w = 0"
fn back(bank: &Bank, state: &mut State) {
    if state.k > 1 {
        leave_step(bank, state);
        state.k -= 1;
    } else {
        state.e = 0;
        state.w = 0;
    }
}

/// The times e and w of a step that is not endless, with their bounds.
struct StepTime {
    e: u32,
    w: u32,
    t: u32,
    most_waited: u32,
}

/// "Plus and minus never move an endless step." Refusal 30: "plus or minus
/// cannot move".
fn move_time(
    bank: &Bank,
    state: &mut State,
    moved: fn(StepTime) -> Option<(u32, u32)>,
) -> Result<(), Refusal> {
    let step = current_step(bank, state);
    let (_, most_waited) = bank.settings.wait(step.wait);
    let time = StepTime {
        e: state.e,
        w: state.w,
        t: step.seconds(),
        most_waited,
    };
    let place = if step.is_endless() { None } else { moved(time) };
    (state.e, state.w) = place.ok_or(Refusal::plain(30))?;
    Ok(())
}

/// "e < T: e + 60 if that is below T; e = T: w + 60 if that is below W"
fn plus(time: StepTime) -> Option<(u32, u32)> {
    if time.e < time.t {
        (time.e + 60 < time.t).then_some((time.e + 60, time.w))
    } else {
        (time.w + 60 < time.most_waited).then_some((time.e, time.w + 60))
    }
}

/// "e < T: e − 60 if e ≥ 60; e = T: w − 60 if w ≥ 60, else, if T ≥ 60, w = 0
/// and e = T − 60"
fn minus(time: StepTime) -> Option<(u32, u32)> {
    if time.e < time.t {
        Some((time.e.checked_sub(60)?, time.w))
    } else if time.w >= 60 {
        Some((time.e, time.w - 60))
    } else {
        Some((time.t.checked_sub(60)?, 0))
    }
}

/// What a return does to the state that it finds: its reading becomes a first
/// reading, and the outage choice applies.
pub(crate) fn after_outage(bank: &Bank, state: &mut State, reading: Reading) {
    state.measured = first_reading(reading);
    if !in_program(state) {
        return; // "Mode 0 and 3 stay."
    }
    match bank.settings.outage {
        0 => to_stopped(state),
        1 => state.mode = PAUSED,
        _ if state.mode == RUNNING && !stays_running(bank, state) => state.mode = PAUSED,
        _ => {}
    }
}

/// "Choice 2: running stays running if the width is 0 or the measured whole
/// value is within the width of the restored set value; else (over and under
/// included) paused".
fn stays_running(bank: &Bank, state: &State) -> bool {
    let width = bank.settings.width;
    let set_value = set_value(bank, state);
    width == 0
        || measured_whole_value(state.measured)
            .is_some_and(|value| distance(value, set_value) <= u32::from(width))
}
