//! The timer before the first ramp, by change request 2 and its settled
//! readings.

mod common;

use common::*;
use model::{
    credits, credits_due, record_of, replay, saves, sheet, what_is_left, Alarm, AlarmSetting,
    Answer, Command, Config, Event, Left, Measured, Reading, Settings, State, Step,
};

const PAUSE: Event = Event::Command(Command::Pause);
const RESET: Event = Event::Command(Command::Reset);
const FEED: Event = Event::Command(Command::Feed);
const BACK: Event = Event::Command(Command::Back);
const PLUS: Event = Event::Command(Command::Plus);
const MINUS: Event = Event::Command(Command::Minus);

/// The settings of the sheet example under start choice 0: SLL is 0.
fn from_measured() -> Settings {
    Settings {
        start: 0,
        ..settings(1)
    }
}

/// The same with an outage choice and width.
fn with_outage(outage: u8, width: u16) -> Settings {
    Settings {
        outage,
        width,
        ..from_measured()
    }
}

/// The same with four wait pairs of this zone and 10 minutes.
fn with_waits(zone: u16) -> Settings {
    Settings {
        zones: [zone; 4],
        waits: [10; 4],
        ..from_measured()
    }
}

/// A step with wait number 1.
fn waiting(target: i16, minutes: u16) -> Step {
    Step {
        wait: 1,
        ..step(target, minutes)
    }
}

/// A bank of one pattern under start choice 0.
fn measured_bank(runs: u8, steps: &[Step]) -> Vec<u8> {
    bank(&from_measured(), &[(runs, steps)])
}

/// The timer of so many minutes, then a ramp to 600 in one minute; two passes.
fn timer_bank(minutes: u16) -> Vec<u8> {
    measured_bank(2, &[step(0, minutes), step(600, 1)])
}

/// A run started at a measured value.
fn started(bank: Vec<u8>, v: i32) -> Controller {
    started_with(bank, Config::default(), v)
}

fn started_with(bank: Vec<u8>, config: Config, v: i32) -> Controller {
    let mut controller = Controller::with(bank, config);
    controller.ticks(1, v);
    assert!(is_accepted(controller.send(START)));
    controller
}

/// Sends events, each of which is accepted, and gives the last answer.
fn send_all(controller: &mut Controller, events: &[Event]) -> Answer {
    for &event in events {
        assert!(is_accepted(controller.send(event)), "{event:?}");
    }
    controller.answer
}

type Place = (u8, u8, u16, u32, u32, i16);

/// Puts mode, k, r, e, w and b into a state.
fn placed((mode, k, r, e, w, b): Place, state: &State) -> State {
    State {
        mode,
        k,
        r,
        e,
        w,
        b,
        ..*state
    }
}

/// A controller whose live state is at a place.
fn live_at(bank: Vec<u8>, place: Place) -> Controller {
    let mut controller = Controller::new(bank);
    controller.state = placed(place, &controller.state);
    controller
}

/// A controller whose power is off, with the record of a place.
fn cut_at(bank: Vec<u8>, place: Place) -> Controller {
    let mut controller = Controller::new(bank);
    controller.record = record_of(&placed(place, &controller.state));
    assert!(is_accepted(controller.send(Event::Cut)));
    controller
}

/// Each line of the input with the line that the program prints for it.
fn sheet_prints(bank: &[u8], lines: &[(&str, &str)]) {
    let (input, expected): (Vec<&str>, Vec<&str>) = lines.iter().copied().unzip();
    let printed = String::from_utf8(sheet(bank, input.join("\n").as_bytes())).unwrap();
    let printed: Vec<&str> = printed.lines().collect();
    assert_eq!(printed, expected);
}

/// A whole run: the timer, the ramp from its value, and a second pass that is
/// plain.
#[test]
fn the_timer_holds_its_value_and_step_2_ramps_from_there() {
    let mut controller = started(timer_bank(2), 300);
    for t in 0..=360 {
        let (place, expected) = match t {
            0..120 => ((1, 1, 1, t, 0, 300), 300),
            120..180 => ((1, 2, 1, t - 120, 0, 300), 300 + 5 * (t - 120)),
            180..300 => ((1, 1, 2, t - 180, 0, 600), 600 - 5 * (t - 180)),
            300..360 => ((1, 2, 2, t - 300, 0, 0), 10 * (t - 300)),
            _ => ((3, 2, 2, 0, 0, 0), 0),
        };
        assert_eq!(controller.place(), place, "{t}");
        assert_eq!(u32::try_from(set_value(controller.answer)), Ok(expected));
        controller.ticks(1, 450);
    }
    assert_eq!(controller.state.credits[..3], [240, 120, 0]);
}

/// The start that ends at once is one under start choice 0.
#[test]
fn a_one_step_pattern_runs_its_step_under_start_choice_1() {
    let bank = bank(&settings(1), &[(5, &[step(500, 1)])]);
    sheet_prints(&bank, &[("S", "0 1 1 1 1 0 0 200")]);
    sheet_prints(
        &bank,
        &[
            ("T 300", "0 0 1 1 1 0 0 0"),
            ("S", "0 1 1 1 1 0 0 200"),
            ("T 300", "0 1 1 1 1 1 0 205"),
        ],
    );
}

/// Start choice 1 has neither timer nor skip.
#[test]
fn start_choice_1_has_no_timer() {
    let with_step_1 = |first| bank(&settings(1), &[(1, &[first, step(600, 1)])]);
    sheet_prints(
        &with_step_1(step(0, 1)),
        &[
            ("T 300", "0 0 1 1 1 0 0 0"),
            ("S", "0 1 1 1 1 0 0 200"),
            ("T 300", "0 1 1 1 1 1 0 197"),
        ],
    );
    sheet_prints(&with_step_1(step(0, 0)), &[("S", "0 1 1 1 1 0 0 0")]);
    sheet_prints(&with_step_1(step(0, 6_000)), &[("S", "0 1 1 1 1 0 0 0")]);
    sheet_prints(&with_step_1(step(500, 1)), &[("S", "0 1 1 1 1 0 0 200")]);
    // Its wait number is read as it is.
    let waits = Settings {
        start: 1,
        ..with_waits(5)
    };
    let bank = bank(&waits, &[(1, &[waiting(0, 1), step(600, 1)])]);
    let mut controller = started(bank, 900);
    controller.ticks(61, 900);
    assert_eq!(controller.place(), (1, 1, 1, 60, 1, 200));
}

/// Two patterns under start choice 0: the timer and a ramp; one step of 500.
fn two_patterns(outage: u8) -> Vec<u8> {
    let settings = Settings {
        n: 2,
        ..with_outage(outage, 0)
    };
    let first = [step(0, 1), step(600, 1)];
    bank(&settings, &[(1, &first), (5, &[step(500, 1)])])
}

/// "A one-step pattern without the timer ends at the start", and that
/// start clears and saves as any other.
#[test]
fn a_start_that_ends_at_once_clears_the_credits_and_saves() {
    for outage in 0..=2 {
        let mut controller = started(two_patterns(outage), 300);
        controller.ticks(10, 300);
        assert_eq!(controller.state.credits[0], 10);
        let select = Event::Command(Command::Select(2));
        send_all(&mut controller, &[RESET, select, tick(300)]);
        assert_eq!((controller.state.u, controller.state.credits[0]), (1, 10));
        assert_eq!(set_value(controller.send(START)), 0);
        assert_eq!(controller.place(), (3, 1, 1, 0, 0, 0));
        assert_eq!((controller.state.p, controller.state.u), (2, 0));
        assert_eq!(controller.state.credits, [0; 99]);
        assert_eq!(controller.record, record_of(&controller.state));
        let ended = controller.state;
        send_all(&mut controller, &[Event::Cut, back_with(300)]);
        assert_eq!(controller.state, ended);
    }
}

/// The same, as lines.
#[test]
fn a_start_that_ends_at_once_prints_mode_3() {
    let bank = two_patterns(2);
    let lines = [
        ("T 300", "0 0 1 1 1 0 0 0"),
        ("S", "0 1 1 1 1 0 0 300"),
        ("T 300", "0 1 1 1 1 1 0 300"),
        ("X", "0 0 1 1 1 0 0 0"),
        ("N 2", "0 0 2 1 1 0 0 0"),
        ("S", "0 3 2 1 1 0 0 0"),
        ("T 300", "0 3 2 1 1 0 0 0"),
        ("C", "0 0 0 0 0 0 0 0"),
        ("R 300", "0 3 2 1 1 0 0 0"),
        ("S", "0 3 2 1 1 0 0 0"),
        ("F", "27 3 2 1 1 0 0 0"),
        ("X", "0 0 2 1 1 0 0 0"),
    ];
    sheet_prints(&bank, &lines);
    let input: Vec<&str> = lines.iter().map(|&(line, _)| line).collect();
    let credits_after = |count: usize| credits(&bank, input[..count].join("\n").as_bytes());
    assert_eq!(credits_after(5), b"1 1\n");
    assert_eq!(credits_after(6), b"");
    assert_eq!(credits_after(9), b"");
}

/// "with k = r = 1, whatever its runs"
#[test]
fn a_start_that_ends_at_once_does_so_whatever_the_runs() {
    for runs in [0, 1, 2, 99] {
        for minutes in [0, 1, 6_000] {
            let bank = measured_bank(runs, &[step(500, minutes)]);
            let controller = started(bank, 300);
            assert_eq!(controller.place(), (3, 1, 1, 0, 0, 0));
            assert_eq!(set_value(controller.answer), 0);
        }
    }
}

/// Flags and counts of the alarms are cleared too. They are on in mode 3
/// after a run that a record brought back.
#[test]
fn a_start_that_ends_at_once_clears_the_alarms() {
    let counting = AlarmSetting {
        delay: 5,
        ..alarm(6, 500, 0)
    };
    let mut settings = config(alarm(6, 500, 0));
    settings.alarms[1] = counting;
    let mut controller = cut_at(measured_bank(1, &[step(500, 1)]), (1, 1, 1, 0, 0, 200));
    controller.config = settings;
    send_all(&mut controller, &[back_with(500), tick(500), FEED]);
    assert_eq!(controller.place(), (3, 1, 1, 0, 0, 0));
    let [on, running, ..] = controller.state.alarms;
    assert_eq!((on.flags, running.count), (1, 1));
    assert!(is_accepted(controller.send(START)));
    assert_eq!(controller.place(), (3, 1, 1, 0, 0, 0));
    assert_eq!(controller.state.alarms, [Alarm::default(); 4]);
    assert_eq!(controller.record[411..], [0; 12]);
}

/// 29 "start choice 0, no filtered value" stands, though b is not used;
/// 28 comes before it.
#[test]
fn every_start_under_start_choice_0_needs_a_filtered_value() {
    sheet_prints(
        &measured_bank(1, &[step(500, 1)]),
        &[
            ("S", "29 0 1 1 1 0 0 0"),
            ("T H", "0 0 1 1 1 0 0 0"),
            ("S", "29 0 1 1 1 0 0 0"),
            ("T 300", "0 0 1 1 1 0 0 0"),
            ("S", "0 3 1 1 1 0 0 0"),
        ],
    );
    let patterns: [&[Step]; 4] = [
        &[step(500, 1)],
        &[step(0, 1)],
        &[step(0, 6_000), step(600, 1)],
        &[step(500, 1), step(600, 1)],
    ];
    for steps in patterns {
        let mut controller = Controller::new(measured_bank(1, steps));
        refuses(&mut controller, START, 29);
        for reading in [Reading::Over, Reading::Under] {
            send_all(&mut controller, &[tick(300), Event::Tick(reading)]);
            refuses(&mut controller, START, 29);
            send_all(&mut controller, &[Event::Cut, Event::Return(reading)]);
            refuses(&mut controller, START, 29);
        }
        send_all(&mut controller, &[Event::Cut, back_with(300), START]);
    }
    let mut controller = Controller::new(measured_bank(1, &[]));
    refuses(&mut controller, START, 28);
    controller.ticks(1, 300);
    refuses(&mut controller, START, 28);
}

/// "after a back too: the set value is b", which back has just made the
/// set value of step 2.
#[test]
fn a_back_into_the_timer_holds_the_set_value_of_step_2() {
    let bank = timer_bank(1);
    sheet_prints(
        &bank,
        &[
            ("T 300", "0 0 1 1 1 0 0 0"),
            ("S", "0 1 1 1 1 0 0 300"),
            ("F", "0 1 1 2 1 0 0 300"),
            ("T 310", "0 1 1 2 1 1 0 305"),
            ("B", "0 1 1 1 1 0 0 305"),
            ("T 310", "0 1 1 1 1 1 0 305"),
        ],
    );
    let mut controller = started(bank, 300);
    send_all(&mut controller, &[FEED, tick(310), BACK]);
    assert_eq!(controller.place(), (1, 1, 1, 0, 0, 305));
    controller.ticks(59, 310);
    assert_eq!(controller.place(), (1, 1, 1, 59, 0, 305));
    controller.ticks(1, 310);
    assert_eq!(controller.place(), (1, 2, 1, 0, 0, 305));
}

/// A back within the timer: "k = 1: only e = w = 0".
#[test]
fn a_back_in_the_timer_starts_its_time_again() {
    let mut controller = started(timer_bank(2), 300);
    controller.ticks(70, 500);
    assert_eq!(set_value(controller.send(BACK)), 300);
    assert_eq!(controller.place(), (1, 1, 1, 0, 0, 300));
    assert_eq!(controller.state.credits[0], 70);
}

/// "otherwise the run begins at step 2 ... though a back from step 2 enters
/// it as a plain step".
#[test]
fn a_back_into_a_skipped_step_1_is_plain() {
    let bank = measured_bank(1, &[step(500, 1), step(600, 1)]);
    sheet_prints(
        &bank,
        &[
            ("T 300", "0 0 1 1 1 0 0 0"),
            ("S", "0 1 1 2 1 0 0 300"),
            ("T 300", "0 1 1 2 1 1 0 305"),
            ("B", "0 1 1 1 1 0 0 305"),
            ("T 300", "0 1 1 1 1 1 0 308"),
        ],
    );
    let mut controller = started(bank, 300);
    assert_eq!(controller.place(), (1, 2, 1, 0, 0, 300));
    send_all(&mut controller, &[tick(300), BACK]);
    assert_eq!(controller.place(), (1, 1, 1, 0, 0, 305));
    controller.ticks(60, 300);
    assert_eq!(controller.place(), (1, 2, 1, 0, 0, 500));
}

/// Its wait number and zone count there, and 0 minutes or endless show its
/// target.
#[test]
fn a_skipped_step_1_keeps_its_wait_number_and_its_target() {
    let with_step_1 = |first| bank(&with_waits(10), &[(1, &[first, step(600, 1)])]);
    let mut controller = started(with_step_1(waiting(500, 1)), 300);
    controller.send(BACK);
    controller.ticks(61, 489);
    assert_eq!(controller.place(), (1, 1, 1, 60, 1, 300));
    send_all(&mut controller, &[PLUS, Event::Cut, back_with(300)]);
    assert_eq!(controller.place(), (1, 1, 1, 60, 61, 300));
    controller.ticks(1, 490);
    assert_eq!(controller.place(), (1, 2, 1, 0, 0, 500));
    for minutes in [0, 6_000] {
        let mut controller = started(with_step_1(step(500, minutes)), 300);
        assert_eq!(set_value(controller.send(BACK)), 500);
    }
}

/// "with step 1 skipped in the first pass only"
#[test]
fn a_skipped_step_1_runs_from_pass_2_on() {
    let bank = measured_bank(3, &[step(500, 0), step(600, 0)]);
    sheet_prints(
        &bank,
        &[
            ("T 300", "0 0 1 1 1 0 0 0"),
            ("S", "0 1 1 2 1 0 0 600"),
            ("T 300", "0 1 1 1 2 0 0 500"),
            ("T 300", "0 1 1 2 2 0 0 600"),
            ("T 300", "0 1 1 1 3 0 0 500"),
            ("T 300", "0 1 1 2 3 0 0 600"),
            ("T 300", "0 3 1 2 3 0 0 0"),
        ],
    );
}

/// A start skips one step and no more, and runs as many passes as any other.
#[test]
fn a_skip_leaves_the_other_steps() {
    let steps = [step(500, 0), step(0, 1), step(600, 1)];
    let mut controller = started(measured_bank(1, &steps), 300);
    // Step 2 is no timer, though its target is SLL.
    assert_eq!(controller.place(), (1, 2, 1, 0, 0, 300));
    assert_eq!(set_value(controller.ticks(1, 300)), 295);
    controller.ticks(59, 300);
    assert_eq!(controller.place(), (1, 3, 1, 0, 0, 0));
    controller.ticks(60, 300);
    assert_eq!(controller.place(), (3, 3, 1, 0, 0, 0));
}

/// "The timer holds in pass 1 alone"; from pass 2 on step 1 is plain.
#[test]
fn pass_2_is_plain_at_0_minutes() {
    sheet_prints(
        &measured_bank(2, &[step(0, 0)]),
        &[
            ("T 300", "0 0 1 1 1 0 0 0"),
            ("S", "0 1 1 1 1 0 0 300"),
            ("T 300", "0 1 1 1 2 0 0 0"),
            ("T 300", "0 3 1 1 2 0 0 0"),
        ],
    );
}

/// A back never lowers r, so one in pass 2 enters a plain step.
#[test]
fn a_back_in_pass_2_enters_a_plain_step() {
    let mut controller = started(timer_bank(1), 300);
    send_all(&mut controller, &[FEED, FEED, FEED]);
    assert_eq!(controller.place(), (1, 2, 2, 0, 0, 300));
    assert_eq!(set_value(controller.send(BACK)), 300);
    assert_eq!(controller.place(), (1, 1, 2, 0, 0, 300));
    assert_eq!(set_value(controller.ticks(1, 300)), 295);
}

/// In pass 2 the wait number counts, and an endless step shows SLL.
#[test]
fn pass_2_reads_the_wait_number_and_shows_an_endless_target() {
    let steps = [waiting(0, 1), step(600, 1)];
    let mut controller = started(bank(&with_waits(5), &[(2, &steps)]), 300);
    send_all(&mut controller, &[FEED, FEED]);
    controller.ticks(61, 900);
    assert_eq!(controller.place(), (1, 1, 2, 60, 1, 300));
    controller.ticks(1, 5);
    assert_eq!(controller.place(), (1, 2, 2, 0, 0, 0));
    let mut controller = live_at(
        measured_bank(2, &[step(0, 6_000)]),
        (1, 1, 2, 359_999, 0, 300),
    );
    assert_eq!(set_value(controller.send(tick(300))), 0);
}

/// A one-step pattern with the timer runs: the timer first, then the other
/// passes.
#[test]
fn a_one_step_pattern_with_the_timer_runs() {
    let mut once = started(measured_bank(1, &[step(0, 1)]), 300);
    assert_eq!(set_value(once.ticks(59, 300)), 300);
    assert_eq!(once.place(), (1, 1, 1, 59, 0, 300));
    once.ticks(1, 300);
    assert_eq!(once.place(), (3, 1, 1, 0, 0, 0));
    let mut thrice = started(measured_bank(3, &[step(0, 1)]), 300);
    thrice.ticks(60, 300);
    assert_eq!(thrice.place(), (1, 1, 2, 0, 0, 300));
    assert_eq!(set_value(thrice.ticks(1, 300)), 295);
    thrice.ticks(59, 300);
    assert_eq!(thrice.place(), (1, 1, 3, 0, 0, 0));
    thrice.ticks(60, 300);
    assert_eq!(thrice.place(), (3, 1, 3, 0, 0, 0));
    assert_eq!(thrice.state.credits[0], 180);
}

/// The timer of 1 minute with wait number 1 of 10 minutes; two passes.
fn waiting_timer() -> Vec<u8> {
    let steps = [waiting(0, 1), step(600, 1)];
    bank(&with_waits(5), &[(2, &steps)])
}

/// "the wait number is read as 0" in the record too, so that w is 0.
#[test]
fn refusal_31_is_for_a_record_that_waits_in_the_timer() {
    for mode in [1, 2] {
        for w in [1, 5, 599] {
            let mut controller = cut_at(waiting_timer(), (mode, 1, 1, 60, w, 300));
            assert!(!controller.readable());
            refuses(&mut controller, back_with(300), 31);
            let place = (mode, 1, 2, 60, w, 300);
            let mut controller = cut_at(waiting_timer(), place);
            assert!(controller.readable());
            send_all(&mut controller, &[back_with(300)]);
            assert_eq!(controller.place(), place);
        }
        for (e, readable) in [(0, true), (59, true), (60, true), (61, false)] {
            let controller = cut_at(waiting_timer(), (mode, 1, 1, e, 0, 300));
            assert_eq!(controller.readable(), readable, "{e}");
        }
    }
}

/// The same for a live state.
#[test]
fn refusal_21_is_for_a_state_that_waits_in_the_timer() {
    for mode in [1, 2] {
        for w in [1, 5, 599] {
            let mut controller = live_at(waiting_timer(), (mode, 1, 1, 60, w, 300));
            assert!(!controller.sound());
            refuses(&mut controller, tick(300), 21);
            refuses(&mut controller, RESET, 21);
            let mut controller = live_at(waiting_timer(), (mode, 1, 2, 60, w, 300));
            assert!(controller.sound());
            send_all(&mut controller, &[tick(300)]);
        }
        let mut controller = live_at(waiting_timer(), (mode, 1, 1, 61, 0, 300));
        refuses(&mut controller, tick(300), 21);
        let endless = || measured_bank(1, &[waiting(0, 6_000), step(600, 1)]);
        for (e, w, sound) in [(359_999, 0, true), (360_000, 0, false), (5, 1, false)] {
            let controller = live_at(endless(), (mode, 1, 1, e, w, 300));
            assert_eq!(controller.sound(), sound, "{e} {w}");
        }
    }
}

/// Plus and minus at e = T, where the timer has nothing to wait for.
#[test]
fn plus_cannot_move_the_timer_at_its_end_and_minus_can() {
    for mode in [1, 2] {
        let mut controller = live_at(waiting_timer(), (mode, 1, 1, 60, 0, 300));
        refuses(&mut controller, PLUS, 30);
        assert_eq!(set_value(controller.send(MINUS)), 300);
        assert_eq!(controller.place(), (mode, 1, 1, 0, 0, 300));
        let mut controller = live_at(waiting_timer(), (mode, 1, 2, 60, 0, 300));
        send_all(&mut controller, &[PLUS]);
        assert_eq!(controller.place(), (mode, 1, 2, 60, 60, 300));
    }
}

/// A tick at e = T leaves the timer, whatever the zone.
#[test]
fn a_tick_at_the_end_of_the_timer_leaves_it() {
    let mut controller = live_at(waiting_timer(), (1, 1, 1, 60, 0, 300));
    controller.ticks(1, 900);
    assert_eq!(controller.place(), (1, 2, 1, 0, 0, 300));
    assert_eq!(controller.state.credits[..2], [1, 0]);
    let mut paused = live_at(waiting_timer(), (2, 1, 1, 60, 0, 300));
    assert_eq!(set_value(paused.ticks(9, 900)), 300);
    assert_eq!(paused.place(), (2, 1, 1, 60, 0, 300));
}

/// Refusal 30 in the timer: within its time plus and minus move whole minutes,
/// and the set value stays.
#[test]
fn refusal_30_is_for_a_plus_or_minus_that_cannot_move_the_timer() {
    let steps = [waiting(0, 2), step(600, 1)];
    let mut controller = started(bank(&with_waits(5), &[(2, &steps)]), 300);
    refuses(&mut controller, MINUS, 30);
    assert_eq!(set_value(controller.send(PLUS)), 300);
    assert_eq!(controller.place(), (1, 1, 1, 60, 0, 300));
    refuses(&mut controller, PLUS, 30);
    assert_eq!(set_value(controller.send(MINUS)), 300);
    assert_eq!(controller.place(), (1, 1, 1, 0, 0, 300));
    assert_eq!(controller.state.credits[0], 0);
    controller.ticks(59, 300);
    send_all(&mut controller, &[PLUS]);
    assert_eq!(controller.place(), (1, 1, 1, 119, 0, 300));
    controller.ticks(1, 300);
    assert_eq!(controller.place(), (1, 2, 1, 0, 0, 300));
    assert_eq!(controller.state.credits[0], 60);
    for minutes in [0, 6_000] {
        let steps = [waiting(0, minutes), step(600, 1)];
        let mut controller = started(bank(&with_waits(5), &[(2, &steps)]), 300);
        refuses(&mut controller, PLUS, 30);
        refuses(&mut controller, MINUS, 30);
    }
}

/// "step 1 waits its time", and not for its zone.
#[test]
fn the_timer_does_not_wait_for_its_zone() {
    for v in [900, 0, 300] {
        let mut controller = started(waiting_timer(), 300);
        controller.ticks(59, v);
        assert_eq!(controller.place(), (1, 1, 1, 59, 0, 300));
        controller.ticks(1, v);
        assert_eq!(controller.place(), (1, 2, 1, 0, 0, 300));
        assert_eq!(controller.state.u, 0);
        assert_eq!(controller.record, record_of(&controller.state));
    }
    let mut controller = started(waiting_timer(), 300);
    for _ in 0..60 {
        send_all(&mut controller, &[Event::Tick(Reading::Over)]);
    }
    assert_eq!(controller.place(), (1, 2, 1, 0, 0, 300));
}

/// After a back too, as often as it is entered.
#[test]
fn the_timer_entered_by_a_back_does_not_wait_for_its_zone() {
    let mut controller = started(waiting_timer(), 300);
    send_all(&mut controller, &[FEED, tick(900), BACK]);
    controller.ticks(60, 900);
    assert_eq!(controller.place(), (1, 2, 1, 0, 0, 305));
    send_all(&mut controller, &[BACK]);
    controller.ticks(60, 900);
    assert_eq!(controller.place(), (1, 2, 1, 0, 0, 305));
}

/// "the set value is b, also at 0 minutes"; such a timer takes one tick.
#[test]
fn a_timer_of_0_minutes_holds_b_for_one_tick() {
    sheet_prints(
        &timer_bank(0),
        &[
            ("T 300", "0 0 1 1 1 0 0 0"),
            ("S", "0 1 1 1 1 0 0 300"),
            ("P", "0 2 1 1 1 0 0 300"),
            ("T 310", "0 2 1 1 1 0 0 300"),
            ("P", "0 1 1 1 1 0 0 300"),
            ("T 310", "0 1 1 2 1 0 0 300"),
            ("T 310", "0 1 1 2 1 1 0 305"),
            ("B", "0 1 1 1 1 0 0 305"),
            ("T 310", "0 1 1 2 1 0 0 305"),
        ],
    );
    let mut controller = started(timer_bank(0), 300);
    controller.ticks(1, 310);
    assert_eq!(controller.place(), (1, 2, 1, 0, 0, 300));
    assert_eq!(controller.state.credits[..2], [1, 0]);
    // Its wait number, of 10 minutes, is read as 0.
    let steps = [waiting(0, 0), step(600, 1)];
    let mut controller = started(bank(&with_waits(5), &[(2, &steps)]), 300);
    controller.ticks(1, 900);
    assert_eq!(controller.place(), (1, 2, 1, 0, 0, 300));
}

/// "also at ... endless"; it is never left by itself, and feed's rule is
/// "mode 3 if endless".
#[test]
fn an_endless_timer_holds_b_until_it_is_fed() {
    let bank = measured_bank(5, &[waiting(0, 6_000), step(600, 1)]);
    sheet_prints(
        &bank,
        &[
            ("T 300", "0 0 1 1 1 0 0 0"),
            ("S", "0 1 1 1 1 0 0 300"),
            ("T 310", "0 1 1 1 1 1 0 300"),
            ("+", "30 1 1 1 1 1 0 300"),
            ("-", "30 1 1 1 1 1 0 300"),
            ("B", "0 1 1 1 1 0 0 300"),
            ("F", "0 3 1 1 1 0 0 0"),
        ],
    );
    let mut controller = started(bank, 300);
    controller.state.e = 359_998;
    assert_eq!(set_value(controller.ticks(3, 310)), 300);
    assert_eq!(controller.place(), (1, 1, 1, 359_999, 0, 300));
    refuses(&mut controller, PLUS, 30);
    refuses(&mut controller, MINUS, 30);
    send_all(&mut controller, &[PAUSE, FEED]);
    assert_eq!(controller.place(), (3, 1, 1, 0, 0, 0));
}

/// "held at the measured value of the start", which is whole, and may lie
/// outside SLL and SLH.
#[test]
fn the_timer_holds_the_measured_whole_value_of_the_start() {
    let filtering = Settings {
        filter: 10,
        ..from_measured()
    };
    for (first, second, y, b) in [(100, 101, 100.5, 101), (-100, -101, -100.5, -101)] {
        for (target, k) in [(0, 1), (500, 2)] {
            let steps = [step(target, 1), step(600, 1)];
            let mut controller = Controller::new(bank(&filtering, &[(1, &steps)]));
            send_all(&mut controller, &[tick(first), tick(second), START]);
            assert_eq!(controller.state.measured, Measured::Value(y));
            assert_eq!(controller.place(), (1, k, 1, 0, 0, b));
            assert_eq!(set_value(controller.answer), b);
        }
    }
    for v in [-19_999, -500, -1, 0, 1, 1_000, 1_001, 29_999] {
        let mut controller = started(timer_bank(1), v);
        assert_eq!(i32::from(set_value(controller.answer)), v);
        assert_eq!(i32::from(set_value(controller.ticks(59, 450))), v);
        controller.ticks(1, 450);
        assert_eq!(controller.place(), (1, 2, 1, 0, 0, v as i16));
    }
    let mut controller = started(timer_bank(0), -500);
    assert_eq!(set_value(controller.ticks(2, 0)), -482);
}

/// "if step 1's target equals SLL", whatever SLL is.
#[test]
fn the_timer_needs_the_target_to_equal_sll() {
    for (sll, slh) in [(-19_999, 29_999), (-300, 300), (0, 1_000), (7, 8)] {
        let settings = Settings {
            sll,
            slh,
            start_value: sll,
            ..from_measured()
        };
        for (target, k) in [(sll, 1), (sll + 1, 2), (slh, 2)] {
            let steps = [step(target, 1), step(sll, 1)];
            let controller = started(bank(&settings, &[(1, &steps)]), 5);
            assert_eq!(controller.place(), (1, k, 1, 0, 0, 5), "{target}");
        }
    }
}

/// Each pattern has its own step 1.
#[test]
fn the_timer_is_that_of_the_selected_pattern() {
    let settings = Settings {
        n: 3,
        ..from_measured()
    };
    let ramps = [step(500, 1), step(600, 1)];
    let timer = [step(0, 1), step(600, 1)];
    let bank = bank(&settings, &[(1, &ramps), (1, &timer), (1, &ramps)]);
    sheet_prints(
        &bank,
        &[
            ("T 300", "0 0 1 1 1 0 0 0"),
            ("S", "0 1 1 2 1 0 0 300"),
            ("X", "0 0 1 1 1 0 0 0"),
            ("N 2", "0 0 2 1 1 0 0 0"),
            ("S", "0 1 2 1 1 0 0 300"),
            ("T 310", "0 1 2 1 1 1 0 300"),
            ("X", "0 0 2 1 1 0 0 0"),
            ("N 3", "0 0 3 1 1 0 0 0"),
            ("S", "0 1 3 2 1 0 0 310"),
        ],
    );
}

/// Choice 2 compares with b, "the restored set value".
#[test]
fn a_return_into_the_timer_compares_with_b() {
    let steps = [step(0, 1), step(600, 1)];
    let bank = bank(&with_outage(2, 10), &[(1, &steps)]);
    let lines = [
        ("T 305", "0 0 1 1 1 0 0 0"),
        ("S", "0 1 1 1 1 0 0 305"),
        ("C", "0 0 0 0 0 0 0 0"),
        ("R 305", "0 1 1 1 1 0 0 305"),
        ("C", "0 0 0 0 0 0 0 0"),
        ("R 320", "0 2 1 1 1 0 0 305"),
        ("T 320", "0 2 1 1 1 0 0 305"),
        ("P", "0 1 1 1 1 0 0 305"),
        ("T 320", "0 1 1 1 1 1 0 305"),
    ];
    sheet_prints(&bank, &lines);
}

/// Neither with the target nor with a ramp towards it.
#[test]
fn a_return_into_the_timer_looks_at_no_ramp() {
    for (minutes, e) in [(0, 0), (2, 60), (2, 120), (6_000, 60)] {
        for (v, mode) in [
            (305, 1),
            (295, 1),
            (315, 1),
            (294, 2),
            (316, 2),
            (0, 2),
            (153, 2),
        ] {
            let steps = [step(0, minutes), step(600, 1)];
            let bank = bank(&with_outage(2, 10), &[(1, &steps)]);
            let mut controller = cut_at(bank, (1, 1, 1, e, 0, 305));
            assert_eq!(set_value(controller.send(back_with(v))), 305);
            assert_eq!(controller.place(), (mode, 1, 1, e, 0, 305), "{v}");
        }
    }
}

/// Mode, place and set value after a return into a timer of 3 minutes, of which
/// 60 seconds are saved and 5 are not.
fn after_return(outage: u8, width: u16, reading: Reading, paused: bool) -> (Place, i16) {
    let steps = [step(0, 3), step(600, 1)];
    let bank = bank(&with_outage(outage, width), &[(1, &steps)]);
    let mut controller = started(bank, 305);
    controller.ticks(60, 305);
    if paused {
        send_all(&mut controller, &[PAUSE]);
    }
    controller.ticks(5, 305);
    let answer = send_all(&mut controller, &[Event::Cut, Event::Return(reading)]);
    assert_eq!(controller.state.credits[0], 60);
    assert_eq!(controller.state.u, 0);
    assert_eq!(controller.record, record_of(&controller.state));
    (controller.place(), set_value(answer))
}

/// Choice 0 stops it, choice 1 pauses it, and choice 2 goes by b.
#[test]
fn outages_in_the_timer_under_each_outage_choice() {
    let value = Reading::Value;
    let timer_in = |mode| ((mode, 1, 1, 60, 0, 305), 305);
    let stopped = ((0, 1, 1, 0, 0, 0), 0);
    for (width, reading) in [(0, value(305)), (10, value(900)), (10, Reading::Over)] {
        for paused in [false, true] {
            assert_eq!(after_return(0, width, reading, paused), stopped);
            assert_eq!(after_return(1, width, reading, paused), timer_in(2));
        }
        assert_eq!(after_return(2, width, reading, true), timer_in(2));
    }
    for (width, reading, mode) in [
        (0, value(900), 1),
        (0, Reading::Over, 1),
        (10, value(305), 1),
        (10, value(315), 1),
        (10, value(316), 2),
        (10, value(203), 2),
        (10, value(0), 2),
        (10, Reading::Over, 2),
        (29_999, Reading::Under, 2),
        (29_999, value(29_999), 1),
    ] {
        assert_eq!(after_return(2, width, reading, false), timer_in(mode));
    }
}

/// The timer goes on after an outage, and step 2 ramps from the value of the
/// start, not from the return's.
#[test]
fn the_timer_goes_on_after_an_outage() {
    for outage in [1, 2] {
        let steps = [waiting(0, 2), step(600, 1)];
        let settings = Settings {
            outage,
            ..with_waits(5)
        };
        let mut controller = started(bank(&settings, &[(1, &steps)]), 305);
        controller.ticks(65, 305);
        send_all(&mut controller, &[Event::Cut, back_with(900)]);
        if outage == 1 {
            send_all(&mut controller, &[PAUSE]);
        }
        assert_eq!(set_value(controller.ticks(59, 900)), 305);
        assert_eq!(controller.place(), (1, 1, 1, 119, 0, 305));
        controller.ticks(1, 900);
        assert_eq!(controller.place(), (1, 2, 1, 0, 0, 305));
        assert_eq!(controller.state.credits[..2], [120, 0]);
    }
}

/// Positions that no start reaches stay readable, and run as plain steps.
#[test]
fn positions_that_no_start_reaches_are_readable() {
    let patterns: [&[Step]; 2] = [&[waiting(500, 1)], &[waiting(500, 1), step(600, 1)]];
    for steps in patterns {
        let bank = || bank(&with_waits(5), &[(3, steps)]);
        for place in [
            (1, 1, 1, 30, 0, 200),
            (2, 1, 1, 30, 0, 200),
            (1, 1, 3, 30, 0, 200),
            (2, 1, 1, 60, 599, 200),
            (3, 1, 1, 0, 0, 0),
            (3, 1, 3, 0, 0, 0),
        ] {
            let mut controller = cut_at(bank(), place);
            assert!(controller.readable());
            send_all(&mut controller, &[back_with(200)]);
            assert_eq!(controller.place(), place);
            assert!(controller.sound());
        }
        let mut controller = cut_at(bank(), (1, 1, 1, 30, 0, 200));
        assert_eq!(set_value(controller.send(back_with(200))), 350);
        assert_eq!(set_value(controller.ticks(1, 200)), 355);
        controller.ticks(30, 200);
        assert_eq!(controller.place(), (1, 1, 1, 60, 1, 200));
        controller.ticks(1, 500);
        let (k, r) = if steps.len() == 1 { (1, 2) } else { (2, 1) };
        assert_eq!(controller.place(), (1, k, r, 0, 0, 500));
    }
}

/// The start choice is the bank's at each call, however the run began.
#[test]
fn the_state_does_not_remember_how_the_run_began() {
    let steps = [step(0, 2), step(600, 1)];
    let (timer, plain) = (
        bank(&from_measured(), &[(1, &steps)]),
        bank(&settings(1), &[(1, &steps)]),
    );
    let mut controller = started(plain.clone(), 300);
    assert_eq!(set_value(controller.ticks(30, 300)), 150);
    controller.bank.clone_from(&timer);
    assert_eq!(set_value(controller.ticks(1, 300)), 200);
    let mut controller = started(timer.clone(), 300);
    assert_eq!(set_value(controller.ticks(30, 300)), 300);
    controller.bank.clone_from(&plain);
    assert_eq!(set_value(controller.ticks(1, 300)), 223);
    // A return finds the record of the one under the other.
    send_all(&mut controller, &[PAUSE, Event::Cut]);
    controller.bank.clone_from(&timer);
    assert_eq!(set_value(controller.send(back_with(300))), 300);
}

/// A record that waits is readable under the one start choice only.
#[test]
fn readable_goes_by_the_start_choice_of_the_bank() {
    let mut controller = cut_at(waiting_timer(), (2, 1, 1, 60, 5, 300));
    refuses(&mut controller, back_with(300), 31);
    controller.bank[1] = 1;
    send_all(&mut controller, &[back_with(300)]);
    assert_eq!(controller.place(), (2, 1, 1, 60, 5, 300));
    controller.bank[1] = 0;
    refuses(&mut controller, PAUSE, 21);
}

/// "Credits after outages count timer seconds under step 1."
#[test]
fn credits_after_outages_count_timer_seconds_under_step_1() {
    let mut controller = started(timer_bank(3), 300);
    let credits = |controller: &Controller| {
        let [one, two, rest @ ..] = controller.state.credits;
        assert_eq!(rest, [0; 97]);
        (one, two)
    };
    controller.ticks(65, 300);
    assert_eq!(credits(&controller), (65, 0));
    send_all(&mut controller, &[Event::Cut, back_with(300)]);
    assert_eq!(credits(&controller), (60, 0));
    controller.ticks(10, 300);
    send_all(&mut controller, &[PAUSE]);
    controller.ticks(5, 300);
    send_all(&mut controller, &[Event::Cut, back_with(300)]);
    assert_eq!(credits(&controller), (70, 0));
    send_all(&mut controller, &[PAUSE]);
    controller.ticks(110, 300);
    assert_eq!(controller.place(), (1, 2, 1, 0, 0, 300));
    send_all(&mut controller, &[Event::Cut, back_with(300)]);
    assert_eq!(credits(&controller), (180, 0));
    controller.ticks(1, 300);
    send_all(&mut controller, &[BACK, tick(300), PLUS]);
    assert_eq!(credits(&controller), (181, 1));
    send_all(&mut controller, &[Event::Cut, back_with(300), RESET]);
    assert_eq!(credits(&controller), (181, 1));
    send_all(&mut controller, &[START]);
    assert_eq!(credits(&controller), (0, 0));
}

/// The same, as the program `credits` prints it.
#[test]
fn credits_of_the_timer_are_printed_under_step_1() {
    let printed = |ticks: usize, rest: &str| {
        let ticks = "T 300\n".repeat(ticks);
        let input = format!("T 300\nS\n{ticks}{rest}");
        String::from_utf8(credits(&timer_bank(2), input.as_bytes())).unwrap()
    };
    assert_eq!(printed(65, ""), "1 65\n");
    assert_eq!(printed(65, "C\nR 300\n"), "1 60\n");
    assert_eq!(printed(65, "C\nR 300\nT 300\n"), "1 61\n");
    assert_eq!(printed(125, "C\nR 300\n"), "1 120\n");
    assert_eq!(printed(125, "P\nC\nR 300\n"), "1 120\n2 5\n");
}

/// A skipped step 1 has no credit unless a back enters it.
#[test]
fn a_skipped_step_1_has_no_credit() {
    let bank = measured_bank(1, &[step(500, 1), step(600, 2)]);
    let mut controller = started(bank, 300);
    controller.ticks(65, 300);
    send_all(&mut controller, &[Event::Cut, back_with(300)]);
    assert_eq!(controller.state.credits[..2], [0, 60]);
    send_all(&mut controller, &[BACK, tick(300), tick(300)]);
    assert_eq!(controller.state.credits[..2], [2, 60]);
    send_all(&mut controller, &[PAUSE, Event::Cut, back_with(300)]);
    assert_eq!(controller.state.credits[..2], [2, 60]);
}

fn signals(answer: Answer) -> [bool; 4] {
    match answer {
        Answer::Accepted { signals, .. } => signals,
        Answer::Refused(refusal) => panic!("refused: {refusal:?}"),
    }
}

/// The signals of the timer are step 1's, by e, as usual.
#[test]
fn signals_in_the_timer_are_those_of_step_1() {
    let settings = Settings {
        on: [0, 1, 0, 5],
        off: [1, 2, 0, 5],
        ..from_measured()
    };
    let signalled = |target| Step {
        signals: [1, 2, 3, 5],
        ..step(target, 3)
    };
    let timer = [signalled(0), step(600, 1)];
    let mut controller = started(bank(&settings, &[(1, &timer)]), 300);
    assert_eq!(signals(controller.answer), [true, false, false, true]);
    assert_eq!(signals(controller.ticks(59, 0)), [true, false, false, true]);
    assert_eq!(signals(controller.ticks(1, 0)), [false, true, false, true]);
    assert_eq!(signals(controller.send(PAUSE)), [false, true, false, true]);
    assert_eq!(signals(controller.send(PAUSE)), [false, true, false, true]);
    assert_eq!(
        signals(controller.ticks(60, 0)),
        [false, false, false, true]
    );
    assert_eq!(signals(controller.ticks(60, 0)), [false; 4]);
    assert_eq!(controller.place(), (1, 2, 1, 0, 0, 300));
    // A start that skips step 1 shows the signals of step 2.
    let skipped = [step(500, 1), signalled(600)];
    let mut controller = started(bank(&settings, &[(1, &skipped)]), 300);
    assert_eq!(signals(controller.answer), [true, false, false, true]);
    assert_eq!(signals(controller.send(BACK)), [false; 4]);
    // One that ends at once shows none.
    let controller = started(bank(&settings, &[(1, &[signalled(500)])]), 300);
    assert_eq!(signals(controller.answer), [false; 4]);
}

/// "Modes 0 and 3: 0", timer or not.
#[test]
fn the_set_value_of_modes_0_and_3_is_0() {
    let mut controller = Controller::new(timer_bank(6_000));
    assert_eq!(set_value(controller.answer), 0);
    assert_eq!(set_value(controller.ticks(1, 300)), 0);
    assert_eq!(set_value(controller.send(START)), 300);
    assert_eq!(set_value(controller.send(FEED)), 0);
    assert_eq!(controller.place(), (3, 1, 1, 0, 0, 0));
    assert_eq!(set_value(controller.ticks(1, 300)), 0);
    assert_eq!(set_value(controller.send(START)), 300);
    assert_eq!(set_value(controller.send(RESET)), 0);
    assert_eq!(controller.place(), (0, 1, 1, 0, 0, 0));
}

/// "Taking a fed step's target for the new base" would give SLL.
#[test]
fn a_fed_timer_leaves_its_value_as_base() {
    for mode in [1, 2] {
        for minutes in [0, 2] {
            let mut controller = live_at(timer_bank(minutes), (mode, 1, 1, 0, 0, 300));
            assert_eq!(set_value(controller.send(FEED)), 300);
            assert_eq!(controller.place(), (mode, 2, 1, 0, 0, 300));
        }
        let once = measured_bank(1, &[step(0, 2)]);
        let mut controller = live_at(once, (mode, 1, 1, 5, 0, 300));
        assert_eq!(set_value(controller.send(FEED)), 0);
        assert_eq!(controller.place(), (3, 1, 1, 0, 0, 0));
    }
}

/// Flags of alarm 1 after each reading of a run started at 300.
fn flags_after(bank: Vec<u8>, alarm: AlarmSetting, readings: &[i32]) -> Vec<u8> {
    let mut controller = started_with(bank, config(alarm), 300);
    let after = |&v| {
        controller.ticks(1, v);
        controller.alarm().0
    };
    readings.iter().map(after).collect()
}

/// "Kinds 1–4 judge the measured whole value less the set value", which is b in
/// the timer; 5–8 are as ever.
#[test]
fn alarms_in_the_timer_are_judged_by_b() {
    let readings = [300, 304, 305, 295, 294, 0, 299];
    let expected: [(AlarmSetting, [u8; 7]); 6] = [
        (alarm(1, 5, -6), [0, 0, 1, 0, 1, 1, 0]),
        (alarm(2, 5, 0), [0, 0, 1, 0, 0, 0, 0]),
        (alarm(3, 0, -6), [0, 0, 0, 0, 1, 1, 0]),
        (alarm(4, 5, -5), [1, 1, 1, 1, 0, 0, 1]),
        (alarm(6, 305, 0), [0, 0, 1, 0, 0, 0, 0]),
        (alarm(7, 0, 294), [0, 0, 0, 0, 1, 1, 0]),
    ];
    for (setting, expected) in expected {
        for minutes in [1, 5_999, 6_000] {
            let flags = flags_after(timer_bank(minutes), setting, &readings);
            assert_eq!(flags, expected, "kind {}", setting.kind);
        }
    }
}

/// A paused timer of 0 minutes is judged by b too, and so is one after a back.
#[test]
fn alarms_in_a_paused_timer_of_0_minutes_are_judged_by_b() {
    let mut controller = started_with(timer_bank(0), config(alarm(2, 5, 0)), 300);
    send_all(&mut controller, &[PAUSE]);
    for (v, flags) in [(304, 0), (305, 1), (304, 0)] {
        controller.ticks(1, v);
        assert_eq!(controller.alarm(), (flags, 0));
    }
    send_all(&mut controller, &[FEED, PAUSE, tick(309), BACK, PAUSE]);
    assert_eq!(controller.place(), (2, 1, 1, 0, 0, 305));
    for (v, flags) in [(309, 0), (310, 1)] {
        controller.ticks(1, v);
        assert_eq!(controller.alarm(), (flags, 0));
    }
}

/// "judged after the tick's own step": on the tick that leaves the timer by the
/// set value of the step that follows.
#[test]
fn the_tick_that_leaves_the_timer_judges_by_the_next_set_value() {
    let at_once = measured_bank(1, &[step(0, 0), step(600, 0)]);
    assert_eq!(flags_after(at_once, alarm(3, 0, -300), &[300]), [1]);
    let ramp = timer_bank(0);
    assert_eq!(
        flags_after(ramp, alarm(3, 0, -5), &[296, 300, 304]),
        [0, 1, 1]
    );
    let second_pass = measured_bank(2, &[step(0, 0)]);
    assert_eq!(flags_after(second_pass, alarm(2, 300, 0), &[300]), [1]);
}

/// A start clears flags and counts whether it begins in the timer, behind it or
/// ends at once, and standby waits for its false tick again.
#[test]
fn every_start_clears_the_alarms() {
    let standby = AlarmSetting {
        flags: STANDBY,
        ..alarm(2, 5, 0)
    };
    for steps in [
        [step(0, 6_000), step(600, 1)],
        [step(500, 1), step(300, 6_000)],
    ] {
        let mut controller = started_with(measured_bank(1, &steps), config(standby), 300);
        let mut flags = Vec::new();
        for event in [tick(305), tick(304), tick(305), FEED, tick(100), START] {
            send_all(&mut controller, &[event]);
            flags.push(controller.alarm().0);
        }
        assert_eq!(flags, [0, 2, 3, 3, 3, 0]);
    }
}

fn was_on(event: Event) -> Left {
    Left {
        event,
        power_was_on: true,
    }
}

fn was_off(event: Event) -> Left {
    Left {
        event,
        power_was_on: false,
    }
}

/// What is left of a list, after the whole claim for it.
fn left_of(bank: &[u8], events: &[Event]) -> Vec<Left> {
    let config = Config::default();
    let mut controller = Controller::new(bank.to_vec());
    for &event in events {
        controller.send(event);
    }
    let (left, power) = what_is_left(bank, &config, events);
    assert!(power);
    assert_eq!(
        replay(bank, &config, &left),
        (controller.state, controller.answer)
    );
    let due = credits_due(bank, &config, &left);
    assert_eq!(due, controller.state.credits.map(u64::from));
    left
}

/// An outage in the timer: the seconds since the start are struck out, and the
/// return acts on the timer.
#[test]
fn the_replay_machine_returns_into_the_timer() {
    let config = Config::default();
    let steps = [step(0, 2), step(600, 1)];
    let place_after = [
        (0, 305, (0, 1, 1, 0, 0, 0)),
        (1, 305, (2, 1, 1, 0, 0, 300)),
        (2, 310, (1, 1, 1, 1, 0, 300)),
        (2, 311, (2, 1, 1, 0, 0, 300)),
        (2, 0, (2, 1, 1, 0, 0, 300)),
    ];
    for (outage, v, place) in place_after {
        let bank = bank(&with_outage(outage, 10), &[(1, &steps)]);
        let (back, next) = (back_with(v), tick(v));
        let seconds = [tick(305), tick(305), Event::Cut, tick(1)];
        let events = [&[tick(300), START], &seconds[..], &[back, next]].concat();
        let left = left_of(&bank, &events);
        assert_eq!(
            left,
            [
                was_on(tick(300)),
                was_on(START),
                was_off(back),
                was_on(next)
            ]
        );
        assert_eq!(saves(&bank, &config, &left), [false, true, true, false]);
        let (state, answer) = replay(&bank, &config, &left);
        assert_eq!(placed(place, &state), state);
        assert_eq!(set_value(answer), place.5);
        assert_eq!(state.credits[0], u32::from(place.0 == 1));
    }
}

/// The tick that leaves the timer saves, so an outage in step 2 keeps it.
#[test]
fn the_replay_machine_keeps_the_tick_that_leaves_the_timer() {
    let mut events = vec![tick(300), START];
    events.extend([tick(310); 60]);
    events.extend([tick(310), BACK, tick(310), Event::Cut, back_with(310)]);
    let bank = timer_bank(1);
    let left = left_of(&bank, &events);
    assert_eq!(left.len(), 65);
    let saving = saves(&bank, &Config::default(), &left);
    let places: Vec<usize> = (0..65).filter(|&place| saving[place]).collect();
    assert_eq!(places, [1, 61, 63, 64]);
    let (state, answer) = replay(&bank, &Config::default(), &left);
    assert_eq!(placed((1, 1, 1, 0, 0, 305), &state), state);
    assert_eq!(set_value(answer), 305);
    assert_eq!(state.credits[..2], [60, 1]);
}

/// A start that ends at once is an accepted start: it saves, and what was
/// counted before it is due no longer.
#[test]
fn the_replay_machine_counts_anew_from_a_start_that_ends_at_once() {
    let select = Event::Command(Command::Select(2));
    let mut events = vec![tick(300), START];
    events.extend([tick(300); 5]);
    events.extend([RESET, select, tick(300), START, tick(300), Event::Cut]);
    events.push(back_with(300));
    let bank = two_patterns(2);
    let left = left_of(&bank, &events);
    let ending = &left[left.len() - 3..];
    assert_eq!(
        ending,
        [was_on(tick(300)), was_on(START), was_off(back_with(300))]
    );
    let config = Config::default();
    assert_eq!(saves(&bank, &config, &left)[8..], [true, false, true, true]);
    assert_eq!(credits_due(&bank, &config, &left[..10])[0], 5);
    assert_eq!(credits_due(&bank, &config, &left), [0; 99]);
    let (state, _) = replay(&bank, &config, &left);
    assert_eq!(placed((3, 1, 1, 0, 0, 0), &state), state);
}

/// A refused start leaves what was counted, and is left of the list.
#[test]
fn the_replay_machine_refuses_a_start_from_no_filtered_value() {
    let over = Event::Tick(Reading::Over);
    let events = [tick(300), START, tick(300), RESET, over, START];
    let bank = timer_bank(1);
    let left = left_of(&bank, &events);
    assert_eq!(left, events.map(was_on));
    let (state, answer) = replay(&bank, &Config::default(), &left);
    assert_eq!(answer, refused(29));
    assert_eq!((state.mode, state.credits[0]), (0, 1));
}

/// The set value of a state in modes 1 and 2, by the words of both documents.
fn set_value_by_the_words(bank: &[u8], state: &State) -> i16 {
    let step = steps_of(bank, state.p)[usize::from(state.k) - 1];
    let (b, target) = (i64::from(state.b), i64::from(step.target));
    if in_timer(bank, state) {
        return state.b;
    }
    if [0, 6_000].contains(&step.minutes) {
        return step.target;
    }
    let moved = (target - b).abs() * i64::from(state.e) / (60 * i64::from(step.minutes));
    (if target < b { b - moved } else { b + moved }) as i16
}

/// Over random lists with outages every answer carries the set value that the
/// words give, and the timer never waits.
#[test]
fn random_lists_carry_b_in_the_timer() {
    let mut random = Random::new(16);
    let mut seen = [0; 3];
    for _ in 0..400 {
        let mut controller = Controller::new(random.bank_from_measured_value());
        for _ in 0..150 {
            let answer = controller.send(random.event());
            let (bank, state) = (&controller.bank, &controller.state);
            if !state.power || !is_accepted(answer) {
                continue;
            }
            let timer = in_timer(bank, state);
            let in_program = state.mode == 1 || state.mode == 2;
            seen[usize::from(timer) + usize::from(in_program)] += 1;
            if in_program {
                assert_eq!(set_value(answer), set_value_by_the_words(bank, state));
                assert!(!timer || state.w == 0);
            } else {
                assert_eq!(set_value(answer), 0);
            }
        }
    }
    assert!(seen.iter().all(|&count| count > 3_000), "{seen:?}");
}

/// Where a start under start choice 0 leaves k, mode and b, over random banks.
#[test]
fn random_starts_begin_where_the_words_say() {
    let mut random = Random::new(17);
    let mut seen = [0; 4];
    for _ in 0..2_000 {
        let bank = random.bank_from_measured_value();
        let p = random.between(1, bank[0].into()) as u8;
        let v = random.between(-19_999, 29_999) as i16;
        let mut controller = Controller::new(bank.clone());
        controller.state.measured = Measured::Value(v.into());
        controller.command(Command::Select(p.into()));
        controller.state.credits.fill(7);
        let steps = steps_of(&bank, p);
        if steps.is_empty() {
            refuses(&mut controller, START, 28);
            seen[0] += 1;
            continue;
        }
        assert!(is_accepted(controller.send(START)));
        let sll = i16::from_le_bytes([bank[3], bank[4]]);
        let (case, place) = match steps.len() {
            _ if steps[0].target == sll => (1, (1, 1, 1, 0, 0, v)),
            1 => (2, (3, 1, 1, 0, 0, 0)),
            _ => (3, (1, 2, 1, 0, 0, v)),
        };
        seen[case] += 1;
        assert_eq!((controller.place(), controller.state.p), (place, p));
        assert_eq!(controller.state.credits, [0; 99]);
        assert_eq!(controller.record, record_of(&controller.state));
    }
    assert!(seen.iter().all(|&count| count > 20), "{seen:?}");
}

/// The place after one second in the timer: nothing but its time counts.
fn second_in_the_timer(steps: &[Step], runs: u8, e: u32, b: i16) -> Place {
    let t = 60 * u32::from(steps[0].minutes);
    match (steps.len(), runs) {
        _ if steps[0].minutes == 6_000 => (1, 1, 1, (e + 1).min(359_999), 0, b),
        _ if e + 1 < t => (1, 1, 1, e + 1, 0, b),
        (2.., _) => (1, 2, 1, 0, 0, b),
        (_, 1) => (3, 1, 1, 0, 0, 0),
        _ => (1, 1, 2, 0, 0, b),
    }
}

/// A tick in the timer, and which times are sound there, over random banks.
#[test]
fn random_seconds_in_the_timer_go_by_its_time_alone() {
    let mut random = Random::new(18);
    let (mut ticks, mut unsound) = (0, 0);
    for _ in 0..20_000 {
        let bank = random.bank_from_measured_value();
        let steps = steps_of(&bank, 1);
        let mut e = random.pick(&[0, 1, 58, 59, 60, 61, 119, 120, 121, 359_998, 359_999]);
        let w = random.pick(&[0, 0, 0, 1, 59]);
        let b = random.between(-19_999, 29_999) as i16;
        if let (true, Some(step)) = (random.one_in(3), steps.first()) {
            e = 60 * u32::from(step.minutes);
        }
        let mut controller = live_at(bank, (1, 1, 1, e, w, b));
        if steps.is_empty() || !in_timer(&controller.bank, &controller.state) {
            continue;
        }
        let most = 60 * u32::from(steps[0].minutes) - u32::from(steps[0].minutes == 6_000);
        let record = record_of(&controller.state);
        let readable = model::readable(&controller.bank, &controller.config, &record);
        let expected = w == 0 && e <= most;
        assert_eq!((controller.sound(), readable), (expected, expected));
        if !expected {
            refuses(&mut controller, tick(0), 21);
            unsound += 1;
            continue;
        }
        controller.ticks(1, random.between(-300, 1_000) as i32);
        let runs = model::read_back(&controller.bank).unwrap().1[0].0;
        assert_eq!(controller.place(), second_in_the_timer(&steps, runs, e, b));
        assert_eq!(controller.state.credits[..2], [1, 0]);
        ticks += 1;
    }
    assert!(ticks > 2_000 && unsound > 2_000, "{ticks} {unsound}");
}
