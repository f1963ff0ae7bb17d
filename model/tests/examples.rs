//! The examples of the document.

mod common;

use common::*;
use model::{sheet, Alarm, Command, Config, Event, Measured, Reading, Settings, State, Step};

/// The largest s that the writer accepts for n patterns.
fn capacity(n: u8) -> usize {
    let steps = [step(0, 0); 99];
    let accepted = |s: &usize| try_bank(&settings(n), &[(1, &steps[..*s])]).is_ok();
    (0..=99)
        .take_while(accepted)
        .last()
        .expect("s = 0 is accepted")
}

#[test]
fn capacity_is_99_divided_by_n_rounded_down() {
    assert_eq!((capacity(1), capacity(12), capacity(15)), (99, 8, 6));
    for n in 1..=15 {
        assert_eq!(capacity(n), 99 / usize::from(n));
    }
}

/// The set value of a paused step, which a tick does not move.
fn ramp(b: i16, target: i16, minutes: u16, e: u32) -> i16 {
    let mut controller = Controller::new(bank(&settings(1), &[(1, &[step(target, minutes)])]));
    controller.state = State {
        mode: 2,
        b,
        e,
        ..controller.state
    };
    set_value(controller.send(tick(0)))
}

#[test]
fn set_value_examples() {
    assert_eq!(ramp(200, 600, 2, 59), 396);
    assert_eq!(ramp(200, 600, 2, 60), 400);
    assert_eq!(ramp(200, 600, 2, 119), 596);
    assert_eq!(ramp(600, 200, 1, 1), 594);
}

/// y after the reading v, and the base that a start then takes from it; step 1
/// is no timer, so the run begins at step 2.
fn filtered(y: f64, v: i32) -> (Measured, i16) {
    let from_measured = Settings {
        start: 0,
        filter: 10,
        ..settings(1)
    };
    let steps = [step(600, 2), step(600, 1)];
    let mut controller = Controller::new(bank(&from_measured, &[(1, &steps)]));
    controller.state.measured = Measured::Value(y);
    controller.send(tick(v));
    let measured = controller.state.measured;
    controller.send(START);
    (measured, controller.state.b)
}

#[test]
fn filter_examples() {
    assert_eq!(filtered(100.0, 200), (Measured::Value(150.0), 150));
    assert_eq!(filtered(100.0, 101), (Measured::Value(100.5), 101));
    assert_eq!(filtered(-100.0, -101), (Measured::Value(-100.5), -101));
}

const EXAMPLE_OUTPUT: &str = "\
0 1 1 1 1 0 0 200
0 1 1 1 1 1 0 203
0 0 0 0 0 0 0 0
0 1 1 1 1 0 0 200
0 1 1 1 1 1 0 203
";

#[test]
fn sheet_example() {
    let bank = example_bank();
    let mut head = vec![1, 1, 2, 0, 0, 0xE8, 3, 200, 0];
    head.resize(45, 0);
    head.extend([49, 0, 20, 0, 1, 2]);
    head.extend([0x58, 2, 2, 0, 0, 0, 0, 0, 0]);
    head.extend([0x58, 2, 1, 0, 0, 0, 0, 0, 0]);
    assert_eq!(bank, head);
    let printed = sheet(&bank, b"S\nT 200\nC\nR 200\nT 200\n");
    assert_eq!(String::from_utf8(printed).unwrap(), EXAMPLE_OUTPUT);

    let mut controller = Controller::new(bank);
    for event in [START, tick(200), Event::Cut, back_with(200), tick(200)] {
        assert!(is_accepted(controller.send(event)));
    }
    assert_eq!(controller.state.credits[0], 1);
    assert_eq!(controller.state.alarms, [Alarm::default(); 4]);
    assert_eq!(controller.record[411..], [0; 12]);
}

/// The run of the sheet example with four alarms: measured whole value less set
/// value is −3 after the first tick of the step, and −6 after the second.
#[test]
fn the_sheet_example_with_alarms() {
    let alarms = [
        alarm(2, -3, 0),
        alarm(3, 0, -4),
        alarm(8, 200, 200),
        model::AlarmSetting {
            delay: 1,
            ..alarm(7, 0, 200)
        },
    ];
    let mut controller = Controller::with(example_bank(), Config { alarms });
    let flags_and_counts = |state: &State| state.alarms.map(|alarm| (alarm.flags, alarm.count));
    for (event, expected) in [
        (START, [(0, 0); 4]),
        (tick(200), [(1, 0), (0, 0), (1, 0), (0, 1)]),
        (Event::Cut, [(0, 0); 4]),
        (back_with(200), [(0, 0); 4]),
        (tick(200), [(1, 0), (0, 0), (1, 0), (0, 1)]),
        (tick(200), [(0, 0), (1, 0), (1, 0), (1, 0)]),
    ] {
        assert!(is_accepted(controller.send(event)));
        assert_eq!(flags_and_counts(&controller.state), expected, "{event:?}");
    }
}

/// What the program prints for the bank of the example.
fn printed(input: &[u8]) -> String {
    String::from_utf8(sheet(&example_bank(), input)).unwrap()
}

#[test]
fn sheet_prints_99_for_a_line_of_any_other_form() {
    for other in OTHER_FORMS.split('|') {
        let input = format!("S\n{other}\n");
        let expected = "0 1 1 1 1 0 0 200\n99 1 1 1 1 0 0 200\n";
        assert_eq!(printed(input.as_bytes()), expected, "{other:?}");
    }
}

#[test]
fn sheet_reads_the_listed_forms() {
    assert_eq!(printed(b""), "");
    assert_eq!(printed(b"S"), "0 1 1 1 1 0 0 200\n");
    assert_eq!(
        printed(b"N 00001\nN -0\n"),
        "0 0 1 1 1 0 0 0\n26 0 1 1 1 0 0 0\n"
    );
    assert_eq!(
        printed(b"T -19999\nT H\nT L\n"),
        "0 0 1 1 1 0 0 0\n".repeat(3)
    );
    assert_eq!(
        printed(b"T 99999\nX\n"),
        "25 0 1 1 1 0 0 0\n27 0 1 1 1 0 0 0\n"
    );
    assert_eq!(
        printed(b"C\nT 1\nR 30000\n"),
        "0 0 0 0 0 0 0 0\n23 0 0 0 0 0 0 0\n25 0 0 0 0 0 0 0\n"
    );
}

#[test]
fn sheet_prints_the_numbers_of_a_refused_bank() {
    let changed = |offset: usize, value: u8| {
        String::from_utf8(sheet(&example_with(offset, value), b"S\n")).unwrap()
    };
    assert_eq!(sheet(&example_bank()[..44], b"S\n"), b"11\n");
    assert_eq!(changed(2, 3), "12 2\n");
    assert_eq!(changed(45, 50), "13 1\n");
    assert_eq!(changed(49, 100), "14 1 0\n");
    assert_eq!(changed(64, 5), "14 1 2\n");
}

#[test]
fn a_step_of_0_minutes_with_wait_number_0_takes_one_tick() {
    let mut controller = Controller::new(bank(&settings(1), &[(2, &[step(600, 0)])]));
    controller.send(START);
    controller.ticks(1, 0);
    assert_eq!(controller.place(), (1, 1, 2, 0, 0, 600));
    controller.ticks(1, 0);
    assert_eq!(controller.place(), (3, 1, 2, 0, 0, 0));
    assert_eq!(controller.state.credits[0], 2);
}

fn waiting_bank(zone: u16) -> Vec<u8> {
    let settings = Settings {
        zones: [zone; 4],
        waits: [2; 4],
        ..settings(1)
    };
    let waiting = Step {
        wait: 3,
        ..step(600, 1)
    };
    bank(&settings, &[(1, &[waiting, step(700, 1)])])
}

#[test]
fn a_step_waits_for_its_zone_or_its_minutes() {
    for (zone, short, enough) in [(0, 599, 600), (0, -5, 900), (10, 589, 590), (10, 611, 610)] {
        let mut controller = Controller::new(waiting_bank(zone));
        controller.send(START);
        controller.ticks(61, short);
        assert_eq!(controller.place(), (1, 1, 1, 60, 1, 200));
        controller.ticks(1, enough);
        assert_eq!(controller.place(), (1, 2, 1, 0, 0, 600));
        let mut controller = Controller::new(waiting_bank(zone));
        controller.send(START);
        controller.ticks(179, short);
        assert_eq!(controller.place(), (1, 1, 1, 60, 119, 200));
        controller.send(Event::Tick(Reading::Over));
        assert_eq!(controller.place(), (1, 2, 1, 0, 0, 600));
    }
}

#[test]
fn plus_and_minus_move_whole_minutes_and_are_not_credited() {
    let mut controller = Controller::new(waiting_bank(0));
    controller.send(START);
    controller.ticks(60, 0);
    assert_eq!(controller.command(Command::Plus), controller.answer);
    assert_eq!(controller.place(), (1, 1, 1, 60, 60, 200));
    assert_eq!(controller.command(Command::Plus), refused(30));
    controller.command(Command::Minus);
    assert_eq!(controller.place(), (1, 1, 1, 60, 0, 200));
    controller.command(Command::Minus);
    assert_eq!(controller.place(), (1, 1, 1, 0, 0, 200));
    assert_eq!(controller.command(Command::Minus), refused(30));
    assert_eq!(controller.command(Command::Plus), refused(30));
    assert_eq!(controller.state.credits[0], 60);
    controller.command(Command::Reset);
    assert_eq!(controller.state.credits[0], 60);
}

#[test]
fn a_fed_step_leaves_its_set_value_as_base() {
    let mut controller = Controller::new(example_bank());
    controller.send(START);
    controller.ticks(59, 0);
    controller.command(Command::Feed);
    assert_eq!(controller.place(), (1, 2, 1, 0, 0, 396));
    controller.ticks(30, 0);
    controller.command(Command::Back);
    assert_eq!(controller.place(), (1, 1, 1, 0, 0, 498));
    controller.command(Command::Back);
    assert_eq!(controller.place(), (1, 1, 1, 0, 0, 498));
}

#[test]
fn an_endless_step_holds_its_target_until_it_is_fed() {
    let mut controller =
        Controller::new(bank(&settings(1), &[(5, &[step(600, 6_000), step(1, 1)])]));
    controller.send(START);
    controller.state.e = 359_998;
    assert_eq!(set_value(controller.ticks(3, 0)), 600);
    assert_eq!(controller.place(), (1, 1, 1, 359_999, 0, 200));
    controller.command(Command::Feed);
    assert_eq!(controller.place(), (3, 1, 1, 0, 0, 0));
}

#[test]
fn signals_follow_the_minutes() {
    let settings = Settings {
        on: [0, 1, 0, 5],
        off: [1, 2, 0, 5],
        ..settings(1)
    };
    let signalled = Step {
        signals: [1, 2, 3, 5],
        ..step(600, 3)
    };
    let mut controller = Controller::new(bank(&settings, &[(1, &[signalled])]));
    let signals = |answer| match answer {
        model::Answer::Accepted { signals, .. } => signals,
        other => panic!("{other:?}"),
    };
    assert_eq!(signals(controller.send(START)), [true, false, false, true]);
    assert_eq!(signals(controller.ticks(59, 0)), [true, false, false, true]);
    assert_eq!(signals(controller.ticks(1, 0)), [false, true, false, true]);
    assert_eq!(
        signals(controller.ticks(60, 0)),
        [false, false, false, true]
    );
    assert_eq!(signals(controller.command(Command::Reset)), [false; 4]);
}

#[test]
fn every_sixtieth_tick_saves_in_any_mode() {
    let mut controller = Controller::new(example_bank());
    controller.ticks(59, 0);
    assert_eq!(controller.state.u, 59);
    controller.record.fill(9);
    controller.ticks(1, 0);
    assert_eq!(controller.state.u, 0);
    assert_eq!(controller.record, model::record_of(&controller.state));
}

/// Mode after a return to a running step whose set value is 200.
fn mode_after_return(outage: u8, width: u16, reading: Reading) -> u8 {
    let settings = Settings {
        outage,
        width,
        ..settings(1)
    };
    let mut controller = Controller::new(bank(&settings, &[(1, &[step(600, 2)])]));
    for event in [START, Event::Cut, Event::Return(reading)] {
        assert!(is_accepted(controller.send(event)));
    }
    assert_eq!(controller.record, model::record_of(&controller.state));
    controller.state.mode
}

#[test]
fn the_outage_choices() {
    let value = Reading::Value;
    assert_eq!(mode_after_return(0, 0, value(200)), 0);
    assert_eq!(mode_after_return(1, 0, value(200)), 2);
    assert_eq!(mode_after_return(2, 0, value(900)), 1);
    assert_eq!(mode_after_return(2, 0, Reading::Over), 1);
    assert_eq!(mode_after_return(2, 5, value(205)), 1);
    assert_eq!(mode_after_return(2, 5, value(195)), 1);
    assert_eq!(mode_after_return(2, 5, value(206)), 2);
    assert_eq!(mode_after_return(2, 5, Reading::Over), 2);
    assert_eq!(mode_after_return(2, 29_999, Reading::Under), 2);
}

#[test]
fn a_credit_is_held_at_its_largest() {
    let mut controller = Controller::new(example_bank());
    controller.send(START);
    controller.state.credits[0] = u32::MAX - 1;
    controller.ticks(3, 0);
    assert_eq!(controller.state.credits[0], u32::MAX);
}
