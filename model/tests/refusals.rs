//! One test for each refusal number, and their order. A refusal leaves all.

mod common;

use common::*;
use model::{
    check, make, write, AlarmSetting, Command, Config, Event, Measured, Reading, Refusal, Settings,
    State, Step,
};

/// The refusal of the example bank with one byte changed.
fn changed(offset: usize, value: u8) -> Result<(), Refusal> {
    check(&example_with(offset, value))
}

#[test]
fn refusal_11_is_for_a_bank_under_45_bytes() {
    for length in 0..45 {
        assert_eq!(check(&vec![255; length]), Err(with_values(11, 0, 0)));
    }
    assert_eq!(check(&[255; 45]), Err(with_values(12, 0, 0)));
}

/// Puts a 16-bit value at an offset of the example bank.
fn with_field(offset: usize, value: i32) -> Result<(), Refusal> {
    let mut bank = example_bank();
    bank[offset..offset + 2].copy_from_slice(&(value as u16).to_le_bytes());
    check(&bank)
}

#[test]
fn refusal_12_gives_the_offset_of_the_first_setting_out_of_range() {
    let wrong = |offset| Err(with_values(12, offset, 0));
    assert_eq!(changed(0, 0), wrong(0));
    assert_eq!(changed(0, 16), wrong(0));
    assert_eq!(changed(1, 2), wrong(1));
    assert_eq!(changed(2, 3), wrong(2));
    assert_eq!(with_field(3, -20_000), wrong(3));
    assert_eq!(with_field(3, 30_000), wrong(3));
    assert_eq!(with_field(3, 1_000), wrong(5));
    assert_eq!(with_field(5, 30_000), wrong(5));
    assert_eq!(with_field(5, 0), wrong(5));
    assert_eq!(with_field(7, -1), wrong(7));
    assert_eq!(with_field(7, 1_001), wrong(7));
    assert_eq!(with_field(9, 30_000), wrong(9));
    assert_eq!(with_field(11, 1_000), wrong(11));
    for (offset, most) in [(13, 9_999), (15, 5_999), (29, 5_999), (31, 5_999)] {
        for offset in (offset..offset + 16).step_by(4) {
            assert_eq!(with_field(offset, most), Ok(()));
            assert_eq!(with_field(offset, most + 1), wrong(offset as u16));
        }
    }
}

#[test]
fn refusal_12_of_the_writer_is_that_of_the_check() {
    let wrong = |settings| try_bank(&settings, &[(100, &[])]).unwrap_err();
    assert_eq!(
        wrong(Settings {
            n: 0,
            ..settings(1)
        }),
        with_values(12, 0, 0)
    );
    assert_eq!(
        wrong(Settings {
            slh: 0,
            ..settings(1)
        }),
        with_values(12, 5, 0)
    );
    let mut last = settings(1);
    last.off[3] = 6_000;
    assert_eq!(wrong(last), with_values(12, 43, 0));
}

#[test]
fn refusal_13_gives_the_first_wrong_pair() {
    let wrong = |pair| Err(with_values(13, pair, 0));
    let two = bank(&settings(2), &[(1, &[step(600, 2)]), (1, &[step(600, 2)])]);
    assert_eq!(check(&two), Ok(()));
    assert_eq!(check(&two[..52]), wrong(0));
    assert_eq!(check(&two[..53]), wrong(1));
    assert_eq!(check(&two[..two.len() - 1]), wrong(2));
    assert_eq!(check(&[&two[..], &[0]].concat()), wrong(2));
    for (offset, value, pair) in [
        (45, 54, 1),
        (46, 1, 1),
        (47, 12, 1),
        (47, 1, 1),
        (47, 2, 2),
        (49, 0, 2),
        (51, 2, 2),
        (51, 20, 2),
    ] {
        let mut bank = two.clone();
        bank[offset] = value;
        assert_eq!(check(&bank), wrong(pair), "{value} at {offset}");
    }
    let mut later_body_wrong = two.clone();
    (later_body_wrong[51], later_body_wrong[53]) = (12, 100);
    assert_eq!(check(&later_body_wrong), wrong(2));
}

#[test]
fn refusal_13_is_for_a_length_above_the_capacity() {
    let steps = [step(600, 2); 7];
    let mut bank = bank(
        &Settings {
            n: 14,
            ..settings(14)
        },
        &[(1, &steps)],
    );
    bank[0] = 15;
    bank.splice(45..45, [0; 4]);
    let mut start = 105_u16;
    for pair in 0..15 {
        let length: u16 = if pair == 0 { 65 } else { 2 };
        bank[45 + 4 * pair..47 + 4 * pair].copy_from_slice(&start.to_le_bytes());
        bank[47 + 4 * pair..49 + 4 * pair].copy_from_slice(&length.to_le_bytes());
        start += length;
    }
    bank.resize(usize::from(start), 0);
    assert_eq!(check(&bank), Err(with_values(13, 1, 0)));
}

#[test]
fn refusal_14_gives_pattern_and_step() {
    let wrong = |step| Err(with_values(14, 1, step));
    assert_eq!(changed(49, 100), wrong(0));
    assert_eq!(changed(50, 1), wrong(0));
    for (field, value) in [
        (1, 255),
        (1, 4),
        (3, 24),
        (4, 5),
        (5, 6),
        (6, 6),
        (7, 6),
        (8, 6),
    ] {
        assert_eq!(changed(51 + field, value), wrong(1), "{field}");
        assert_eq!(changed(60 + field, value), wrong(2), "{field}");
    }
}

#[test]
fn refusal_14_of_the_writer() {
    let good = step(600, 2);
    let bad = Step { wait: 5, ..good };
    let wrong = |patterns: &[(u8, &[Step])]| try_bank(&settings(2), patterns).unwrap_err();
    assert_eq!(wrong(&[(100, &[bad])]), with_values(14, 1, 0));
    assert_eq!(wrong(&[(1, &[good; 50])]), with_values(14, 1, 0));
    assert_eq!(
        wrong(&[(1, &[good, bad]), (100, &[])]),
        with_values(14, 1, 2)
    );
    assert_eq!(
        wrong(&[(1, &[good]), (1, &[good, good, bad])]),
        with_values(14, 2, 3)
    );
    let every_s = [(0, 255); 15];
    let written = write(&settings(2), &every_s, &[good; 99], &mut []);
    assert_eq!(written, Err(with_values(14, 1, 0)));
}

#[test]
fn refusal_15_is_for_a_buffer_too_short() {
    let (patterns, steps) = layout(&[(1, &[step(600, 2)])]);
    let mut out = [7; 60];
    assert_eq!(
        write(&settings(1), &patterns, &steps, &mut out[..59]),
        Err(with_values(15, 0, 0))
    );
    assert_eq!(out, [7; 60]);
    assert_eq!(write(&settings(1), &patterns, &steps, &mut out), Ok(60));
}

fn refused_as_unsound(change: fn(&mut State)) {
    let mut controller = Controller::new(example_bank());
    change(&mut controller.state);
    assert!(!controller.sound());
    refuses(&mut controller, back_with(99_999), 21);
    controller.state.power = false;
    assert!(controller.sound());
    assert!(is_accepted(controller.send(back_with(200))));
}

#[test]
fn refusal_21_is_for_a_state_that_is_not_sound() {
    let unsound: [fn(&mut State); 26] = [
        |state| state.mode = 4,
        |state| state.p = 0,
        |state| state.p = 2,
        |state| state.k = 2,
        |state| state.r = 2,
        |state| state.e = 1,
        |state| state.w = 1,
        |state| state.b = 1,
        |state| state.u = 60,
        |state| state.measured = Measured::Value(29_999.5),
        |state| state.measured = Measured::Value(f64::NAN),
        |state| (state.mode, state.k) = (1, 0),
        |state| (state.mode, state.k) = (1, 3),
        |state| (state.mode, state.r) = (1, 0),
        |state| (state.mode, state.r) = (2, 2),
        |state| (state.mode, state.e) = (1, 121),
        |state| (state.mode, state.e, state.w) = (2, 120, 1),
        |state| (state.mode, state.b) = (1, -20_000),
        |state| (state.mode, state.b) = (3, 1),
        |state| (state.mode, state.k) = (3, 3),
        |state| state.alarms[0].flags = 1,
        |state| state.alarms[3].flags = 2,
        |state| state.alarms[3].count = 1,
        |state| (state.mode, state.alarms[3].flags) = (1, 2),
        |state| (state.mode, state.alarms[0].flags) = (3, 4),
        |state| (state.mode, state.alarms[1].count) = (2, 1),
    ];
    unsound.into_iter().for_each(refused_as_unsound);
}

#[test]
fn refusal_22_is_for_a_record_buffer_not_423_bytes() {
    let (bank, config) = (example_bank(), config(WRONG));
    for length in [0, 411, 422, 424, 819] {
        let mut record = vec![5; length];
        let refusal = with_values(22, 0, 0);
        assert_eq!(make(&bank, &config, &mut record), Err(refusal));
        let before = State {
            power: false,
            ..Controller::new(bank.clone()).state
        };
        let mut state = before;
        assert_eq!(
            model::event(&bank, &config, &mut record, &mut state, tick(0)),
            refused(22)
        );
        assert_eq!((state, record), (before, vec![5; length]));
    }
    assert_eq!(
        make(&bank[..44], &config, &mut []),
        Err(with_values(11, 0, 0))
    );
}

#[test]
fn refusal_23_is_for_power_off() {
    let mut controller = Controller::new(example_bank());
    assert!(is_accepted(controller.send(Event::Cut)));
    for event in [
        tick(99_999),
        START,
        Event::Cut,
        Event::Command(Command::Select(99)),
    ] {
        refuses(&mut controller, event, 23);
    }
}

#[test]
fn refusal_24_is_for_a_return_with_power_on() {
    let mut controller = Controller::new(example_bank());
    refuses(&mut controller, back_with(200), 24);
    refuses(&mut controller, back_with(99_999), 24);
}

#[test]
fn refusal_25_is_for_a_reading_outside_the_temperature_range() {
    let mut controller = Controller::new(example_bank());
    for v in [-20_000, 30_000, i32::MIN, i32::MAX] {
        refuses(&mut controller, tick(v), 25);
    }
    assert!(is_accepted(controller.send(tick(-19_999))));
    assert!(is_accepted(controller.send(tick(29_999))));
    controller.send(Event::Cut);
    controller.record.fill(255);
    refuses(&mut controller, back_with(30_000), 25);
}

#[test]
fn refusal_26_is_for_a_select_outside_the_patterns() {
    let mut controller = Controller::new(example_bank());
    controller.send(START);
    for q in [0, 2, -1, 257, i32::MIN, i32::MAX] {
        refuses(&mut controller, Event::Command(Command::Select(q)), 26);
    }
}

#[test]
fn refusal_27_is_for_a_mode_not_listed() {
    use Command::*;
    let all = [Select(1), Start, Pause, Reset, Feed, Back, Plus, Minus];
    let listed = |command: Command, mode: u8| match command {
        Select(_) | Start => [0, 3].contains(&mode),
        Reset => [1, 2, 3].contains(&mode),
        _ => [1, 2].contains(&mode),
    };
    for mode in 0..=3 {
        for command in all {
            let mut controller = Controller::new(example_bank());
            controller.state.mode = mode;
            if listed(command, mode) {
                assert_ne!(controller.command(command), refused(27));
            } else {
                refuses(&mut controller, Event::Command(command), 27);
            }
        }
    }
}

#[test]
fn refusal_28_is_for_a_start_without_steps() {
    let mut controller = Controller::new(bank(
        &Settings {
            start: 0,
            ..settings(1)
        },
        &[(1, &[])],
    ));
    refuses(&mut controller, START, 28);
}

#[test]
fn refusal_29_is_for_a_start_from_no_filtered_value() {
    let from_measured = Settings {
        start: 0,
        ..settings(1)
    };
    let steps = [step(600, 2), step(600, 1)];
    let mut controller = Controller::new(bank(&from_measured, &[(1, &steps)]));
    refuses(&mut controller, START, 29);
    for reading in [Reading::Over, Reading::Under] {
        controller.send(Event::Tick(reading));
        refuses(&mut controller, START, 29);
    }
    controller.ticks(1, -500);
    assert_eq!(set_value(controller.send(START)), -500);
}

#[test]
fn refusal_30_is_for_a_plus_or_minus_that_cannot_move() {
    let mut controller = Controller::new(example_bank());
    controller.send(START);
    refuses(&mut controller, Event::Command(Command::Minus), 30);
    controller.ticks(60, 0);
    refuses(&mut controller, Event::Command(Command::Plus), 30);
    assert!(is_accepted(controller.command(Command::Minus)));
    let mut endless = Controller::new(bank(&settings(1), &[(1, &[step(600, 6_000)])]));
    endless.send(START);
    endless.ticks(100, 0);
    refuses(&mut endless, Event::Command(Command::Plus), 30);
    refuses(&mut endless, Event::Command(Command::Minus), 30);
}

#[test]
fn refusal_31_is_for_a_record_that_is_not_readable() {
    let mut controller = Controller::new(example_bank());
    controller.send(Event::Cut);
    controller.record[0] = 4;
    refuses(&mut controller, back_with(200), 31);
    assert!(!controller.readable());
    controller.record[0] = 0;
    assert!(controller.readable());
    assert!(is_accepted(controller.send(back_with(200))));
}

/// Return of a record whose alarms are out of their bounds.
#[test]
fn refusal_31_is_for_alarms_out_of_bounds() {
    for (mode, offset, value, number) in [
        (1, 411, 1, 0),
        (1, 411, 2, 31),
        (2, 414, 3, 31),
        (3, 417, 4, 31),
        (1, 412, 1, 31),
        (1, 413, 1, 31),
        (2, 421, 1, 31),
        (3, 422, 1, 31),
        (3, 420, 1, 0),
        (0, 411, 1, 31),
        (0, 420, 1, 31),
        (0, 422, 1, 31),
    ] {
        let mut controller = Controller::new(example_bank());
        controller.send(Event::Cut);
        (controller.record[0], controller.record[offset]) = (mode, value);
        assert_eq!(controller.readable(), number == 0);
        if number == 0 {
            assert!(is_accepted(controller.send(back_with(200))));
        } else {
            refuses(&mut controller, back_with(200), number);
        }
    }
}

type AlarmChange = fn(&mut AlarmSetting);

/// Changes of one alarm's settings, and whether they leave it in range.
const ALARM_CHANGES: [(AlarmChange, bool); 24] = [
    (|alarm| alarm.kind = 8, true),
    (|alarm| alarm.kind = 9, false),
    (|alarm| alarm.kind = 255, false),
    (|alarm| alarm.high = -19_999, true),
    (|alarm| alarm.high = -20_000, false),
    (|alarm| alarm.high = 29_999, true),
    (|alarm| alarm.high = 30_000, false),
    (|alarm| alarm.low = -19_999, true),
    (|alarm| alarm.low = -20_000, false),
    (|alarm| alarm.low = 29_999, true),
    (|alarm| alarm.low = 30_000, false),
    (|alarm| alarm.sensitivity = 9_999, true),
    (|alarm| alarm.sensitivity = 10_000, false),
    (|alarm| alarm.delay = 9_999, true),
    (|alarm| alarm.delay = 10_000, false),
    (|alarm| alarm.flags = 3, true),
    (|alarm| alarm.flags = 4, false),
    (|alarm| alarm.flags = 255, false),
    (
        |alarm| (alarm.kind, alarm.high, alarm.low) = (4, 5, 5),
        true,
    ),
    (
        |alarm| (alarm.kind, alarm.high, alarm.low) = (4, 5, 6),
        false,
    ),
    (
        |alarm| (alarm.kind, alarm.high, alarm.low) = (8, 5, 6),
        false,
    ),
    (
        |alarm| (alarm.kind, alarm.high, alarm.low) = (1, 5, 6),
        true,
    ),
    (
        |alarm| (alarm.kind, alarm.high, alarm.low) = (5, 5, 6),
        true,
    ),
    (
        |alarm| (alarm.kind, alarm.high, alarm.low) = (0, 5, 6),
        true,
    ),
];

#[test]
fn refusal_41_is_for_an_alarm_setting_out_of_range() {
    let bank = example_bank();
    for (change, in_range) in ALARM_CHANGES {
        for place in 0..4 {
            let mut config = Config::default();
            change(&mut config.alarms[place]);
            let mut record = [7; 423];
            let made = make(&bank, &config, &mut record);
            assert_eq!(made.is_ok(), in_range, "{config:?}");
            let mut controller = Controller::new(bank.clone());
            controller.config = config;
            if in_range {
                assert!(is_accepted(controller.send(tick(0))));
            } else {
                assert_eq!(made, Err(with_values(41, 0, 0)));
                assert_eq!(record, [7; 423]);
                refuses(&mut controller, tick(0), 41);
            }
        }
    }
}

/// 41 is given "after 22", and before 23 and all that follow it.
#[test]
fn refusal_41_comes_after_22() {
    let bank = example_bank();
    let wrong = config(WRONG);
    let made = |bank: &[u8], length| make(bank, &wrong, &mut vec![5; length]).unwrap_err();
    assert_eq!(made(&bank[..44], 0), with_values(11, 0, 0));
    assert_eq!(made(&example_with(2, 3), 423), with_values(12, 2, 0));
    assert_eq!(made(&example_with(49, 100), 423), with_values(14, 1, 0));
    assert_eq!(made(&bank, 422), with_values(22, 0, 0));
    assert_eq!(made(&bank, 423), with_values(41, 0, 0));

    let mut controller = Controller::new(bank);
    controller.config = wrong;
    let mut live = controller.state;
    let answer = model::event(&controller.bank, &wrong, &mut [0; 411], &mut live, START);
    assert_eq!(answer, refused(22));
    for event in [
        back_with(99_999),
        tick(99_999),
        Event::Cut,
        Event::Command(Command::Select(99)),
        Event::Command(Command::Pause),
    ] {
        refuses(&mut controller, event, 41);
    }
    controller.state.u = 60;
    refuses(&mut controller, tick(0), 21);
    controller.state.power = false;
    controller.record.fill(255);
    refuses(&mut controller, tick(0), 41);
    refuses(&mut controller, back_with(0), 41);
}
