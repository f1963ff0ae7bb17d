//! The four event alarms. The letters in the comments are those of the settled
//! readings.

mod common;

use common::*;
use model::{
    make, record_of, replay, what_is_left, Alarm, AlarmSetting, Answer, Command, Config, Event,
    Measured, Reading, Settings, State, Step,
};

const OVER: Event = Event::Tick(Reading::Over);
const UNDER: Event = Event::Tick(Reading::Under);
const PAUSE: Event = Event::Command(Command::Pause);
const RESET: Event = Event::Command(Command::Reset);
const FEED: Event = Event::Command(Command::Feed);
const SELECT: Event = Event::Command(Command::Select(1));

/// One endless step of 600, which is then the set value while running.
const ENDLESS: [Step; 1] = [Step {
    target: 600,
    minutes: 6_000,
    wait: 0,
    signals: [0; 4],
}];

/// Bank E: "n 1, start 1, choice 2, SLL 0, SLH 1000, start value 200, width 0, F
/// 0, runs 1, one step 600 endless".
fn bank_e() -> Vec<u8> {
    bank(&settings(1), &[(1, &ENDLESS)])
}

/// Bank E with another outage choice.
fn bank_e_with_outage(outage: u8) -> Vec<u8> {
    let settings = Settings {
        outage,
        ..settings(1)
    };
    bank(&settings, &[(1, &ENDLESS)])
}

fn started(bank: Vec<u8>, alarm: AlarmSetting) -> Controller {
    let mut controller = Controller::with(bank, config(alarm));
    assert!(is_accepted(controller.send(START)));
    controller
}

/// A started run of bank E.
fn running(alarm: AlarmSetting) -> Controller {
    started(bank_e(), alarm)
}

/// A started run of steps without waits and signals.
fn running_over(steps: &[Step], alarm: AlarmSetting) -> Controller {
    started(bank(&settings(1), &[(1, steps)]), alarm)
}

/// Flags and count of alarm 1 after each event; each is accepted.
fn after_each(controller: &mut Controller, events: &[Event]) -> Vec<(u8, u16)> {
    let after = |&event| {
        assert!(is_accepted(controller.send(event)), "{event:?}");
        controller.alarm()
    };
    events.iter().map(after).collect()
}

/// Flags of alarm 1 after each reading.
fn flags_after(controller: &mut Controller, readings: &[i32]) -> Vec<u8> {
    let ticks: Vec<Event> = readings.iter().map(|&v| tick(v)).collect();
    let alarms = after_each(controller, &ticks);
    alarms.into_iter().map(|(flags, _)| flags).collect()
}

/// Kind 6, "at least H", with H 500.
const ABOVE_500: AlarmSetting = alarm(6, 500, 0);

#[test]
fn each_kind_judges_its_bounds() {
    // H, L and C are 500, 300, 50 from the zero of the kind.
    let readings = [499, 500, 301, 300];
    let alone: [(u8, [u8; 4]); 4] = [
        (1, [0, 1, 0, 1]),
        (2, [0, 1, 0, 0]),
        (3, [0, 0, 0, 1]),
        (4, [1, 1, 1, 1]),
    ];
    for (kind, expected) in alone {
        for (kind, zero) in [(kind, 600), (kind + 4, 0)] {
            for (v, expected) in readings.into_iter().zip(expected) {
                let mut controller = running(alarm(kind, 500, 300));
                assert_eq!(flags_after(&mut controller, &[zero + v]), [expected]);
                assert_eq!(controller.alarm(), (expected, 0), "kind {kind}, {v}");
            }
        }
    }
}

#[test]
fn kinds_4_and_8_are_on_between_their_bounds() {
    for (kind, zero) in [(4, 600), (8, 0)] {
        let setting = AlarmSetting {
            sensitivity: 5,
            ..alarm(kind, 40, 30)
        };
        for (v, expected) in [(29, 0), (30, 1), (40, 1), (41, 0)] {
            let mut controller = running(setting);
            assert_eq!(flags_after(&mut controller, &[zero + v]), [expected]);
        }
        // "the range of kinds 4 and 8 widens by C at both ends"
        let mut controller = running(setting);
        let readings = [40, 45, 25, 24, 25, 30, 45, 46, 45].map(|v| zero + v);
        assert_eq!(
            flags_after(&mut controller, &readings),
            [1, 1, 1, 0, 0, 1, 1, 0, 0]
        );
        // L = H is in range.
        let mut controller = running(alarm(kind, 30, 30));
        assert_eq!(
            flags_after(&mut controller, &[29, 30, 31].map(|v| zero + v)),
            [0, 1, 0]
        );
    }
}

#[test]
fn an_alarm_that_is_on_keeps_the_easier_bound_until_it_goes_off() {
    let easier = |kind, high, low| AlarmSetting {
        sensitivity: 50,
        ..alarm(kind, high, low)
    };
    for (kind, zero) in [(2, 600), (6, 0)] {
        let mut controller = running(easier(kind, 300, 0));
        let readings = [299, 300, 250, 249, 250, 299, 300].map(|v| zero + v);
        let expected = [0, 1, 1, 0, 0, 0, 1];
        assert_eq!(flags_after(&mut controller, &readings), expected);
    }
    for (kind, zero) in [(3, 600), (7, 0)] {
        let mut controller = running(easier(kind, 0, 100));
        let readings = [101, 100, 150, 151, 150, 101, 100].map(|v| zero + v);
        let expected = [0, 1, 1, 0, 0, 0, 1];
        assert_eq!(flags_after(&mut controller, &readings), expected);
    }
}

#[test]
fn four_alarms_are_judged_each_by_itself() {
    let settings = Config {
        alarms: [
            alarm(6, 500, 0),
            alarm(7, 0, 400),
            AlarmSetting {
                delay: 1,
                ..alarm(2, -100, 0)
            },
            AlarmSetting {
                flags: STANDBY,
                ..alarm(8, 500, 400)
            },
        ],
    };
    let mut controller = Controller::with(bank_e(), settings);
    controller.send(START);
    let mut alarms_after = |v| {
        controller.ticks(1, v);
        controller
            .state
            .alarms
            .map(|alarm| (alarm.flags, alarm.count))
    };
    assert_eq!(alarms_after(500), [(1, 0), (0, 0), (0, 1), (0, 0)]);
    assert_eq!(alarms_after(501), [(1, 0), (0, 0), (1, 0), (2, 0)]);
    assert_eq!(alarms_after(400), [(0, 0), (1, 0), (0, 0), (3, 0)]);
    assert_eq!(alarms_after(399), [(0, 0), (1, 0), (0, 0), (2, 0)]);
}

/// The answer of bank E with this alarm to a tick.
fn answer_to_a_tick(alarm: AlarmSetting) -> Answer {
    let mut controller = Controller::new(bank_e());
    controller.config = config(alarm);
    controller.send(tick(600))
}

/// 1.1 A: "between L and H inclusive, which needs L ≤ H"
#[test]
fn kinds_4_and_8_alone_need_l_not_above_h() {
    assert_eq!(answer_to_a_tick(alarm(8, 400, 500)), refused(41));
    assert_eq!(answer_to_a_tick(alarm(4, 400, 500)), refused(41));
    for kind in [0, 1, 2, 3, 5, 6, 7] {
        assert!(is_accepted(answer_to_a_tick(alarm(kind, 400, 500))));
    }
    // Kinds 1 and 5 are then always true.
    let mut controller = running(alarm(5, 400, 500));
    assert_eq!(flags_after(&mut controller, &[450]), [1]);
}

/// 1.2 A: fields that a kind does not use are in range too.
#[test]
fn fields_that_a_kind_does_not_use_are_judged() {
    assert_eq!(answer_to_a_tick(alarm(0, 30_000, 0)), refused(41));
    assert_eq!(answer_to_a_tick(alarm(6, 500, -20_000)), refused(41));
    assert_eq!(answer_to_a_tick(alarm(7, -20_000, 0)), refused(41));
}

/// 1.3: the flags are one number; hold is it being odd, standby its half being
/// odd.
#[test]
fn the_settings_flags_are_one_number() {
    let with_flags = |flags| AlarmSetting { flags, ..ABOVE_500 };
    for flags in 0..=3 {
        assert!(is_accepted(answer_to_a_tick(with_flags(flags))));
        let mut controller = running(with_flags(flags));
        let passed = flags & STANDBY;
        let held = flags & HOLD;
        assert_eq!(
            flags_after(&mut controller, &[499, 500, 499]),
            [passed, passed | 1, passed | held]
        );
    }
    for flags in 4..=255 {
        assert_eq!(answer_to_a_tick(with_flags(flags)), refused(41));
        let mut controller = running(ABOVE_500);
        controller.config = config(with_flags(flags));
        controller.state.alarms[0].flags = 2;
        let standby = flags / 2 % 2 == 1;
        assert_eq!(controller.sound(), standby);
        controller.state.alarms[0].flags = 1;
        assert_eq!(controller.sound(), !standby);
    }
}

/// 1.4 A: "judged after the tick's own step", with the set value of the step
/// that it leaves.
#[test]
fn alarms_are_judged_after_the_ticks_own_step() {
    let steps = [step(300, 0), step(600, 0)];
    let mut controller = running_over(&steps, alarm(3, 0, -100));
    assert_eq!(flags_after(&mut controller, &[450]), [1]);
    assert_eq!(controller.place(), (1, 2, 1, 0, 0, 300));
    // On a ramp too: 200 to 260 in 60 seconds, 1 more each tick.
    let mut controller = running_over(&[step(260, 1)], alarm(2, 0, 0));
    assert_eq!(
        flags_after(&mut controller, &[200, 202, 202, 204]),
        [0, 1, 0, 1]
    );
}

/// 1.5: "if the mode is then 1 or 2"
#[test]
fn alarms_are_judged_in_modes_1_and_2() {
    let mut controller = running_over(&[step(600, 0)], ABOVE_500);
    assert_eq!(flags_after(&mut controller, &[900]), [0]);
    assert_eq!(controller.state.mode, 3);
    let mut controller = running(ABOVE_500);
    controller.send(PAUSE);
    assert_eq!(flags_after(&mut controller, &[500]), [1]);
    assert_eq!(controller.state.mode, 2);
    let mut controller = Controller::with(bank_e(), config(ABOVE_500));
    assert_eq!(flags_after(&mut controller, &[500, 600]), [0, 0]);
    assert_eq!(controller.state.mode, 0);
}

/// 1.5: the tick that ends the run leaves flags and counts.
#[test]
fn the_tick_that_ends_the_run_judges_nothing() {
    let delayed = AlarmSetting {
        delay: 5,
        ..ABOVE_500
    };
    let steps = [step(600, 0), step(600, 0)];
    let mut controller = running_over(&steps, delayed);
    assert_eq!(
        after_each(&mut controller, &[tick(500), tick(400), tick(400)]),
        [(0, 1); 3]
    );
    assert_eq!(controller.state.mode, 3);
}

/// 1.6 A: flags stay in mode 3 until a start or a move to stopped.
#[test]
fn mode_3_keeps_the_alarms() {
    for clearing in [START, RESET, SELECT] {
        let mut controller = running(ABOVE_500);
        assert_eq!(
            after_each(&mut controller, &[tick(500), FEED, tick(100), clearing]),
            [(1, 0), (1, 0), (1, 0), (0, 0)]
        );
    }
}

/// A counting alarm is cleared as one that is on.
#[test]
fn a_start_or_any_move_to_stopped_clears_flags_and_counts() {
    let counting = AlarmSetting {
        delay: 3,
        ..ABOVE_500
    };
    let mut controller = running(counting);
    assert_eq!(
        after_each(&mut controller, &[tick(500), FEED, tick(100), START]),
        [(0, 1), (0, 1), (0, 1), (0, 0)]
    );
    assert_eq!(
        after_each(&mut controller, &[tick(500), tick(500), RESET, START]),
        [(0, 1), (0, 2), (0, 0), (0, 0)]
    );
    assert_eq!(
        after_each(&mut controller, &[tick(500), PAUSE, RESET]),
        [(0, 1), (0, 1), (0, 0)]
    );
}

#[test]
fn the_other_commands_leave_the_alarms() {
    let counting = AlarmSetting {
        delay: 9,
        ..alarm(6, 0, 0)
    };
    let steps = [step(600, 3), step(600, 3)];
    let mut controller = running_over(&steps, counting);
    controller.ticks(3, 0);
    for command in [
        Command::Plus,
        Command::Minus,
        Command::Pause,
        Command::Feed,
        Command::Back,
        Command::Back,
        Command::Feed,
        Command::Feed,
    ] {
        assert!(is_accepted(controller.command(command)));
        assert_eq!(controller.alarm(), (0, 3));
    }
    assert_eq!(controller.state.mode, 3);
}

#[test]
fn a_refused_event_leaves_the_alarms() {
    let mut controller = running(ABOVE_500);
    controller.ticks(1, 500);
    for (event, number) in [
        (START, 27),
        (SELECT, 27),
        (tick(30_000), 25),
        (back_with(100), 24),
        (Event::Command(Command::Plus), 30),
    ] {
        assert_eq!(controller.send(event), refused(number));
        assert_eq!(controller.alarm(), (1, 0));
    }
}

/// 1.7 A: "hold keeps it on until cleared", over anything but a start or a move
/// to stopped.
#[test]
fn a_held_alarm_stays_on_until_cleared() {
    let held = AlarmSetting {
        flags: HOLD,
        ..ABOVE_500
    };
    let mut controller = running(held);
    let events = [
        tick(500),
        tick(100),
        OVER,
        UNDER,
        PAUSE,
        tick(100),
        PAUSE,
        tick(100),
    ];
    assert_eq!(after_each(&mut controller, &events), [(1, 0); 8]);
    controller.send(PAUSE);
    controller.send(Event::Cut);
    assert_eq!(controller.alarm(), (0, 0));
    let events = [back_with(100), tick(100), FEED, tick(100)];
    assert_eq!(after_each(&mut controller, &events), [(1, 0); 4]);
    assert_eq!(controller.state.mode, 3);
    controller.send(Event::Cut);
    assert_eq!(
        after_each(&mut controller, &[back_with(100), START]),
        [(1, 0), (0, 0)]
    );
    let mut controller = running(held);
    assert_eq!(
        after_each(&mut controller, &[tick(500), RESET, START, tick(100)]),
        [(1, 0), (0, 0), (0, 0), (0, 0)]
    );
}

/// 1.8 A: "Delay wants the condition on that many ticks running beyond the
/// first".
#[test]
fn a_delay_counts_true_ticks_beyond_the_first() {
    let with_delay = |delay| AlarmSetting { delay, ..ABOVE_500 };
    let mut controller = running(with_delay(2));
    assert_eq!(
        after_each(&mut controller, &[tick(500); 3]),
        [(0, 1), (0, 2), (1, 0)]
    );
    let mut controller = running(with_delay(0));
    assert_eq!(
        after_each(&mut controller, &[tick(499), tick(500), tick(500)]),
        [(0, 0), (1, 0), (1, 0)]
    );
    // "0 after a false one", and the row starts anew once it went off.
    let mut controller = running(with_delay(1));
    let readings = [500, 499, 500, 500, 500, 499, 500, 500].map(tick);
    assert_eq!(
        after_each(&mut controller, &readings),
        [
            (0, 1),
            (0, 0),
            (0, 1),
            (1, 0),
            (1, 0),
            (0, 0),
            (0, 1),
            (1, 0)
        ]
    );
    let mut controller = running(with_delay(9_999));
    controller.ticks(9_999, 500);
    assert_eq!(controller.alarm(), (0, 9_999));
    controller.ticks(1, 500);
    assert_eq!(controller.alarm(), (1, 0));
}

/// 1.9 A: a tick without a filtered value is neither true nor false.
#[test]
fn a_tick_without_a_filtered_value_does_not_break_a_row() {
    for unfiltered in [OVER, UNDER] {
        let mut controller = running(AlarmSetting {
            delay: 2,
            ..ABOVE_500
        });
        let events = [tick(500), unfiltered, tick(500), tick(500)];
        assert_eq!(
            after_each(&mut controller, &events),
            [(0, 1), (0, 1), (0, 2), (1, 0)]
        );
    }
}

/// 1.10 A: a count beside a flag that is on, or while standby waits, is sound,
/// and the next judged tick makes it 0.
#[test]
fn a_count_is_0_once_on_or_while_standby_waits() {
    let delayed = AlarmSetting {
        delay: 3,
        ..ABOVE_500
    };
    let standby = AlarmSetting {
        flags: STANDBY,
        ..delayed
    };
    for (setting, flags) in [(delayed, 1), (standby, 0), (standby, 3)] {
        let mut controller = running(setting);
        controller.state.alarms[0] = Alarm { flags, count: 2 };
        assert!(controller.sound());
        assert_eq!(
            after_each(&mut controller, &[OVER, tick(500)]),
            [(flags, 2), (flags, 0)]
        );
        // Such a record is accepted by a return, which judges nothing.
        let mut controller = running(setting);
        controller.state.alarms[0] = Alarm { flags, count: 2 };
        controller.record = record_of(&controller.state);
        assert!(controller.readable());
        assert_eq!(
            after_each(&mut controller, &[Event::Cut, back_with(100), tick(500)]),
            [(0, 0), (flags, 2), (flags, 0)]
        );
    }
}

/// The answer to a return whose record has these flags, in mode 1.
fn answer_to_a_return(setting: AlarmSetting, flags: u8, count: u16) -> Answer {
    let mut controller = running(setting);
    controller.send(Event::Cut);
    controller.record[411] = flags;
    controller.record[412..414].copy_from_slice(&count.to_le_bytes());
    let readable = controller.readable();
    let record = controller.record;
    let answer = controller.send(back_with(100));
    assert_eq!(is_accepted(answer), readable);
    if readable {
        assert_eq!(controller.alarm(), (flags, count));
    }
    assert_eq!(controller.record, record);
    answer
}

/// 1.11: "a flag byte above 3 (above 1 without standby, or 1 with it)"
#[test]
fn flag_bytes_of_a_record() {
    let standby = AlarmSetting {
        flags: STANDBY,
        ..ABOVE_500
    };
    for flags in 0..=255 {
        let plain = answer_to_a_return(ABOVE_500, flags, 0);
        let waiting = answer_to_a_return(standby, flags, 0);
        assert_eq!(is_accepted(plain), [0, 1].contains(&flags), "{flags}");
        assert_eq!(is_accepted(waiting), [0, 2, 3].contains(&flags), "{flags}");
        for answer in [plain, waiting] {
            assert!(is_accepted(answer) || answer == refused(31));
        }
    }
}

/// "a count above its delay"
#[test]
fn counts_of_a_record() {
    for delay in [0, 1, 255, 256, 9_999] {
        let setting = AlarmSetting { delay, ..ABOVE_500 };
        for flags in [0, 1] {
            assert!(is_accepted(answer_to_a_return(setting, flags, delay)));
            for count in [delay + 1, u16::MAX] {
                assert_eq!(answer_to_a_return(setting, flags, count), refused(31));
            }
        }
    }
}

/// The bounds of each alarm hold for record and state alike, by its own
/// settings.
#[test]
fn every_alarm_has_its_own_bounds() {
    for place in 0..4 {
        let mut settings = Config::default();
        settings.alarms[place].delay = 5;
        settings.alarms[place].flags = STANDBY;
        let mut controller = Controller::with(bank_e(), settings);
        controller.send(START);
        for mode in 0..=3 {
            for (flags, count, in_bounds) in [(3, 5, true), (1, 0, false), (0, 6, false)] {
                let mut state = State {
                    mode,
                    b: 0,
                    ..controller.state
                };
                state.alarms[place] = Alarm { flags, count };
                let expected = in_bounds && mode != 0;
                let sound = model::sound(&controller.bank, &settings, &state);
                let record = record_of(&state);
                let readable = model::readable(&controller.bank, &settings, &record);
                assert_eq!((sound, readable), (expected, expected));
                // Another alarm has neither standby nor delay.
                state.alarms.rotate_left(1);
                let sound = model::sound(&controller.bank, &settings, &state);
                assert_eq!(sound, (flags, count) == (1, 0) && mode != 0);
            }
        }
    }
}

/// "in mode 0, any flag or count not 0 isn't readable"
#[test]
fn mode_0_has_no_flag_and_no_count() {
    let setting = AlarmSetting {
        delay: 5,
        flags: STANDBY,
        ..ABOVE_500
    };
    let settings = Config {
        alarms: [setting; 4],
    };
    let made = Controller::with(bank_e(), settings);
    assert!(made.sound() && made.readable());
    assert_eq!(made.record[411..], [0; 12]);
    for place in 411..423 {
        let mut record = made.record;
        record[place] = 2;
        assert!(!model::readable(&made.bank, &settings, &record));
    }
    for place in 0..4 {
        for (flags, count) in [(2, 0), (3, 0), (0, 1), (0, 5)] {
            let mut state = made.state;
            state.alarms[place] = Alarm { flags, count };
            assert!(!model::sound(&made.bank, &settings, &state));
            state.power = false;
            assert!(model::sound(&made.bank, &settings, &state));
        }
    }
}

/// 1.12 A: "Kind 0 is never true", so its first judged tick is the false one.
#[test]
fn kind_0_passes_standby() {
    let standby = AlarmSetting {
        flags: STANDBY,
        ..alarm(0, 0, 0)
    };
    let mut controller = running(standby);
    assert_eq!(flags_after(&mut controller, &[600, 600]), [2, 2]);
    let mut controller = running(alarm(0, -19_999, 29_999));
    assert_eq!(flags_after(&mut controller, &[600, 0]), [0, 0]);
}

/// 1.13 A: "standby waits for one false tick after start".
#[test]
fn standby_waits_for_one_false_tick() {
    let standby = AlarmSetting {
        delay: 1,
        flags: STANDBY,
        ..ABOVE_500
    };
    let mut controller = running(standby);
    let events = [
        tick(600),
        OVER,
        tick(600),
        tick(499),
        tick(600),
        tick(600),
        tick(100),
        tick(600),
    ];
    let expected = [
        (0, 0),
        (0, 0),
        (0, 0),
        (2, 0),
        (2, 1),
        (3, 0),
        (2, 0),
        (2, 1),
    ];
    assert_eq!(after_each(&mut controller, &events), expected);
    // Armed again by a start, and not by a return.
    controller.send(PAUSE);
    controller.send(Event::Cut);
    assert_eq!(
        after_each(&mut controller, &[back_with(100), tick(600)]),
        [(2, 1), (3, 0)]
    );
    assert_eq!(
        after_each(&mut controller, &[RESET, START, tick(600)]),
        [(0, 0); 3]
    );
}

/// 1.13: a paused tick may be the false one; while standby waits H and L are
/// used without C.
#[test]
fn standby_is_passed_by_the_bounds_without_c() {
    let standby = AlarmSetting {
        sensitivity: 100,
        flags: STANDBY,
        ..ABOVE_500
    };
    let mut controller = running(standby);
    controller.send(PAUSE);
    assert_eq!(
        flags_after(&mut controller, &[500, 499, 499, 500, 400, 399]),
        [0, 2, 2, 3, 3, 2]
    );
}

#[test]
fn hold_and_standby_together() {
    let both = AlarmSetting {
        flags: HOLD | STANDBY,
        ..ABOVE_500
    };
    let mut controller = running(both);
    assert_eq!(
        flags_after(&mut controller, &[500, 100, 500, 100, 100]),
        [0, 2, 3, 3, 3]
    );
    assert_eq!(
        after_each(&mut controller, &[RESET, START, tick(500)]),
        [(0, 0); 3]
    );
}

/// 1.14 A: C moves both bounds of kinds 1 and 5, whichever made it true.
#[test]
fn both_bounds_of_kinds_1_and_5_are_replaced() {
    for (kind, zero) in [(1, 600), (5, 0)] {
        let mut controller = running(AlarmSetting {
            sensitivity: 50,
            ..alarm(kind, 500, 100)
        });
        let readings = [500, 450, 150, 300, 450].map(|v| zero + v);
        assert_eq!(
            flags_after(&mut controller, &readings),
            [1, 1, 1, 0, 0],
            "kind {kind}"
        );
    }
}

/// 1.15 A: bounds and differences are plain whole numbers.
#[test]
fn bounds_and_differences_do_not_overflow() {
    let started_at = |target, setting| {
        let settings = Settings {
            sll: -19_999,
            slh: 29_999,
            ..settings(1)
        };
        started(bank(&settings, &[(1, &[step(target, 6_000)])]), setting)
    };
    let mut controller = started_at(-19_000, alarm(2, 20_000, 0));
    assert_eq!(flags_after(&mut controller, &[29_000]), [1]);
    let widest = |kind, high, low| AlarmSetting {
        sensitivity: 9_999,
        ..alarm(kind, high, low)
    };
    let mut controller = started_at(-15_000, widest(3, 0, 29_999));
    assert_eq!(
        flags_after(&mut controller, &[10_000, 20_000, 24_998, 24_999]),
        [1, 1, 1, 0]
    );
    let mut controller = started_at(29_999, alarm(3, 0, -19_999));
    assert_eq!(flags_after(&mut controller, &[-19_999]), [1]);
    let mut controller = started_at(10_000, widest(2, -19_999, 0));
    assert_eq!(
        flags_after(&mut controller, &[-9_999, -19_998, -19_999]),
        [1, 1, 0]
    );
    let mut controller = started_at(10_000, widest(4, 29_999, -19_999));
    assert_eq!(
        flags_after(&mut controller, &[-9_999, -19_998, 29_999, -19_999]),
        [1, 1, 1, 0]
    );
}

/// 1.16 A: alarms do not travel in the answer, and nothing but their own flags
/// and counts follows from them. 1.22: so they never make a tick save.
#[test]
fn alarms_change_nothing_else() {
    let mut random = Random::new(11);
    for _ in 0..300 {
        let bank = random.bank();
        let mut plain = Controller::new(bank.clone());
        let mut alarmed = Controller::with(bank, random.config());
        for _ in 0..200 {
            let event = random.event();
            assert_eq!(plain.send(event), alarmed.send(event));
            assert_eq!(plain.record[..411], alarmed.record[..411]);
            assert_eq!(plain.state.alarms, [Alarm::default(); 4]);
            let alarms = plain.state.alarms;
            let without = State {
                alarms,
                ..alarmed.state
            };
            assert_eq!(plain.state, without);
        }
    }
}

/// 1.17 A: 41 comes "after 22" and before 23.
#[test]
fn settings_out_of_range_come_before_power_off() {
    let mut controller = Controller::new(bank_e());
    controller.send(Event::Cut);
    controller.config = config(WRONG);
    assert_eq!(controller.send(tick(600)), refused(41));
    assert_eq!(controller.send(back_with(99_999)), refused(41));
}

/// 1.18: soundness is judged with the settings as given, even if they are out
/// of range. Making has no 21.
#[test]
fn soundness_comes_before_settings_out_of_range() {
    let too_long = AlarmSetting {
        delay: 10_000,
        ..ABOVE_500
    };
    let mut controller = running(ABOVE_500);
    controller.config = config(too_long);
    for (count, number) in [(10_000, 41), (10_001, 21)] {
        controller.state.alarms[0].count = count;
        assert_eq!(controller.sound(), number == 41);
        let (state, record) = (controller.state, controller.record);
        assert_eq!(controller.send(tick(600)), refused(number));
        assert_eq!((controller.state, controller.record), (state, record));
    }
    let made = make(&bank_e(), &config(too_long), &mut [0; 423]);
    assert_eq!(made, Err(with_values(41, 0, 0)));
}

/// 1.19: a record and a state are judged with the settings of the call.
#[test]
fn nothing_remembers_the_settings() {
    let delayed = |delay| AlarmSetting { delay, ..ABOVE_500 };
    let standby = AlarmSetting {
        flags: STANDBY,
        ..ABOVE_500
    };
    let cases = [
        (delayed(3), 2, (0, 2), delayed(1)),
        (ABOVE_500, 1, (1, 0), standby),
    ];
    for (before, ticks, expected, after) in cases {
        let mut controller = running(before);
        controller.ticks(ticks, 500);
        assert_eq!(controller.alarm(), expected);
        controller.send(PAUSE);
        let mut live = controller.state;
        let mut record = controller.record;
        assert_eq!(
            model::event(
                &controller.bank,
                &config(after),
                &mut record,
                &mut live,
                PAUSE
            ),
            refused(21)
        );
        controller.send(Event::Cut);
        controller.config = config(after);
        assert_eq!(controller.send(back_with(500)), refused(31));
        controller.config = config(before);
        assert!(is_accepted(controller.send(back_with(500))));
        assert_eq!(controller.alarm(), expected);
    }
}

/// 1.20: the measured whole value is judged, not y.
#[test]
fn the_measured_whole_value_is_judged() {
    let settings = Settings {
        filter: 10,
        ..settings(1)
    };
    for (kind, zero) in [(6, 0), (2, 600)] {
        let setting = alarm(kind, 101 - zero, 0);
        let mut controller = started(bank(&settings, &[(1, &ENDLESS)]), setting);
        assert_eq!(flags_after(&mut controller, &[100, 101]), [0, 1]);
        assert_eq!(controller.state.measured, Measured::Value(100.5));
    }
}

/// 1.21: a return to stopped clears, and saves that; mode 3 stays as it is.
#[test]
fn a_return_with_choice_0_clears() {
    let mut controller = started(bank_e_with_outage(0), ABOVE_500);
    let events = [tick(500), PAUSE, Event::Cut];
    assert_eq!(
        after_each(&mut controller, &events),
        [(1, 0), (1, 0), (0, 0)]
    );
    assert_eq!(
        controller.record[411..],
        [1, 0, 0, 0, 0, 0, 0, 0, 0, 0, 0, 0]
    );
    assert_eq!(after_each(&mut controller, &[back_with(500)]), [(0, 0)]);
    assert_eq!(controller.state.mode, 0);
    assert_eq!(controller.record[411..], [0; 12]);
    let mut controller = started(bank_e_with_outage(0), ABOVE_500);
    let events = [tick(500), FEED, Event::Cut, back_with(100)];
    assert_eq!(
        after_each(&mut controller, &events),
        [(1, 0), (1, 0), (0, 0), (1, 0)]
    );
    assert_eq!(controller.state.mode, 3);
}

/// The other choices bring the alarms back as they were saved.
#[test]
fn a_return_with_choice_1_or_2_keeps() {
    for (outage, mode) in [(1, 2), (2, 1)] {
        let counting = AlarmSetting {
            delay: 70,
            ..ABOVE_500
        };
        let mut controller = started(bank_e_with_outage(outage), counting);
        controller.ticks(65, 500);
        assert_eq!(controller.alarm(), (0, 65));
        controller.send(Event::Cut);
        assert_eq!(after_each(&mut controller, &[back_with(100)]), [(0, 60)]);
        assert_eq!(controller.state.mode, mode);
    }
}

/// 1.22: what alarms did since the last save is lost with the cut.
#[test]
fn changes_since_the_last_save_are_lost() {
    let mut controller = running(ABOVE_500);
    assert_eq!(after_each(&mut controller, &[tick(500)]), [(1, 0)]);
    assert_eq!(controller.state.u, 1);
    assert_eq!(
        after_each(&mut controller, &[Event::Cut, back_with(100)]),
        [(0, 0), (0, 0)]
    );
}

/// Whether an alarm is true of a value, with its bounds moved by C or not.
fn true_of(setting: &AlarmSetting, moved: bool, (value, difference): (i32, i32)) -> bool {
    let c = i32::from(setting.sensitivity) * i32::from(moved);
    let (h, l) = (i32::from(setting.high), i32::from(setting.low));
    let x = [difference, value][usize::from(setting.kind > 4)];
    let (above, below) = (x + c >= h, x - c <= l);
    match setting.kind {
        0 => false,
        1 | 5 => above || below,
        2 | 6 => above,
        3 | 7 => below,
        _ => x - c <= h && x + c >= l,
    }
}

/// Flags and count by all that was judged since the last clear: the false tick
/// that standby waits for, then rows of true ticks and what follows each.
fn by_history(setting: &AlarmSetting, judged: &[(i32, i32)]) -> Alarm {
    let is_true = |moved| move |&value: &(i32, i32)| true_of(setting, moved, value);
    let (mut rest, mut passed) = (judged, 0);
    if setting.flags & STANDBY != 0 {
        let Some(place) = rest.iter().position(|value| !is_true(false)(value)) else {
            return Alarm::default();
        };
        (rest, passed) = (&rest[place + 1..], 2);
    }
    let row = usize::from(setting.delay) + 1;
    loop {
        let mut rows = rest.windows(row);
        let Some(first) = rows.position(|row| row.iter().all(is_true(false))) else {
            let running = rest.iter().rev().take_while(|&value| is_true(false)(value));
            let (flags, count) = (passed, running.count() as u16);
            return Alarm { flags, count };
        };
        rest = &rest[first + row..];
        let off = rest.iter().position(|value| !is_true(true)(value));
        match off {
            Some(place) if setting.flags & HOLD == 0 => rest = &rest[place + 1..],
            _ => {
                let flags = passed | 1;
                return Alarm { flags, count: 0 };
            }
        }
    }
}

/// What was judged since the last clear, as it is and as it was saved.
#[derive(Default)]
struct History {
    judged: Vec<(i32, i32)>,
    saved: Vec<(i32, i32)>,
}

impl History {
    fn take(&mut self, event: Event, controller: &Controller) {
        let Answer::Accepted { set_value, .. } = controller.answer else {
            return;
        };
        let state = &controller.state;
        let in_program = state.mode == 1 || state.mode == 2;
        match (event, state.measured) {
            (Event::Cut, _) => return,
            (Event::Return(_), _) => self.judged.clone_from(&self.saved),
            (START, _) => self.judged.clear(),
            (Event::Tick(_), Measured::Value(y)) if in_program => {
                let value = y.round() as i32;
                self.judged.push((value, value - i32::from(set_value)));
            }
            _ => {}
        }
        if state.mode == 0 {
            self.judged.clear();
        }
        if state.u == 0 {
            self.saved.clone_from(&self.judged);
        }
    }
}

/// Over random lists with outages the alarms are what their history says.
#[test]
fn alarms_follow_from_what_was_judged() {
    let mut random = Random::new(12);
    let mut seen = [0; 4];
    for _ in 0..400 {
        let mut controller = Controller::with(random.bank(), random.config());
        let mut history = History::default();
        for _ in 0..150 {
            let event = random.event();
            controller.send(event);
            history.take(event, &controller);
            if controller.state.power {
                let expected = controller
                    .config
                    .alarms
                    .map(|setting| by_history(&setting, &history.judged));
                assert_eq!(controller.state.alarms, expected);
            }
            for alarm in controller.state.alarms {
                seen[usize::from(alarm.flags)] += 1;
            }
        }
    }
    assert!(seen.iter().all(|&count| count > 1_000), "{seen:?}");
}

/// Readings near each other around the bounds, with outages, in runs that go
/// on: the alarms of the controller are those of the replay machine.
#[test]
fn alarms_over_lists_with_outages_are_those_of_the_replay() {
    let mut random = Random::new(13);
    let (mut on, mut counting, mut passed) = (0, 0, 0);
    for _ in 0..400 {
        let outage = random.between(0, 2) as u8;
        let bank = bank_e_with_outage(outage);
        let mut settings = random.config();
        for setting in &mut settings.alarms {
            setting.delay = random.between(0, 6) as u16;
            setting.sensitivity = random.between(0, 100) as u16;
        }
        let mut controller = Controller::with(bank.clone(), settings);
        let mut events = vec![START];
        let mut v = 500;
        while events.len() < 200 {
            v = (v + random.between(-120, 120)).clamp(-400, 1_000);
            match random.between(0, 59) {
                0 => events.extend([Event::Cut, tick(0), back_with(v as i32)]),
                1 => events.push(Event::Cut),
                2 => events.push(back_with(v as i32)),
                3 => events.push(START),
                4..=6 => events.push(Event::Command(random.command())),
                7 => events.push(random.pick(&[OVER, UNDER])),
                _ => events.push(tick(v as i32)),
            }
        }
        for (length, &event) in (1..).zip(&events) {
            controller.send(event);
            if length % 40 != 0 || !controller.state.power {
                continue;
            }
            let (left, power) = what_is_left(&bank, &settings, &events[..length]);
            let (state, answer) = replay(&bank, &settings, &left);
            assert!(power);
            assert_eq!(controller.state.alarms, state.alarms);
            assert_eq!((controller.state, controller.answer), (state, answer));
            for alarm in state.alarms {
                on += u32::from(alarm.flags & 1);
                passed += u32::from(alarm.flags / 2);
                counting += u32::from(alarm.count > 0);
            }
        }
    }
    assert!(on > 300 && passed > 300 && counting > 100);
}
