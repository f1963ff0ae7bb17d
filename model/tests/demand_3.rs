//! Demand 3: the controller's run over a list, against the replay machine run
//! over what is left of the list.

mod common;

use common::*;
use model::{
    credits_due, record_of, replay, saves, what_is_left, Alarm, Answer, Command, Config, Event,
    Left, Reading, Refusal, State,
};

/// The whole claim for one list.
fn claim_holds(bank: &[u8], config: &Config, events: &[Event]) {
    let mut controller = Controller::with(bank.to_vec(), *config);
    for &event in events {
        controller.send(event);
    }
    let (left, power) = what_is_left(bank, config, events);
    assert_eq!(controller.state.power, power);
    if power {
        let (state, answer) = replay(bank, config, &left);
        assert_eq!(controller.state, state);
        assert_eq!(controller.answer, answer);
        credits_are_due(bank, config, &left, &controller.state);
    } else {
        power_off_holds(&controller, events);
    }
    record_is_of_last_save(&left, &controller);
}

/// "held at 4,294,967,295"
fn credits_are_due(bank: &[u8], config: &Config, left: &[Left], state: &State) {
    let due = credits_due(bank, config, left);
    assert_eq!(
        due.map(|count| count.min(u32::MAX.into()) as u32),
        state.credits
    );
}

/// With power off the state is all zeros; a cut was accepted, "all else is
/// then refused".
fn power_off_holds(controller: &Controller, events: &[Event]) {
    assert_eq!(controller.place(), (0, 0, 0, 0, 0, 0));
    assert_eq!(controller.state.credits, [0; 99]);
    assert_eq!(controller.state.alarms, [Alarm::default(); 4]);
    match (events.last(), controller.answer) {
        (
            Some(Event::Cut),
            Answer::Accepted {
                set_value: 0,
                signals: [false, false, false, false],
            },
        ) => {}
        (Some(Event::Return(_)), answer) => assert_eq!(answer, refused(25)),
        (_, answer) => assert_eq!(answer, refused(23)),
    }
}

/// "the record is then that of the last save"
fn record_is_of_last_save(left: &[Left], controller: &Controller) {
    let (bank, config) = (&controller.bank, &controller.config);
    let saved = saves(bank, config, left)
        .iter()
        .rposition(|&saves| saves)
        .map_or(0, |last| last + 1);
    let (state, _) = replay(bank, config, &left[..saved]);
    assert_eq!(controller.record, record_of(&state));
    assert!(controller.readable());
}

#[test]
fn random_lists() {
    let mut random = Random::new(6);
    for _ in 0..1_500 {
        let (bank, config) = (random.bank(), random.config());
        let length = random.between(0, 400) as usize;
        let events: Vec<Event> = (0..length).map(|_| random.event()).collect();
        claim_holds(&bank, &config, &events);
    }
}

/// Short lists, every front part of which is a list too.
#[test]
fn every_front_part_of_random_lists() {
    let mut random = Random::new(7);
    for _ in 0..200 {
        let (bank, config) = (random.bank(), random.config());
        let events: Vec<Event> = (0..60).map(|_| random.event()).collect();
        for length in 0..=events.len() {
            claim_holds(&bank, &config, &events[..length]);
        }
    }
}

/// Lists of plain runs: a start first, then ticks with few cuts, so that
/// passes end and many ticks lie between saves.
#[test]
fn long_runs_with_cuts() {
    let mut random = Random::new(8);
    let (mut ended, mut sounding) = (0, 0);
    for _ in 0..300 {
        let (bank, config) = (random.bank(), random.config());
        let mut events = vec![tick(20), START];
        while events.len() < 2_000 {
            match random.between(0, 199) {
                0 => events.extend([Event::Cut, tick(1), back_with(300)]),
                1 => events.push(Event::Command(random.command())),
                _ => events.push(Event::Tick(random.reading())),
            }
        }
        claim_holds(&bank, &config, &events);
        let (left, _) = what_is_left(&bank, &config, &events);
        let (state, _) = replay(&bank, &config, &left);
        ended += usize::from(state.mode == 3);
        sounding += usize::from(state.alarms.iter().any(|alarm| alarm.flags & 1 == 1));
    }
    assert!(ended > 10 && sounding > 10, "{ended}, {sounding}");
}

/// A list that starts often, feeds and goes back, with an outage now and then.
fn list_of_starts(random: &mut Random) -> Vec<Event> {
    let mut events = vec![tick(20), START];
    while events.len() < 120 {
        match random.between(0, 39) {
            0 => events.extend([Event::Cut, Event::Return(random.reading())]),
            1 => events.extend([Event::Command(Command::Reset), START]),
            2 => events.push(Event::Command(Command::Back)),
            3 => events.extend([Command::Feed, Command::Back].map(Event::Command)),
            4 => events.push(Event::Command(random.command())),
            _ => events.push(Event::Tick(random.reading())),
        }
    }
    events
}

/// Under start choice 0: outages in the timer, starts that skip step 1, starts
/// that end at once.
#[test]
fn lists_with_the_timer() {
    let mut random = Random::new(19);
    let (mut in_it, mut returned, mut skipped, mut ended) = (0, 0, 0, 0);
    for _ in 0..400 {
        let (bank, config) = (random.bank_from_measured_value(), random.config());
        let events = list_of_starts(&mut random);
        for length in (1..=events.len()).step_by(17) {
            claim_holds(&bank, &config, &events[..length]);
        }
        let mut controller = Controller::with(bank, config);
        for event in events {
            let answer = controller.send(event);
            let State { mode, k, .. } = controller.state;
            if !is_accepted(answer) || mode == 0 {
                continue;
            }
            let timer = in_timer(&controller.bank, &controller.state);
            in_it += usize::from(timer);
            returned += usize::from(timer && matches!(event, Event::Return(_)));
            skipped += usize::from(event == START && k == 2);
            ended += usize::from(event == START && mode == 3);
        }
    }
    let seen = [in_it, returned, skipped, ended];
    assert!(seen.iter().all(|&count| count > 100), "{seen:?}");
}

#[test]
fn the_events_since_the_last_save_are_struck_out() {
    let bank = example_bank();
    let events = [
        tick(5),
        Event::Cut,
        START,
        back_with(99_999),
        Event::Cut,
        back_with(200),
        START,
        tick(200),
        tick(99_999),
        back_with(3),
        Event::Cut,
        back_with(300),
        tick(200),
    ];
    let config = Config::default();
    let (left, power) = what_is_left(&bank, &config, &events);
    let was_on = |event| Left {
        event,
        power_was_on: true,
    };
    let was_off = |event| Left {
        event,
        power_was_on: false,
    };
    let expected = [
        was_off(back_with(200)),
        was_on(START),
        was_off(back_with(300)),
        was_on(tick(200)),
    ];
    assert_eq!((&left[..], power), (&expected[..], true));
    assert_eq!(saves(&bank, &config, &left), [true, true, true, false]);
    assert_eq!(credits_due(&bank, &config, &left)[..2], [1, 0]);
}

#[test]
fn nothing_left_gives_the_state_and_answer_of_making() {
    let Controller {
        bank,
        config,
        state,
        answer,
        ..
    } = Controller::new(example_bank());
    assert_eq!(replay(&bank, &config, &[]), (state, answer));
    assert_eq!(what_is_left(&bank, &config, &[]), (vec![], true));
    assert_eq!(what_is_left(&bank, &config, &[Event::Cut]), (vec![], false));
}

/// Nothing is left of a list over which no controller is made.
fn leaves_nothing(bank: &[u8], config: &Config, number: u8) {
    let events = [START, tick(1)];
    assert_eq!(what_is_left(bank, config, &events), (vec![], false));
    let left = [Left {
        event: START,
        power_was_on: true,
    }];
    let (state, answer) = replay(bank, config, &left);
    assert!(!state.power);
    assert_eq!(
        answer,
        Answer::Refused(Refusal {
            number,
            first: 0,
            second: 0
        })
    );
    assert_eq!(saves(bank, config, &left), [false]);
    assert_eq!(credits_due(bank, config, &left), [0; 99]);
}

#[test]
fn a_refused_bank_leaves_nothing() {
    leaves_nothing(&[], &Config::default(), 11);
    leaves_nothing(&[], &config(WRONG), 11);
}

#[test]
fn settings_out_of_range_leave_nothing() {
    leaves_nothing(&example_bank(), &config(WRONG), 41);
}

/// Lists that are not what is left of anything: no call panics.
#[test]
fn the_replay_machine_takes_any_list() {
    let mut random = Random::new(9);
    for _ in 0..500 {
        let (bank, config) = (random.bank(), random.config());
        let left: Vec<Left> = (0..200)
            .map(|_| Left {
                event: random.event(),
                power_was_on: random.one_in(2),
            })
            .collect();
        let (state, _) = replay(&bank, &config, &left);
        assert!(model::sound(&bank, &config, &state));
        credits_are_due(&bank, &config, &left, &state);
        assert_eq!(saves(&bank, &config, &left).len(), left.len());
    }
    let over = Left {
        event: Event::Return(Reading::Over),
        power_was_on: false,
    };
    assert_eq!(saves(&example_bank(), &Config::default(), &[over]), [true]);
}
