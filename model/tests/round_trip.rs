//! What is written reads as what was taken.

mod common;

use common::*;
use model::{
    check, config_bytes, config_from, make, read_back, readable, record_of, sound, write, Alarm,
    AlarmSetting, Event, Measured, State,
};

#[test]
fn a_bank_written_reads_as_what_the_writer_took() {
    let mut random = Random::new(1);
    for _ in 0..2_000 {
        let (settings, patterns, steps) = random.layout();
        let mut out = [0x5A; 1_100];
        let length = write(&settings, &patterns, &steps, &mut out).expect("in range");
        assert!(length <= 1_011);
        assert!(out[length..].iter().all(|&byte| byte == 0x5A));
        assert_eq!(check(&out[..length]), Ok(()));
        assert_eq!(read_back(&out[..length]), Some((settings, patterns, steps)));
    }
}

#[test]
fn an_accepted_bank_written_again_has_the_same_bytes() {
    let mut random = Random::new(2);
    let mut accepted = 0;
    for _ in 0..20_000 {
        let mut bank = random.bank();
        let place = random.between(0, bank.len() as i64 - 1) as usize;
        bank[place] = random.next() as u8;
        if let Some((settings, patterns, steps)) = read_back(&bank) {
            accepted += 1;
            let mut out = vec![0; bank.len()];
            assert_eq!(
                write(&settings, &patterns, &steps, &mut out),
                Ok(bank.len())
            );
            assert_eq!(out, bank);
        }
    }
    assert!(accepted > 1_000);
}

#[test]
fn the_longest_bank_has_1011_bytes() {
    let steps = [step(600, 2); 7];
    let patterns = [(1, &steps[..]); 14];
    assert_eq!(bank(&settings(14), &patterns).len(), 1_011);
}

#[test]
fn the_record_has_its_fields_low_byte_first() {
    let mut state = Controller::new(example_bank()).state;
    state = State {
        mode: 1,
        p: 2,
        k: 3,
        r: 0x0504,
        e: 0x0908_0706,
        w: 0x0D0C_0B0A,
        b: -2,
        ..state
    };
    state.credits[0] = 0x0403_0201;
    state.credits[98] = 0xFFFF_FFFE;
    state.alarms = [(1, 0x0302), (4, 0x0605), (7, 0x0908), (10, 0x0C0B)]
        .map(|(flags, count)| Alarm { flags, count });
    let record = record_of(&state);
    let head = [
        1, 2, 3, 4, 5, 6, 7, 8, 9, 10, 11, 12, 13, 0xFE, 0xFF, 1, 2, 3, 4,
    ];
    assert_eq!(record[..19], head);
    assert_eq!(record[407..411], [0xFE, 0xFF, 0xFF, 0xFF]);
    assert_eq!(record[411..], [1, 2, 3, 4, 5, 6, 7, 8, 9, 10, 11, 12]);
    assert_eq!(record.len(), 423);
}

#[test]
fn the_settings_have_their_fields_low_byte_first() {
    let mut settings = config(AlarmSetting {
        kind: 1,
        high: 0x0302,
        low: -2,
        sensitivity: 0x0706,
        delay: 0x0908,
        flags: 10,
    });
    settings.alarms[3].flags = 3;
    let bytes = config_bytes(&settings);
    assert_eq!(bytes[..10], [1, 2, 3, 0xFE, 0xFF, 6, 7, 8, 9, 10]);
    assert_eq!(bytes[10..39], [0; 29]);
    assert_eq!(bytes[39], 3);
    assert_eq!(config_from(&bytes), Some(settings));
}

#[test]
fn settings_come_back_from_their_bytes() {
    let mut random = Random::new(15);
    for _ in 0..1_000 {
        let bytes: [u8; 40] = std::array::from_fn(|_| random.next() as u8);
        let read = config_from(&bytes).expect("40 bytes are settings");
        assert_eq!(config_bytes(&read), bytes);
        let settings = random.any_config();
        assert_eq!(config_from(&config_bytes(&settings)), Some(settings));
    }
    for length in [0, 1, 10, 39, 41, 48, 80] {
        assert_eq!(config_from(&vec![0; length]), None);
    }
}

/// A return without outage effect (paused, choice 1) gives the state whose
/// record was written, but for u and the measured value.
#[test]
fn a_readable_record_comes_back_as_the_state_it_was_written_from() {
    let mut random = Random::new(3);
    let mut readables = 0;
    for _ in 0..100_000 {
        let (mut bank, config) = (random.bank(), random.config());
        bank[2] = 1;
        let state = State {
            power: true,
            u: 0,
            ..random.state(&config)
        };
        let mut record = record_of(&state);
        let unread = State {
            measured: Measured::NoReading,
            ..state
        };
        let is_readable = readable(&bank, &config, &record);
        assert_eq!(is_readable, sound(&bank, &config, &unread));
        if state.mode == 1 || !is_readable {
            continue;
        }
        readables += 1;
        let mut off = State {
            power: false,
            ..state
        };
        let answer = model::event(&bank, &config, &mut record, &mut off, back_with(5));
        assert!(is_accepted(answer));
        assert_eq!(
            off,
            State {
                measured: Measured::Value(5.0),
                ..state
            }
        );
        assert_eq!(record, record_of(&state));
    }
    assert!(readables > 100, "{readables}");
}

/// Any bytes, any state, any event: no call panics, a refusal leaves all, and
/// an accepted event leaves a sound state and a readable record.
#[test]
fn every_call_is_total() {
    let mut random = Random::new(4);
    let mut accepted = 0;
    for _ in 0..100_000 {
        let mut bank = random.bank();
        if random.one_in(3) {
            let place = random.between(0, bank.len() as i64 - 1) as usize;
            bank[place] = random.next() as u8;
        }
        if random.one_in(9) {
            bank.truncate(random.between(0, bank.len() as i64) as usize);
        }
        let config = random.any_config();
        let mut record = record_of(&random.state(&config)).to_vec();
        if random.one_in(9) {
            record.truncate(random.between(0, 423) as usize);
        }
        let (mut state, event) = (random.state(&config), random.event());
        let before = (state, record.clone());
        let answer = model::event(&bank, &config, &mut record, &mut state, event);
        if is_accepted(answer) {
            accepted += 1;
            assert!(sound(&bank, &config, &state));
            assert_eq!(state.power, event != Event::Cut);
        } else {
            assert_eq!((state, record.clone()), before);
        }
        let _ = make(&bank, &config, &mut record);
    }
    assert!(accepted > 1_000, "{accepted}");
}

#[test]
fn every_call_takes_any_bytes() {
    let mut random = Random::new(5);
    for _ in 0..20_000 {
        let length = random.between(0, 120) as usize;
        let bytes: Vec<u8> = (0..length).map(|_| random.between(0, 12) as u8).collect();
        let _ = check(&bytes);
        assert_eq!(read_back(&bytes).is_some(), check(&bytes).is_ok());
        let _ = readable(&bytes, &random.any_config(), &bytes);
        let _ = model::sheet(&bytes, &bytes);
        let _ = model::credits(&bytes, &bytes);
        let text: Vec<u8> = (0..length)
            .map(|_| random.pick(b"SPXFB+-NTRCHL 019\n\n\n\n"))
            .collect();
        let lines = text.split(|&byte| byte == b'\n').count() - usize::from(text.ends_with(b"\n"));
        let printed = model::sheet(&example_bank(), &text);
        let expected = if text.is_empty() { 0 } else { lines };
        assert_eq!(
            printed.iter().filter(|&&byte| byte == b'\n').count(),
            expected
        );
    }
}
