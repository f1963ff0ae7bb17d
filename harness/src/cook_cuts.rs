//! A fixed cook with the timer, waits, two passes and alarms, cut after every second and every key.

use model::{AlarmSetting, Config, Settings};

use crate::alarms::{between, HOLD, STANDBY};
use crate::banks;
use crate::calls::Comparer;
use crate::events::{
    Raw, BACK, CUT, FEED, MINUS, PAUSE, PLUS, RESET, RETURN, RETURN_OVER, RETURN_UNDER, SELECT,
    START, TICK, TICK_OVER,
};
use crate::held::Held;
use crate::lists;
use crate::oracle;
use crate::report::{Compared, Difference};
use crate::setup::Setup;

/// Events of the cook that follow a return.
const TAIL: usize = 130;
/// Seconds of the cook.
const SECONDS: usize = 950;

/// Keys, each pressed after so many seconds: the timer, set back into and fed; then the steps behind it, in two passes; a start that ends at
/// once; and one that skips its first step.
const KEYS: [(usize, u32, i32); 20] = [
    (1, SELECT, 2),
    (1, START, 0),
    (20, PAUSE, 0),
    (27, PAUSE, 0),
    (33, PLUS, 0),
    (80, BACK, 0),
    (95, FEED, 0),
    (185, MINUS, 0),
    (245, BACK, 0),
    (355, FEED, 0),
    (395, PLUS, 0),
    (475, START, 0),
    (575, MINUS, 0),
    (735, FEED, 0),
    (735, PLUS, 0),
    (855, RESET, 0),
    (855, SELECT, 1),
    (865, START, 0),
    (868, SELECT, 3),
    (870, START, 0),
];

/// The room is hot, with a delay of more ticks than lie between two saves; it is ahead of the set value, held; it lags
/// behind the set value; it is near the target of the last steps.
const ALARMS: [AlarmSetting; 4] = [
    AlarmSetting {
        sensitivity: 15,
        ..between(6, 0, 400, 61, 0)
    },
    between(2, 0, 9, 2, HOLD),
    AlarmSetting {
        sensitivity: 2,
        ..between(3, -5, 0, 3, STANDBY)
    },
    AlarmSetting {
        sensitivity: 20,
        ..between(8, 290, 310, 5, STANDBY)
    },
];

fn setup(outage: u8) -> Setup {
    let settings = Settings {
        n: 3,
        start: 0,
        outage,
        sll: 0,
        slh: 1_000,
        start_value: 200,
        width: 40,
        filter: 10,
        zones: [0, 15, 0, 5],
        waits: [2, 1, 1, 5_999],
        on: [0, 1, 0, 0],
        off: [1, 3, 0, 5_999],
    };
    let steps = [
        (250, 1, 0),
        (0, 2, 2),
        (400, 1, 1),
        (420, 0, 2),
        (560, 2, 0),
        (300, 1, 3),
        (300, 0, 4),
        (900, 1, 0),
        (300, 1, 0),
    ];
    let draft = banks::fixed(settings, &[(1, 1), (2, 6), (1, 2)], &steps, [1, 2, 5, 4]);
    Setup::new(draft.bank(), Config { alarms: ALARMS })
}

/// The cook: its events, and what each leaves, making's first.
struct Cook {
    setup: Setup,
    list: Vec<Raw>,
    helds: Vec<Held>,
    /// The room's temperature before each event.
    room: Vec<i32>,
}

impl Cook {
    fn new(comparer: &mut Comparer, outage: u8) -> Result<Cook, Difference> {
        let setup = setup(outage);
        let helds = vec![Held::made(comparer, &setup)?];
        let mut cook = Cook {
            setup,
            list: Vec::new(),
            helds,
            room: vec![200],
        };
        for second in 0..SECONDS {
            for (_, kind, value) in KEYS.into_iter().filter(|key| key.0 == second) {
                cook.give(comparer, (kind, value))?;
            }
            let reading = cook.reading();
            cook.give(comparer, reading)?;
        }
        Ok(cook)
    }

    fn last(&self) -> &Held {
        self.helds.last().expect("making left a state")
    }

    fn give(&mut self, comparer: &mut Comparer, event: Raw) -> Compared {
        let next = self.last().after(comparer, &self.setup, event)?;
        let room = self.room[self.room.len() - 1];
        let set_value = i32::from((next.word >> 32) as i16);
        let warmer = if set_value == 0 {
            0
        } else {
            (set_value - room).clamp(-3, 4)
        };
        self.room.push(room + warmer);
        self.list.push(event);
        self.helds.push(next);
        Ok(())
    }

    /// The next tick: the room's temperature, over range now and then.
    fn reading(&self) -> Raw {
        match self.list.len() % 97 {
            96 => (TICK_OVER, 0),
            _ => (TICK, self.room[self.room.len() - 1]),
        }
    }

    /// A cut before the event of a number, a return later, and the cook goes on.
    fn cut(&self, comparer: &mut Comparer, number: usize, back: Raw) -> Compared {
        let mut list = self.list[..number].to_vec();
        let mut held = self.helds[number].clone();
        let mut give = |comparer: &mut Comparer, event: Raw, compare: bool| -> Compared {
            held = held.after(comparer, &self.setup, event)?;
            list.push(event);
            if compare {
                lists::same_by_replay(comparer, &held, &self.setup, &list)?;
                lists::same_by_run(comparer, &held, &self.setup, &list)?;
            }
            Ok(())
        };
        give(comparer, (CUT, 0), true)?;
        give(comparer, (TICK, 300), false)?;
        give(comparer, (RETURN, 30_000), false)?;
        give(comparer, back, true)?;
        if number % 2 == 1 {
            give(comparer, (PAUSE, 0), false)?;
        }
        let rest = &self.list[number..];
        let tail = &rest[..rest.len().min(TAIL)];
        for (place, &event) in tail.iter().enumerate() {
            give(comparer, event, place + 1 == tail.len())?;
        }
        comparer.tally.cook_cuts += 1;
        Ok(())
    }
}

/// Whether an alarm, from 0, goes on, stays on over a save, and goes off again.
fn sounds(cook: &Cook, alarm: usize) -> bool {
    let on = |state: &[u8]| oracle::alarms_of(state)[alarm].flags & 1 == 1;
    let mut pairs = cook.helds.windows(2);
    pairs.any(|pair| !on(&pair[0].state) && on(&pair[1].state))
        && pairs.any(|pair| on(&pair[1].state) && pair[0].record != pair[1].record)
        && pairs.any(|pair| on(&pair[0].state) && !on(&pair[1].state))
}

/// Whether the cook shows what it is for: the timer, waits, a second pass, an end, alarms; a start in each of its three ways.
fn complete(cook: &Cook) -> bool {
    let is_any = |shown: fn(&[u8]) -> bool| cook.helds.iter().any(|held| shown(&held.state));
    let started = |mode: u8, step: u8| {
        let mut pairs = cook.list.iter().zip(&cook.helds[1..]);
        pairs
            .any(|(event, held)| event.0 == START && held.state[1] == mode && held.state[3] == step)
    };
    let timer =
        is_any(|state| state[1..6] == [1, 2, 1, 1, 0] && state[6] > 0 && state[14..16] != [0; 2]);
    let waits = is_any(|state| state[10..14] != [0; 4]);
    let second = is_any(|state| state[4] == 2);
    let ends = cook.last().state[1..4] == [3, 3, 2];
    let starts = started(1, 1) && started(1, 2) && started(3, 1);
    timer && waits && second && ends && starts && (0..4).all(|alarm| sounds(cook, alarm))
}

/// Cuts after every event of the cook, with every outage choice.
pub fn compare(comparer: &mut Comparer) -> Compared {
    for outage in 0..3 {
        let cook = Cook::new(comparer, outage)?;
        assert!(
            complete(&cook),
            "the fixed cook has the timer, waits, two passes, an end, alarms and starts of each kind"
        );
        for number in 0..=cook.list.len() {
            let room = cook.room[number];
            for back in [
                (RETURN, room),
                (RETURN, room + 41),
                (RETURN_OVER, 0),
                (RETURN_UNDER, 0),
            ] {
                cook.cut(comparer, number, back)?;
            }
        }
    }
    Ok(())
}
