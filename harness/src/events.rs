//! Events as kind and value: any, and those that move a program on.

use crate::banks::Draft;
use crate::random::Random;

pub type Raw = (u32, i32);

pub const TICK: u32 = 0;
pub const TICK_OVER: u32 = 1;
pub const TICK_UNDER: u32 = 2;
pub const SELECT: u32 = 3;
pub const START: u32 = 4;
pub const PAUSE: u32 = 5;
pub const RESET: u32 = 6;
pub const FEED: u32 = 7;
pub const BACK: u32 = 8;
pub const PLUS: u32 = 9;
pub const MINUS: u32 = 10;
pub const CUT: u32 = 11;
pub const RETURN: u32 = 12;
pub const RETURN_OVER: u32 = 13;
pub const RETURN_UNDER: u32 = 14;

const VALUES: [i32; 27] = [
    0,
    1,
    2,
    3,
    14,
    15,
    16,
    -1,
    200,
    600,
    255,
    256,
    257,
    32_767,
    32_768,
    65_535,
    65_536,
    65_537,
    -19_999,
    -20_000,
    29_999,
    30_000,
    -65_535,
    i32::MAX,
    i32::MIN,
    i32::MIN + 1,
    1 << 24,
];

/// A list in the library's form.
pub fn list_bytes(list: &[Raw]) -> Vec<u8> {
    let five = |&(kind, value): &Raw| {
        let [a, b, c, d] = value.to_le_bytes();
        [kind as u8, a, b, c, d]
    };
    list.iter().flat_map(five).collect()
}

/// Any value, the extremes among them.
pub fn value(random: &mut Random) -> i32 {
    match random.below(3) {
        0 => random.bits() as i32,
        1 => random.range(-21_000, 31_000) as i32,
        _ => random.pick(&VALUES),
    }
}

/// Any kind and value, sometimes of no known form.
pub fn any(random: &mut Random) -> Raw {
    let kind = match random.below(24) {
        0 => random.pick(&[15, 16, 99, 255, 256, 267, 1 << 16, 1 << 31, u32::MAX]),
        _ => random.below(15) as u32,
    };
    (kind, value(random))
}

/// A short list of any events, sometimes no list.
pub fn any_list(random: &mut Random) -> Vec<u8> {
    let length = random.below(8);
    let events: Vec<Raw> = (0..length)
        .map(|_| (random.below(15) as u32, value(random)))
        .collect();
    let mut bytes = list_bytes(&events);
    match random.below(8) {
        0 => bytes.truncate(random.below(bytes.len() + 1)),
        1 => bytes.extend(vec![0; 1 + random.below(9)]),
        2 if length > 0 => {
            let place = 5 * random.below(length);
            bytes[place] = random.pick(&[15, 16, 128, 255]);
        }
        _ => (),
    }
    bytes
}

/// A reading near a target: the kind after `first`, and the value.
pub fn reading(random: &mut Random, first: u32, target: i16) -> Raw {
    let target = i32::from(target);
    match random.below(40) {
        0 => (first + 1, 0),
        1 => (first + 2, 0),
        2 => (first, value(random)),
        3..=5 => (first, random.range(-19_999, 29_999) as i32),
        6..=15 => (
            first,
            (target + random.range(-60, 60) as i32).clamp(-19_999, 29_999),
        ),
        16..=21 => (
            first,
            (target + random.range(-2, 2) as i32).clamp(-19_999, 29_999),
        ),
        _ => (first, target),
    }
}

fn ticks(random: &mut Random, target: i16, most: usize) -> Vec<Raw> {
    let length = match random.below(4) {
        0 => 1,
        1 => random.pick(&[2, 5, 58, 59, 60, 61, 62, 120, 121]),
        _ => 1 + random.below(most),
    };
    let steady = reading(random, TICK, target);
    let tick = |random: &mut Random| match random.below(5) {
        0 => reading(random, TICK, target),
        _ => steady,
    };
    (0..length).map(|_| tick(random)).collect()
}

fn select(random: &mut Random, n: u8) -> Vec<Raw> {
    let pattern = match random.below(6) {
        0 => value(random),
        _ => 1 + random.below(n as usize) as i32,
    };
    vec![(SELECT, pattern)]
}

fn key(random: &mut Random) -> Vec<Raw> {
    vec![(
        random.pick(&[START, PAUSE, RESET, FEED, BACK, PLUS, MINUS]),
        value(random),
    )]
}

/// Some events after a state, such that programs get on.
pub fn burst(random: &mut Random, draft: &Draft, state: &[u8]) -> Vec<Raw> {
    let (power, mode) = (state[0] == 1, state[1]);
    let target = draft.step(state[2], state[3]).map_or(0, |step| step.target);
    if !power {
        return match random.below(5) {
            0 => key(random),
            1 => vec![any_of_form(random)],
            _ => vec![reading(random, RETURN, target)],
        };
    }
    // ticks, start, select, pause, feed, back, plus, minus, reset, cut, a key, anything
    let weights = match mode {
        1 => [50, 0, 0, 3, 6, 4, 5, 5, 1, 7, 2, 2],
        2 => [12, 0, 0, 30, 4, 4, 5, 5, 1, 5, 2, 2],
        _ => [16, 40, 12, 0, 0, 0, 0, 0, 3, 5, 4, 3],
    };
    match random.weighted(&weights) {
        0 => ticks(random, target, if mode == 1 { 150 } else { 30 }),
        1 => vec![(START, 0)],
        2 => select(random, draft.settings.n),
        place @ 3..=7 => vec![([PAUSE, FEED, BACK, PLUS, MINUS][place - 3], 0)],
        8 => vec![(RESET, 0)],
        9 => vec![(CUT, 0)],
        10 => key(random),
        _ => vec![any_of_form(random)],
    }
}

/// Any event of a known kind.
pub fn any_of_form(random: &mut Random) -> Raw {
    (random.below(15) as u32, value(random))
}
