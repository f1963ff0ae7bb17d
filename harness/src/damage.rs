//! Bytes with something wrong: damaged at a field, cut short, too long, random.

use crate::banks::{self, SETTINGS};
use crate::random::Random;
use crate::report::Compared;

/// Words at and next to every limit of document 01.
const WORDS: [i32; 38] = [
    -32_768, -20_000, -19_999, -19_998, -601, -600, -2, -1, 0, 1, 2, 3, 5, 6, 11, 14, 15, 16, 45,
    49, 99, 100, 300, 301, 998, 999, 1_000, 1_001, 5_998, 5_999, 6_000, 6_001, 9_999, 10_000,
    29_998, 29_999, 30_000, 32_767,
];

/// Bytes at and next to every limit of document 01, each capacity among them.
const BYTES: [u8; 29] = [
    0, 1, 2, 3, 4, 5, 6, 7, 8, 9, 10, 12, 13, 14, 15, 16, 17, 20, 25, 33, 34, 49, 50, 98, 99, 100,
    127, 128, 255,
];

/// Changes one field in place.
pub fn change(random: &mut Random, bank: &mut [u8], at: usize) {
    if random.once_in(2) || at + 1 >= bank.len() {
        bank[at] = random.pick(&BYTES);
        return;
    }
    let was = u16::from_le_bytes([bank[at], bank[at + 1]]);
    let word = match random.below(4) {
        0 => was.wrapping_add(1),
        1 => was.wrapping_sub(1),
        2 => random.bits() as u16,
        _ => random.pick(&WORDS) as u16,
    };
    bank[at..at + 2].copy_from_slice(&word.to_le_bytes());
}

/// A place in the settings, in the pairs or in the bodies.
fn place(random: &mut Random, bank: &[u8]) -> usize {
    let bodies = (SETTINGS + 4 * bank[0] as usize).min(bank.len() - 1);
    match random.below(3) {
        0 => random.below(SETTINGS),
        1 => SETTINGS + random.below(bodies - SETTINGS + 1),
        _ => bodies + random.below(bank.len() - bodies),
    }
}

/// A bank that is damaged, cut short, too long or random.
pub fn bank(random: &mut Random) -> Vec<u8> {
    let mut bank = banks::lively(random).bank();
    match random.below(11) {
        0 => bank.truncate(random.below(bank.len())),
        1 => {
            let more = 1 + random.below(30);
            bank.extend(random.bytes(more));
        }
        2 => {
            let length = random.below(1_200);
            bank = random.bytes(length);
        }
        3 => {
            let n = 1 + random.below(15) as u8;
            bank = banks::over_capacity(random, n);
        }
        changes => {
            for _ in 0..1 + changes / 6 {
                let at = place(random, &bank);
                change(random, &mut bank, at);
            }
        }
    }
    bank
}

/// Every byte and every word of some bytes, set to each value of interest.
pub fn each_change(bytes: &[u8], mut compare: impl FnMut(&[u8]) -> Compared) -> Compared {
    let mut damaged = bytes.to_vec();
    for at in 0..bytes.len() {
        for byte in BYTES {
            damaged[at] = byte;
            compare(&damaged)?;
        }
        damaged[at] = bytes[at];
        if at + 1 == bytes.len() {
            continue;
        }
        let was = u16::from_le_bytes([bytes[at], bytes[at + 1]]);
        let near = [
            was.wrapping_add(1),
            was.wrapping_sub(1),
            was.wrapping_add(9),
        ];
        for word in WORDS.iter().map(|&word| word as u16).chain(near) {
            damaged[at..at + 2].copy_from_slice(&word.to_le_bytes());
            compare(&damaged)?;
        }
        damaged[at..at + 2].copy_from_slice(&bytes[at..at + 2]);
    }
    Ok(())
}
