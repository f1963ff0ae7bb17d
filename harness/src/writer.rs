//! The writer of banks.

use crate::banks::{self, Draft};
use crate::calls::{Call, Comparer, Given};
use crate::damage;
use crate::random::Random;
use crate::report::{Compared, Difference};

/// The three inputs of the writer as bytes.
struct Inputs {
    settings: Vec<u8>,
    patterns: Vec<u8>,
    steps: Vec<u8>,
}

impl Inputs {
    fn of(draft: &Draft) -> Inputs {
        Inputs {
            settings: draft.settings_bytes().to_vec(),
            patterns: draft.patterns_bytes(),
            steps: draft.steps_bytes(),
        }
    }

    fn compare(&self, comparer: &mut Comparer, out: &[u8]) -> Result<u64, Difference> {
        let call = Call::Write {
            patterns: &self.patterns,
            steps: &self.steps,
        };
        comparer.call(
            call,
            Given {
                bank: &self.settings,
                config: &[],
                record: out,
                state: &[],
            },
        )
    }

    /// One of the three inputs, from 0.
    fn part(&mut self, number: usize) -> &mut Vec<u8> {
        match number {
            0 => &mut self.settings,
            1 => &mut self.patterns,
            _ => &mut self.steps,
        }
    }

    /// Changes something, in a place that is mostly used.
    fn damage(&mut self, random: &mut Random) {
        let part = self.part(random.below(3));
        let reach = random.pick(&[part.len(), part.len().min(24)]);
        let at = random.below(reach);
        damage::change(random, part, at);
    }

    /// Gives one input another length.
    fn stretch(&mut self, random: &mut Random) {
        let part = self.part(random.below(3));
        let right = part.len();
        let length = match random.below(5) {
            0 => 0,
            1 => right - 1,
            2 => right + 1,
            3 => right + 9,
            _ => random.below(2 * right),
        };
        part.resize(length, 1);
    }
}

/// A bank that was written is accepted, and reads as what the writer took.
fn reads_back(comparer: &mut Comparer, draft: &Draft, length: usize) -> Compared {
    let bank = comparer.record()[..length].to_vec();
    if bank != draft.bank() {
        return Err(
            Difference::new("the bank written is not laid out as document 01 says")
                .bytes("written", &bank)
                .bytes("laid out", &draft.bank()),
        );
    }
    comparer.call(
        Call::Check,
        Given {
            bank: &bank,
            config: &[],
            record: &[],
            state: &[],
        },
    )?;
    let Some((settings, patterns, steps)) = model::read_back(&bank) else {
        return Err(Difference::new("a bank written does not read back").bytes("bank", &bank));
    };
    let read = Inputs::of(&Draft {
        settings,
        patterns,
        steps,
    });
    read.compare(comparer, &vec![0x5a; length])?;
    if comparer.record() == bank {
        return Ok(());
    }
    Err(Difference::new("a bank written again has other bytes")
        .bytes("once", &bank)
        .bytes("again", comparer.record()))
}

/// Output buffers of every length around the bank's.
fn around(comparer: &mut Comparer, random: &mut Random, draft: &Draft) -> Compared {
    let (inputs, length) = (Inputs::of(draft), draft.bank().len());
    let lengths = [0, 1, 44, 45, 46, length / 2, 1_011, 2_000];
    for out_length in lengths.into_iter().chain(length - 4..=length + 4) {
        let out = random.bytes(out_length);
        inputs.compare(comparer, &out)?;
    }
    inputs.compare(comparer, &random.bytes(1_100))?;
    reads_back(comparer, draft, length)
}

fn damaged(comparer: &mut Comparer, random: &mut Random, draft: &Draft) -> Compared {
    for _ in 0..12 {
        let mut inputs = Inputs::of(draft);
        for _ in 0..1 + random.below(2) {
            inputs.damage(random);
        }
        if random.once_in(6) {
            inputs.stretch(random);
        }
        let length = random.pick(&[1_011, 1_011, 1_011, 1_200, 0, 100, draft.bank().len() - 1]);
        inputs.compare(comparer, &random.bytes(length))?;
    }
    Ok(())
}

/// Drafts of every n, valid and not, over buffers of many lengths.
pub fn compare(comparer: &mut Comparer, random: &mut Random, count: usize) -> Compared {
    for round in 0..count {
        let n = 1 + (round % 15) as u8;
        let draft = if random.once_in(4) {
            banks::full(random, n)
        } else {
            banks::lively_of(random, n)
        };
        around(comparer, random, &draft)?;
        damaged(comparer, random, &draft)?;
    }
    Ok(())
}

/// Every field of each input set to each value of interest.
pub fn every_field(comparer: &mut Comparer, random: &mut Random) -> Compared {
    let out = [0x5a; 1_011];
    for n in 1..=15 {
        let mut inputs = Inputs::of(&banks::lively_of(random, n));
        for number in 0..3 {
            let bytes = inputs.part(number).clone();
            damage::each_change(&bytes, |damaged| {
                damaged.clone_into(inputs.part(number));
                inputs.compare(comparer, &out).map(|_| ())
            })?;
            *inputs.part(number) = bytes;
        }
    }
    Ok(())
}
