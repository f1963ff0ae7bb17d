//! Banks with something wrong, alone and in every call.

use crate::alarms;
use crate::banks;
use crate::calls::{Call, Comparer, Given};
use crate::damage;
use crate::events;
use crate::random::Random;
use crate::report::Compared;
use crate::states;

/// Temperatures of settings that know of no bank.
const TEMPERATURES: [i16; 3] = [0, 200, 600];

/// Compares the check, and now and then the other calls too.
fn compare_bank(comparer: &mut Comparer, random: &mut Random, bank: &[u8]) -> Compared {
    comparer.call(
        Call::Check,
        Given {
            bank,
            config: &[],
            record: &[],
            state: &[],
        },
    )?;
    if !random.once_in(8) {
        return Ok(());
    }
    let (record, state) = states::any_buffers(random);
    let config = alarms::any(random, &TEMPERATURES);
    let config = alarms::given(random, &config);
    let given = Given {
        bank,
        config: &config,
        record: &record,
        state: &state,
    };
    comparer.call(Call::Make, given)?;
    let (kind, value) = events::any(random);
    comparer.call(Call::Event { kind, value }, given)?;
    let list = events::any_list(random);
    comparer.call(Call::Run { events: &list }, given)?;
    Ok(())
}

/// Random hostile banks.
pub fn random_banks(comparer: &mut Comparer, random: &mut Random, count: usize) -> Compared {
    for _ in 0..count {
        let bank = damage::bank(random);
        compare_bank(comparer, random, &bank)?;
    }
    Ok(())
}

/// Valid banks of every n, alone and in every call.
pub fn valid_banks(comparer: &mut Comparer, random: &mut Random, count: usize) -> Compared {
    for _ in 0..count {
        for n in 1..=15 {
            let bank = banks::lively_of(random, n).bank();
            compare_bank(comparer, random, &bank)?;
        }
    }
    Ok(())
}

/// A bank of every n, with a step too many, cut short at every length, and
/// with bytes after its end.
pub fn every_length(comparer: &mut Comparer, random: &mut Random) -> Compared {
    for n in 1..=15 {
        for _ in 0..2 * n {
            let over = banks::over_capacity(random, n);
            compare_bank(comparer, random, &over)?;
        }
        let mut bank = banks::full(random, n).bank();
        for length in 0..=bank.len() {
            compare_bank(comparer, random, &bank[..length])?;
        }
        for more in [1, 2, 3, 4, 8, 9, 11, 2_000, 64_525, 70_000] {
            let length = bank.len();
            bank.resize(length + more, 0);
            compare_bank(comparer, random, &bank)?;
            bank.truncate(length);
        }
    }
    Ok(())
}

/// A bank of every n, damaged at every place.
pub fn every_field(comparer: &mut Comparer, random: &mut Random) -> Compared {
    for n in 1..=15 {
        let bank = banks::lively_of(random, n).bank();
        damage::each_change(&bank, |damaged| compare_bank(comparer, random, damaged))?;
    }
    Ok(())
}
