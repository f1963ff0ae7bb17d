//! What an event leaves, and the next event on it.

use crate::calls::{Call, Comparer};
use crate::events::{self, Raw};
use crate::oracle::{RECORD, STATE};
use crate::report::Difference;
use crate::setup::Setup;

/// What an event leaves: its answer, the state and the record.
#[derive(Clone)]
pub struct Held {
    pub word: u64,
    pub state: [u8; STATE],
    pub record: [u8; RECORD],
}

fn array<const N: usize>(bytes: &[u8]) -> [u8; N] {
    bytes.try_into().expect("a buffer keeps its length")
}

impl Held {
    fn after_call(comparer: &Comparer, word: u64) -> Held {
        Held {
            word,
            state: array(comparer.state()),
            record: array(comparer.record()),
        }
    }

    /// What making leaves.
    pub fn made(comparer: &mut Comparer, setup: &Setup) -> Result<Held, Difference> {
        let given = setup.given(&[0xee; RECORD], &[0xdd; STATE]);
        let word = comparer.call(Call::Make, given)?;
        assert_eq!(word, 0, "a list runs over accepted settings");
        Ok(Held::after_call(comparer, word))
    }

    /// What an event leaves, compared with the model.
    pub fn after(
        &self,
        comparer: &mut Comparer,
        setup: &Setup,
        (kind, value): Raw,
    ) -> Result<Held, Difference> {
        let given = setup.given(&self.record, &self.state);
        let word = comparer.call(Call::Event { kind, value }, given)?;
        let next = Held::after_call(comparer, word);
        self.count(comparer, kind, &next);
        Ok(next)
    }

    fn count(&self, comparer: &mut Comparer, kind: u32, next: &Held) {
        let tally = &mut comparer.tally;
        let accepted = next.word & 0xff == 0;
        tally.cuts += (kind == events::CUT && accepted) as u64;
        tally.returns += (kind >= events::RETURN && accepted) as u64;
        tally.saves += (self.record != next.record) as u64;
        if kind > events::TICK_UNDER {
            return;
        }
        tally.steps += (self.state[3] != next.state[3]) as u64;
        tally.passes += (self.state[4..6] != next.state[4..6]) as u64;
        tally.ends += (self.state[1] != 3 && next.state[1] == 3) as u64;
    }

    pub fn credits(&self) -> [u32; 99] {
        std::array::from_fn(|i| u32::from_le_bytes(array(&self.state[16 + 4 * i..20 + 4 * i])))
    }
}
