//! The timer before the first ramp: which positions are in it, and how a step
//! is read there. It is a matter of bank and position alone; neither state nor
//! record has a field for it.

use crate::bank::Bank;
use crate::types::{State, Step};

/// "Under start choice 0, if step 1's target equals SLL, step 1 waits its time
/// with the set value held"; "The timer holds in pass 1 alone, after a back
/// too". The start choice is that of the bank, however the run began.
#[inline]
pub(crate) fn in_timer(bank: &Bank, state: &State) -> bool {
    bank.settings.start == 0
        && state.k == 1
        && state.r == 1
        && bank.step(state.p, 1).target == bank.settings.sll
}

/// Step k of pattern p; in the timer "the wait number is read as 0".
#[inline]
pub(crate) fn current_step(bank: &Bank, state: &State) -> Step {
    let step = bank.step(state.p, state.k);
    if in_timer(bank, state) {
        Step { wait: 0, ..step }
    } else {
        step
    }
}
