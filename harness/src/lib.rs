//! Comparison of the static library with the outside model of documents 01 and 02.

pub mod alarm_tally;
pub mod alarms;
pub mod banks;
pub mod beside;
pub mod calls;
pub mod cook_cuts;
pub mod damage;
pub mod events;
pub mod held;
pub mod hostile;
pub mod lists;
pub mod oracle;
pub mod programs;
pub mod random;
pub mod replay;
pub mod report;
pub mod setup;
pub mod states;
pub mod tally;
pub mod timer_tally;
pub mod timing;
pub mod walk;
pub mod writer;
