//! A bank and the settings beside it, as a list of events keeps them.

use model::Config;

use crate::alarms::CONFIG;
use crate::calls::Given;
use crate::report::Difference;

pub struct Setup {
    pub bank: Vec<u8>,
    pub config: Config,
    pub config_bytes: [u8; CONFIG],
}

impl Setup {
    pub fn new(bank: Vec<u8>, config: Config) -> Setup {
        Setup {
            bank,
            config,
            config_bytes: model::config_bytes(&config),
        }
    }

    /// What a call over it is given.
    pub fn given<'a>(&'a self, record: &'a [u8], state: &'a [u8]) -> Given<'a> {
        Given {
            bank: &self.bank,
            config: &self.config_bytes,
            record,
            state,
        }
    }

    pub fn describe(&self, report: Difference) -> Difference {
        report
            .bytes("bank", &self.bank)
            .bytes("config", &self.config_bytes)
    }
}
