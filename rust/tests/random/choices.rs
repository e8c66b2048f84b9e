//! Whole calls of the choices: from a list, and the server's.

use super::Random;
use crate::model::{self, Decision};

/// Inputs of the server's choice.
#[derive(Debug, Clone)]
pub struct ServerCall {
    pub readable: Vec<u32>,
    pub accepted: Vec<u32>,
    pub pairs: Vec<(u32, u32)>,
    pub barred: Vec<u32>,
    pub version: u32,
    pub information: Option<Vec<u8>>,
}

impl ServerCall {
    /// The model's answer.
    pub fn choice(&self) -> Result<Decision, u8> {
        model::server_choice(
            &self.readable,
            &self.accepted,
            &self.pairs,
            &self.barred,
            self.version,
            self.information.as_deref(),
        )
    }
}

impl Random {
    /// Table and list of a choice; 40, 41 and 42 among the answers.
    pub fn choose_call(&mut self) -> (Vec<u32>, Vec<u32>) {
        let table = self.table();
        let list = match self.below(24) {
            0 => self.long_list(16_383, &table),
            1 => self.long_list(16_382, &table),
            2..=5 => self.list_outside(&table),
            6 => Vec::new(),
            _ => self.list(&table),
        };
        (table, list)
    }

    pub fn server_call(&mut self) -> ServerCall {
        let version = self.plain_version();
        let readable = match self.below(10) {
            0 => self.broken_table(),
            1 => self.good_table(),
            _ => self.good_table_with(version),
        };
        let accepted = match self.below(10) {
            0 => self.broken_table(),
            1..=5 => self.good_table(),
            _ => self.good_table_with(version),
        };
        // Pairs from the version of the first flight, so that they count.
        let mut pairs = self.pairs_among(&accepted);
        for pair in pairs.iter_mut() {
            if self.one_in(2) && pair.0 != 0 && pair.1 != version {
                pair.0 = version;
            }
        }
        let barred = self.barred_versions(&accepted, &pairs, version);
        let information = self.of_a_first_flight(version, &accepted);
        let version = if self.one_in(12) {
            self.version()
        } else {
            version
        };
        ServerCall {
            readable,
            accepted,
            pairs,
            barred,
            version,
            information,
        }
    }

    /// Version Information of a first flight in `version`, or none.
    fn of_a_first_flight(&mut self, version: u32, accepted: &[u32]) -> Option<Vec<u8>> {
        if self.one_in(8) {
            return None;
        }
        let chosen = if self.one_in(8) {
            self.version()
        } else {
            version
        };
        let mut available = self.list(accepted);
        if !self.one_in(8) {
            available.retain(|v| *v != 0);
        }
        if !self.one_in(8) {
            self.insert(&mut available, chosen);
        }
        Some(self.information(chosen, &available))
    }
}
