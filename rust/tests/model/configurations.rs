//! The model of the test of a server's configuration. The papers have no such
//! test: the rule is that of docs/INTEGRATION.md, "Safe configurations", quoted
//! here. The numbers are document 01's.

use super::choices::{are_pairs, is_table, set};
use super::MAX_AVAILABLE;

/// The lists that a server is configured with.
#[derive(Debug, Clone, PartialEq, Eq)]
pub struct Configuration {
    pub readable: Vec<u32>,
    pub accepted: Vec<u32>,
    pub offered: Vec<u32>,
    pub available: Vec<u32>,
    pub pairs: Vec<(u32, u32)>,
}

/// A part of the rule, by its number in the header, and the version that breaks
/// it; both are 0 where none is broken.
pub type Finding = (u32, u32);

impl Configuration {
    /// "accepted, offered and Available hold the same versions, and each of them
    /// is readable."
    pub fn keeps_the_safe_rule(&self) -> bool {
        let (accepted, offered) = (set(&self.accepted), set(&self.offered));
        accepted == offered
            && offered == set(&self.available)
            && offered.is_subset(&set(&self.readable))
    }

    /// The refusals, lowest first, then the first part that is broken, with the
    /// first version of the list named first that breaks it.
    pub fn judged(&self) -> Result<Finding, u8> {
        if !is_table(&self.offered) {
            return Err(23);
        }
        if self.available.len() > MAX_AVAILABLE {
            return Err(33);
        }
        if !(is_table(&self.readable) && is_table(&self.accepted)) {
            return Err(41);
        }
        if !are_pairs(&self.pairs) {
            return Err(43);
        }
        let parts = [
            (1, &self.accepted, &self.offered),
            (2, &self.offered, &self.accepted),
            (3, &self.offered, &self.readable),
            (4, &self.available, &self.offered),
            (5, &self.offered, &self.available),
        ];
        let broken = parts.into_iter().find_map(|(part, list, other)| {
            let outside = &set(list) - &set(other);
            let first = list.iter().find(|v| outside.contains(v));
            first.map(|version| (part, *version))
        });
        Ok(broken.unwrap_or((0, 0)))
    }
}
