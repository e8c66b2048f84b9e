//! Full tables: random versions, versions in a row, and versions that clash in the library's slots.

use crate::random::slots::sharing;
use crate::random::Random;
use quic_version::{MAX_LIST, MAX_TABLE};

/// The draws for one entry of the table that clashes.
const DRAWS: usize = 100_000;

pub struct Table {
    pub name: &'static str,
    pub versions: Vec<u32>,
    /// As many versions as a list may have, random ones, and none of them in the table.
    pub others: Vec<u32>,
}

impl Table {
    fn new(name: &'static str, versions: Vec<u32>, random: &mut Random) -> Table {
        let mut table = Table {
            name,
            versions,
            others: Vec::new(),
        };
        table.others = table.without(|| random.next_u32());
        table
    }

    pub fn random(random: &mut Random) -> Table {
        let mut versions = Vec::new();
        while versions.len() < MAX_TABLE {
            let version = random.any_plain_version();
            if !versions.contains(&version) {
                versions.push(version);
            }
        }
        Table::new("random versions", versions, random)
    }

    /// Every third version of those in a row.
    pub fn regular(random: &mut Random) -> Table {
        let versions = (0xff00_0001..).step_by(3).take(MAX_TABLE).collect();
        Table::new("versions in a row", versions, random)
    }

    /// Versions that clash under every factor of the slots, the second and the third in one slot
    /// under the factor that is taken. No stranger picks them: a table is the client's own.
    pub fn clashing(random: &mut Random) -> Table {
        let mut versions = random.clashing_table(DRAWS);
        let (one, other) = sharing(&versions).expect("they clash");
        for version in [versions.remove(other), versions.remove(one)] {
            versions.insert(1, version);
        }
        Table::new("versions that clash", versions, random)
    }

    /// The longest list of what is drawn, without what is in the table.
    pub fn without(&self, mut draw: impl FnMut() -> u32) -> Vec<u32> {
        let mut other = || loop {
            let version = draw();
            if !self.versions.contains(&version) {
                return version;
            }
        };
        (0..MAX_LIST).map(|_| other()).collect()
    }
}

/// The place of the Original Version in a table: its middle.
pub fn original_place(table: &[u32]) -> usize {
    table.len() / 2
}

/// The Original Version.
pub fn original(table: &[u32]) -> u32 {
    table[original_place(table)]
}
