//! Slots: where the library's search of a long list looks for a version (C-16). They are known here
//! to draw the tables and lists that suit the search worst. No answer rests on them.

use super::screening::FEW;
use super::versions::is_plain;
use super::Random;
use crate::model::MAX_TABLE;
use std::mem::replace;

/// The factors, in the order in which they are tried. All are odd.
pub const FACTORS: [u32; 8] = [
    0x6a09_e667,
    0xbb67_ae85,
    0x3c6e_f373,
    0xa54f_f53b,
    0x510e_527f,
    0x9b05_688d,
    0x1f83_d9ab,
    0x5be0_cd19,
];

/// How many slots there are.
pub const SLOTS: usize = 4_096;
/// So many bits of a product are dropped.
const DROPPED: u32 = 20;

/// The slot of a version under a factor: the highest bits of its product with the version's bytes as
/// they lie on the wire, read with the lowest first.
pub fn slot(version: u32, factor: u32) -> u32 {
    version.swap_bytes().wrapping_mul(factor) >> DROPPED
}

/// A version of this slot; `which` picks one of them.
pub fn version_in(slot: u32, factor: u32, which: u32) -> u32 {
    let product = (slot << DROPPED) + which % (1 << DROPPED);
    product.wrapping_mul(inverse(factor)).swap_bytes()
}

/// The number whose product with an odd factor ends in 1, all other bits 0. The factor itself is
/// right in three bits, and each step makes twice as many right.
fn inverse(factor: u32) -> u32 {
    let better = |near: u32, _| near.wrapping_mul(2_u32.wrapping_sub(near.wrapping_mul(factor)));
    (0..4).fold(factor, better)
}

/// The slots that a table has under a factor.
fn taken(table: &[u32], factor: u32) -> Vec<bool> {
    let mut taken = vec![false; SLOTS];
    for version in table {
        taken[slot(*version, factor) as usize] = true;
    }
    taken
}

/// How many entries have the slot of an entry before them.
pub fn clashes(table: &[u32], factor: u32) -> usize {
    let slots = taken(table, factor).into_iter().filter(|taken| *taken);
    table.len() - slots.count()
}

/// The fewest clashes of a table, and the first factor that has no more.
pub fn fewest_clashes(table: &[u32]) -> (usize, u32) {
    let mut fewest = (clashes(table, FACTORS[0]), FACTORS[0]);
    for factor in FACTORS {
        let clashes = clashes(table, factor);
        if clashes < fewest.0 {
            fewest = (clashes, factor);
        }
    }
    fewest
}

/// The entries that have a slot: the table's first is sought by itself.
pub fn with_slots(table: &[u32]) -> &[u32] {
    &table[1..]
}

/// The factor that the library takes for a table, at first.
pub fn factor_taken(table: &[u32]) -> u32 {
    fewest_clashes(with_slots(table)).1
}

/// The places of two entries that share a slot under the factor that is taken, the lower one first.
pub fn sharing(table: &[u32]) -> Option<(usize, usize)> {
    let factor = factor_taken(table);
    let slots: Vec<u32> = table.iter().map(|v| slot(*v, factor)).collect();
    (1..slots.len()).find_map(|other| {
        let one = (1..other).find(|one| slots[*one] == slots[other])?;
        Some((one, other))
    })
}

/// How many entries are left after each round of the library's search, where nothing is found, until
/// they are few enough for passes. One that lost its slot to a preferred one is left, but for those
/// that the table begins with.
pub fn left_by_rounds(table: &[u32]) -> Vec<usize> {
    let mut left = with_slots(table).to_vec();
    let mut rounds = Vec::new();
    while rounds.is_empty() || left.len() > FEW {
        let factor = fewest_clashes(&left).1;
        let mut is_taken = vec![false; SLOTS];
        left.retain(|v| replace(&mut is_taken[slot(*v, factor) as usize], true));
        left.retain(|v| !table[..FEW].contains(v));
        rounds.push(left.len());
    }
    rounds
}

/// Whether two words that differ by this may share a slot under a factor: their products are then no
/// further apart than the bits that are dropped.
fn may_share(difference: u32, factor: u32) -> bool {
    let apart = difference.wrapping_mul(factor);
    apart.min(apart.wrapping_neg()) >> DROPPED == 0
}

/// All differences of two words that may share a slot under two factors or more.
fn shared_twice() -> Vec<u32> {
    let mut differences = Vec::new();
    for factor in FACTORS {
        let back = inverse(factor);
        for apart in 1..1 << DROPPED {
            let difference = back.wrapping_mul(apart);
            let sharing = FACTORS.iter().filter(|f| may_share(difference, **f));
            if sharing.count() > 1 {
                differences.extend([difference, difference.wrapping_neg()]);
            }
        }
    }
    differences
}

impl Random {
    /// Any version that shares its slot with an entry of the table.
    pub fn version_beside(&mut self, table: &[u32], factor: u32) -> u32 {
        let slot = slot(*self.pick(table), factor);
        version_in(slot, factor, self.next_u32())
    }

    /// A table that clashes under every factor, and so do its last entries, from nine of them on. It is
    /// made from the last one up, and each new entry is the worst of so many draws.
    pub fn clashing_table(&mut self, draws: usize) -> Vec<u32> {
        let differences = shared_twice();
        let mut table = vec![self.any_plain_version()];
        while table.len() < MAX_TABLE {
            let version = self.clashing_version(&table, &differences, draws);
            table.push(version);
        }
        table.reverse();
        table
    }

    /// Of so many versions with one of the differences to an entry, the one that clashes under the
    /// most factors, those with few clashes first.
    fn clashing_version(&mut self, table: &[u32], differences: &[u32], draws: usize) -> u32 {
        let slots = FACTORS.map(|f| (f, taken(table, f), MAX_TABLE - clashes(table, f)));
        let (mut worst, mut most) = (0, 0);
        let mut drawn = 0;
        while drawn < draws || most == 0 {
            drawn += 1;
            let (entry, difference) = (*self.pick(table), *self.pick(differences));
            let version = entry.swap_bytes().wrapping_add(difference).swap_bytes();
            if !is_plain(version) || table.contains(&version) {
                continue;
            }
            let clashing = slots
                .iter()
                .filter(|(f, taken, _)| taken[slot(version, *f) as usize]);
            let weight = clashing.map(|(_, _, weight)| weight).sum();
            if weight > most {
                (worst, most) = (version, weight);
            }
        }
        worst
    }

    /// Any version that a table may hold, each as likely as another.
    pub fn any_plain_version(&mut self) -> u32 {
        loop {
            let version = self.next_u32();
            if is_plain(version) {
                return version;
            }
        }
    }
}
