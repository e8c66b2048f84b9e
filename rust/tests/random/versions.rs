//! Versions, tables, pairs and lists.

use super::Random;
use crate::model::{MAX_PAIRS, MAX_TABLE};

/// Whether a table or a pair may hold a version: not 0, not reserved.
pub(super) fn is_plain(version: u32) -> bool {
    version != 0 && version & 0x0f0f_0f0f != 0x0a0a_0a0a
}

impl Random {
    pub fn version(&mut self) -> u32 {
        match self.below(32) {
            0..=21 => 1 + self.below(20) as u32,
            22 => 1,
            23 | 24 => 0,
            25 | 26 => self.reserved(),
            27 => self.near_reserved(),
            28 => *self.pick(&[
                0x6b33_43cf,
                0x0100_0000,
                0x0001_0000,
                0x0000_0100,
                0x8000_0000,
                u32::MAX,
            ]),
            // Equal to a small number in the low byte alone.
            29 => (self.next_u32() & 0xffff_ff00) | (1 + self.below(20) as u32),
            _ => self.next_u32(),
        }
    }

    pub fn reserved(&mut self) -> u32 {
        let any = (self.next_u32() & 0xf0f0_f0f0) | 0x0a0a_0a0a;
        *self.pick(&[0x1a2a_3a4a, 0x0a0a_0a0a, 0xfafa_fafa, any, any])
    }

    /// Not reserved, but for one low half of a byte; some of these have all
    /// the bits of 0x0a0a0a0a.
    pub fn near_reserved(&mut self) -> u32 {
        let change = *self.pick(&[1, 4, 5, 8, 2, 0xf]) << *self.pick(&[0, 8, 16, 24]);
        let near = self.reserved() ^ change;
        *self.pick(&[0x1b2a_3a4a, near, near])
    }

    /// A version that a table may hold.
    pub fn plain_version(&mut self) -> u32 {
        loop {
            let v = self.version();
            if is_plain(v) {
                return v;
            }
        }
    }

    pub(super) fn plain_version_outside(&mut self, of: &[u32]) -> u32 {
        loop {
            let v = self.plain_version();
            if !of.contains(&v) {
                return v;
            }
        }
    }

    /// Mostly keeps the rule of tables; one in eight breaks it.
    pub fn table(&mut self) -> Vec<u32> {
        if self.one_in(8) {
            self.broken_table()
        } else {
            self.good_table()
        }
    }

    pub fn good_table(&mut self) -> Vec<u32> {
        let entries = match self.below(8) {
            0 => 1,
            1..=5 => 2 + self.below(4),
            6 => MAX_TABLE - self.below(2),
            _ => 1 + self.below(MAX_TABLE),
        };
        self.distinct(entries)
    }

    /// A good table with `version` at any place of it.
    pub fn good_table_with(&mut self, version: u32) -> Vec<u32> {
        let mut table = self.good_table();
        if !table.contains(&version) {
            let place = self.below(table.len());
            table[place] = version;
        }
        table
    }

    pub(super) fn distinct(&mut self, entries: usize) -> Vec<u32> {
        let mut versions = Vec::new();
        while versions.len() < entries {
            let v = self.plain_version_outside(&versions);
            versions.push(v);
        }
        versions
    }

    pub fn broken_table(&mut self) -> Vec<u32> {
        let mut table = self.good_table();
        table.truncate(MAX_TABLE - 1);
        match self.below(6) {
            0 => table.clear(),
            1 => {
                let entries = MAX_TABLE + 1 + self.below(2);
                table = self.distinct(entries);
            }
            2 | 3 => {
                let again = *self.pick(&table);
                self.insert(&mut table, again);
            }
            4 => self.insert(&mut table, 0),
            _ => {
                let reserved = self.reserved();
                self.insert(&mut table, reserved);
            }
        }
        table
    }

    /// Mostly keeps the rule of pairs; one in eight breaks it.
    pub fn pairs(&mut self) -> Vec<(u32, u32)> {
        self.pairs_among(&[])
    }

    /// As `pairs`, with most members out of `versions`.
    pub fn pairs_among(&mut self, versions: &[u32]) -> Vec<(u32, u32)> {
        if self.one_in(8) {
            self.broken_pairs(versions)
        } else {
            self.good_pairs_among(versions)
        }
    }

    pub fn good_pairs_among(&mut self, versions: &[u32]) -> Vec<(u32, u32)> {
        let count = match self.below(16) {
            0 | 1 => 0,
            2 => MAX_PAIRS - self.below(2),
            3 => self.below(MAX_PAIRS + 1),
            _ => 1 + self.below(8),
        };
        self.pairs_of(count, versions)
    }

    fn pairs_of(&mut self, count: usize, versions: &[u32]) -> Vec<(u32, u32)> {
        let mut pairs: Vec<(u32, u32)> = Vec::new();
        while pairs.len() < count {
            let pair = (self.member(versions), self.member(versions));
            match pairs.last() {
                // Repeated, turned round and chained pairs.
                Some(last) if self.one_in(8) => pairs.push(*last),
                Some(&(from, to)) if self.one_in(8) => pairs.push((to, from)),
                Some(&(_, to)) if self.one_in(8) && to != pair.1 => pairs.push((to, pair.1)),
                _ if pair.0 != pair.1 => pairs.push(pair),
                _ => {}
            }
        }
        pairs
    }

    pub(super) fn member(&mut self, versions: &[u32]) -> u32 {
        if !versions.is_empty() && !self.one_in(8) {
            let v = *self.pick(versions);
            if is_plain(v) {
                return v;
            }
        }
        self.plain_version()
    }

    pub fn broken_pairs(&mut self, versions: &[u32]) -> Vec<(u32, u32)> {
        let mut pairs = self.good_pairs_among(versions);
        pairs.truncate(MAX_PAIRS - 1);
        let bad = self.bad_pair(versions);
        if self.one_in(6) {
            let count = MAX_PAIRS + 1 + self.below(2);
            return self.pairs_of(count, versions);
        }
        self.insert(&mut pairs, bad);
        pairs
    }

    /// A pair that breaks the rule of pairs.
    pub(super) fn bad_pair(&mut self, versions: &[u32]) -> (u32, u32) {
        let good = self.member(versions);
        let reserved = self.reserved();
        *self.pick(&[
            (0, good),
            (good, 0),
            (reserved, good),
            (good, reserved),
            (good, good),
            (good, good),
        ])
    }

    /// A list of versions as a peer may send it: some of `of`, some others,
    /// entries twice, 0 and reserved ones among them.
    pub fn list(&mut self, of: &[u32]) -> Vec<u32> {
        let mut list: Vec<u32> = of.iter().copied().filter(|_| self.one_in(2)).collect();
        for _ in 0..self.below(5) {
            let v = self.version();
            list.push(v);
        }
        if self.one_in(6) && !list.is_empty() {
            let again = *self.pick(&list);
            list.push(again);
        }
        self.shuffle(&mut list);
        list
    }

    /// A list that shares no entry with `of`.
    pub fn list_outside(&mut self, of: &[u32]) -> Vec<u32> {
        let mut list = self.list(&[]);
        list.push(*self.pick(&[0, 0x1a2a_3a4a, 0x00ab_cdef]));
        list.retain(|v| !of.contains(v));
        list
    }

    /// A list of exactly `entries` entries that mostly repeats one of `of`.
    pub(super) fn long_list(&mut self, entries: usize, of: &[u32]) -> Vec<u32> {
        let filler = self.plain_version_outside(of);
        let mut list = vec![filler; entries];
        if let Some(last) = list.last_mut() {
            if !of.is_empty() {
                *last = *self.pick(of);
            }
        }
        list
    }
}
