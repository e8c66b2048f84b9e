//! Configurations of a server: safe ones, and ones with one fault or several, so that each part of
//! the safe rule is broken alone and beside others.

use super::Random;
use crate::model::{Configuration, MAX_AVAILABLE, MAX_TABLE};

/// What `Random::broken` does: a number of the header's parts, or of a refusal.
const FAULTS: [u32; 9] = [1, 2, 3, 4, 5, 23, 33, 41, 43];

impl Random {
    /// A safe configuration that accepts these versions.
    pub fn safe_configuration(&mut self, accepted: Vec<u32>) -> Configuration {
        let mut offered = accepted.clone();
        self.shuffle(&mut offered);
        let mut readable = accepted.clone();
        let more = match self.below(4) {
            0 => 0,
            1 => MAX_TABLE,
            _ => self.below(4),
        };
        for _ in 0..more.min(MAX_TABLE - readable.len()) {
            let version = self.plain_version_outside(&readable);
            readable.push(version);
        }
        self.shuffle(&mut readable);
        Configuration {
            available: self.with_repeats(&accepted),
            pairs: self.good_pairs_among(&readable),
            readable,
            accepted,
            offered,
        }
    }

    /// All of these versions in any order, some of them repeated; at most 255 entries.
    fn with_repeats(&mut self, versions: &[u32]) -> Vec<u32> {
        let mut list = versions.to_vec();
        let room = MAX_AVAILABLE - list.len();
        let more = match self.below(8) {
            0..=3 => 0,
            4 => room,
            5 => room - 1,
            _ => self.below(5),
        };
        for _ in 0..more {
            list.push(*self.pick(versions));
        }
        self.shuffle(&mut list);
        list
    }

    /// A configuration: safe, with one fault, with up to three, or of any lists.
    pub fn configuration(&mut self) -> Configuration {
        let accepted = self.good_table();
        let mut c = self.safe_configuration(accepted);
        match self.below(8) {
            0 | 1 => {}
            2..=4 => self.break_configuration(&mut c),
            5 | 6 => {
                for _ in 0..2 + self.below(2) {
                    self.break_configuration(&mut c);
                }
            }
            _ => self.any_lists(&mut c),
        }
        c
    }

    /// One fault: of a part of the rule alone, or one that is refused.
    fn break_configuration(&mut self, c: &mut Configuration) {
        // A version of the offered table, which may be broken already.
        let version = match &c.offered[..] {
            [] => 1,
            offered => *self.pick(offered),
        };
        let near = self.near_version(version);
        match *self.pick(&FAULTS) {
            1 if c.offered.len() > 1 => {
                c.offered.retain(|v| *v != version);
                c.available.retain(|v| *v != version);
            }
            1 | 2 if c.accepted.len() > 1 => c.accepted.retain(|v| *v != version),
            3 if c.readable.len() > 1 => c.readable.retain(|v| *v != version),
            4 => {
                c.available.truncate(MAX_AVAILABLE - 1);
                let any = self.version();
                let reserved = self.reserved();
                let other = *self.pick(&[any, 0, reserved, near]);
                self.insert(&mut c.available, other);
            }
            5 => c.available.retain(|v| *v != version),
            23 => c.offered = self.broken_table(),
            33 => {
                let count = *self.pick(&[256, 256, 257, 300, 511, 512, 513]);
                c.available.resize(count, version);
                self.shuffle(&mut c.available);
            }
            41 if self.one_in(2) => c.accepted = self.broken_table(),
            41 => c.readable = self.broken_table(),
            43 => c.pairs = self.broken_pairs(&c.accepted),
            // A list too short to lose one has another in its place.
            _ => {
                let list = match self.below(4) {
                    0 => &mut c.accepted,
                    1 => &mut c.readable,
                    2 => &mut c.offered,
                    _ => &mut c.available,
                };
                for v in list.iter_mut().filter(|v| **v == version) {
                    *v = near;
                }
            }
        }
    }

    /// A number that differs from a version in one bit, or has its bytes in another order.
    fn near_version(&mut self, version: u32) -> u32 {
        let bit = 1 << self.below(32);
        *self.pick(&[version ^ bit, version.swap_bytes(), version.rotate_left(16)])
    }

    /// Lists that have little to do with each other.
    fn any_lists(&mut self, c: &mut Configuration) {
        if self.one_in(2) {
            c.readable = self.table();
        }
        if self.one_in(2) {
            c.offered = self.table();
        }
        if self.one_in(2) {
            c.available = self.list(&c.offered);
        }
        if self.one_in(4) {
            c.accepted = self.table();
        }
        if self.one_in(4) {
            c.pairs = self.pairs_among(&c.accepted);
        }
    }
}
