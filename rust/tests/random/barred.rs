//! What does not convert (document 02, C-17): barred pairs of a start, and barred versions of the
//! server's choice.

use super::versions::is_plain;
use super::Random;
use crate::model::{MAX_BARRED, MAX_PAIRS};

// Barred pairs.

impl Random {
    /// Barred pairs beside the pairs of a start: one in ten breaks the pairs' rule.
    pub fn barred_pairs(
        &mut self,
        table: &[u32],
        pairs: &[(u32, u32)],
        original: u32,
    ) -> Vec<(u32, u32)> {
        let mut barred = self.good_barred_pairs(table, pairs, original);
        match self.below(50) {
            0..=3 => {
                barred.truncate(MAX_PAIRS - 1);
                let bad = self.bad_pair(table);
                self.insert(&mut barred, bad);
            }
            4 => {
                let count = MAX_PAIRS + 1 + self.below(2);
                barred = self.many_barred(count, table, pairs, original);
            }
            _ => {}
        }
        barred
    }

    /// Barred pairs that keep the rule. Often they bar some of the pairs, now and then all of them,
    /// or would if they were turned round.
    pub fn good_barred_pairs(
        &mut self,
        table: &[u32],
        pairs: &[(u32, u32)],
        original: u32,
    ) -> Vec<(u32, u32)> {
        match self.below(32) {
            0..=5 => Vec::new(),
            6 | 7 => {
                let mut barred = pairs.to_vec();
                barred.retain(|pair| keeps_the_rule(*pair));
                barred.truncate(MAX_PAIRS);
                if self.one_in(4) {
                    barred = barred.iter().map(|(from, to)| (*to, *from)).collect();
                }
                self.shuffle(&mut barred);
                barred
            }
            8 => {
                let count = MAX_PAIRS - self.below(2);
                self.many_barred(count, table, pairs, original)
            }
            9..=13 => vec![self.barred_pair(table, pairs, original)],
            _ => {
                let count = 2 + self.below(7);
                self.few_barred(count, table, pairs, original)
            }
        }
    }

    fn few_barred(
        &mut self,
        count: usize,
        table: &[u32],
        pairs: &[(u32, u32)],
        original: u32,
    ) -> Vec<(u32, u32)> {
        let mut barred = Vec::new();
        while barred.len() < count {
            let pair = self.barred_pair(table, pairs, original);
            barred.push(pair);
            if self.one_in(8) {
                barred.push(pair);
            }
            // Two that would bar a third if they were chained.
            if self.one_in(8) {
                let between = self.member(table);
                let chain = [(pair.0, between), (between, pair.1)];
                barred.pop();
                barred.extend(chain.into_iter().filter(|pair| keeps_the_rule(*pair)));
            }
        }
        barred
    }

    /// So many barred pairs. A few may bar a pair, at any place; the rest bar none.
    fn many_barred(
        &mut self,
        count: usize,
        table: &[u32],
        pairs: &[(u32, u32)],
        original: u32,
    ) -> Vec<(u32, u32)> {
        let one = self.member(table);
        let other = self.plain_version_outside(&[table, &[one]].concat());
        let fill = *self.pick(&[(one, other), (other, one)]);
        let mut barred = vec![fill; count];
        for _ in 0..1 + self.below(4) {
            let place = self.below(count);
            let place = *self.pick(&[place, 0, count - 1]);
            barred[place] = self.barred_pair(table, pairs, original);
        }
        barred
    }

    /// A barred pair that keeps the rule: one of the pairs, or one that shares a member or both with
    /// one of them, or any.
    fn barred_pair(&mut self, table: &[u32], pairs: &[(u32, u32)], original: u32) -> (u32, u32) {
        loop {
            let (one, other) = (self.member(table), self.member(table));
            let (from, to) = match pairs {
                [] => (one, other),
                _ => *self.pick(pairs),
            };
            let barred = match self.below(16) {
                0..=6 => (from, to),
                7 | 8 => (to, from),
                // For the Original Version, what another version is paired to.
                9 | 10 => (original, to),
                11 => (one, to),
                12 => (from, other),
                13 => (self.plain_version(), self.plain_version()),
                _ => (one, other),
            };
            if keeps_the_rule(barred) {
                return barred;
            }
        }
    }
}

fn keeps_the_rule((from, to): (u32, u32)) -> bool {
    is_plain(from) && is_plain(to) && from != to
}

// Barred versions.

/// Numbers of barred versions that are too many, about the borders of shorter counts too.
const TOO_MANY: [usize; 8] = [65, 65, 65, 66, 128, 256, 320, 1_024];

impl Random {
    /// Barred versions for a first flight in `version`.
    pub fn barred_versions(
        &mut self,
        accepted: &[u32],
        pairs: &[(u32, u32)],
        version: u32,
    ) -> Vec<u32> {
        let count = match self.below(32) {
            0..=7 => 0,
            8..=13 => 1,
            14 => MAX_BARRED - 1,
            15 => MAX_BARRED,
            16..=18 => self.below(MAX_BARRED),
            19 | 20 => *self.pick(&TOO_MANY),
            _ => 2 + self.below(5),
        };
        if count > 8 && self.one_in(2) {
            return self.mostly_other_versions(count, accepted, pairs, version);
        }
        let mut barred = Vec::new();
        for _ in 0..count {
            let drawn = self.barred_version(accepted, pairs, version);
            match barred.last() {
                Some(last) if self.one_in(8) => barred.push(*last),
                _ => barred.push(drawn),
            }
        }
        barred
    }

    /// So many versions. A few may bar one, at any place; the rest bar none.
    fn mostly_other_versions(
        &mut self,
        count: usize,
        accepted: &[u32],
        pairs: &[(u32, u32)],
        version: u32,
    ) -> Vec<u32> {
        let outside = self.plain_version_outside(accepted);
        let reserved = self.reserved();
        let fill = *self.pick(&[outside, version, 0, reserved]);
        let mut barred = vec![fill; count];
        for _ in 0..1 + self.below(3) {
            let place = self.below(count);
            let place = *self.pick(&[place, 0, count - 1]);
            barred[place] = self.barred_version(accepted, pairs, version);
        }
        barred
    }

    /// A barred version, "of any value".
    fn barred_version(&mut self, accepted: &[u32], pairs: &[(u32, u32)], version: u32) -> u32 {
        let pair = match pairs {
            [] => (version, self.version()),
            _ => *self.pick(pairs),
        };
        match self.below(16) {
            0..=5 if !accepted.is_empty() => *self.pick(accepted),
            6..=9 => pair.1,
            10 => pair.0,
            11 | 12 => version,
            13 => 0,
            14 => self.reserved(),
            _ => self.version(),
        }
    }
}
