//! Several sides by turns: each round times every side once.

use crate::measure::{deeper, median, time, FRAMES};
use std::ops::Range;

/// The least time of one run, in nanoseconds.
const RUN: f64 = 50_000.0;

/// So many calls of one side.
pub type Side<'a> = Box<dyn FnMut(u64) + 'a>;

/// Nanoseconds of each side, round by round.
pub struct Turns(Vec<Vec<f64>>);

impl Turns {
    pub fn take(rounds: usize, mut sides: Vec<Side<'_>>) -> Turns {
        let calls: Vec<u64> = sides.iter_mut().map(|side| enough(side)).collect();
        let mut times = vec![Vec::new(); sides.len()];
        for round in 0..rounds {
            deeper(round % FRAMES, &mut || {
                for ((side, calls), times) in sides.iter_mut().zip(&calls).zip(&mut times) {
                    times.push(time(*calls, side));
                }
            });
        }
        Turns(times)
    }

    /// The median time of a side, in nanoseconds.
    pub fn time(&self, side: usize) -> f64 {
        median(self.0[side].clone())
    }

    /// The median of the rounds' ratios of a side to another.
    pub fn ratio(&self, side: usize, other: usize) -> f64 {
        let rounds = self.0[side].iter().zip(&self.0[other]);
        median(rounds.map(|(time, other)| time / other).collect())
    }

    /// The median of the rounds' differences of a side to another, in nanoseconds.
    pub fn more(&self, side: usize, other: usize) -> f64 {
        let rounds = self.0[side].iter().zip(&self.0[other]);
        median(rounds.map(|(time, other)| time - other).collect())
    }

    /// The side of several that takes the least time.
    pub fn fastest(&self, sides: Range<usize>) -> usize {
        let quicker = |one: usize, other: usize| {
            if self.time(other) < self.time(one) {
                other
            } else {
                one
            }
        };
        sides.clone().fold(sides.start, quicker)
    }
}

/// Twice the calls until the quickest of three runs is long enough.
fn enough(side: &mut dyn FnMut(u64)) -> u64 {
    let mut calls = 1;
    while (0..3).any(|_| time(calls, side) * (calls as f64) < RUN) {
        calls *= 2;
    }
    calls
}
