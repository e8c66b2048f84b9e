//! Seeded inputs for the calls of documents 01 and 02, biased to the edges of their rules so
//! that every refusal number comes up often.
//!
//! A test that uses this module declares `mod model;` beside `mod random;`:
//! events are made to suit a model attempt. `*_call` methods make all inputs
//! of one public call, with at most a few faults at a time, so that the order
//! of the refusals is tried as well.

#![allow(dead_code)]

pub mod attempts;
mod barred;
mod barring;
pub mod choices;
pub mod configurations;
pub mod hostile;
pub mod journal;
mod packet;
pub mod parameters;
pub mod reserved;
pub mod screening;
pub mod slots;
mod versions;
mod wire;
mod words;

pub use packet::{bits_of, in_sequence, integer_in, least_width, Parameter, WIDTHS};
pub use packet::{in_fours, information, long_packet};

/// splitmix64: the same seed gives the same inputs on every machine.
#[derive(Debug, Clone)]
pub struct Random {
    state: u64,
}

impl Random {
    pub fn new(seed: u64) -> Self {
        Random { state: seed }
    }

    pub fn next_u64(&mut self) -> u64 {
        self.state = self.state.wrapping_add(0x9e37_79b9_7f4a_7c15);
        let mut z = self.state;
        z = (z ^ (z >> 30)).wrapping_mul(0xbf58_476d_1ce4_e5b9);
        z = (z ^ (z >> 27)).wrapping_mul(0x94d0_49bb_1331_11eb);
        z ^ (z >> 31)
    }

    pub fn next_u32(&mut self) -> u32 {
        (self.next_u64() >> 32) as u32
    }

    /// One of 0 to n - 1; `n` is not 0. The bias of the remainder is of no
    /// weight for the small `n` used here.
    pub fn below(&mut self, n: usize) -> usize {
        (self.next_u64() % n as u64) as usize
    }

    /// True once in `n` draws, over the long run.
    pub fn one_in(&mut self, n: usize) -> bool {
        self.below(n) == 0
    }

    pub fn pick<'a, T>(&mut self, from: &'a [T]) -> &'a T {
        &from[self.below(from.len())]
    }

    pub fn bytes(&mut self, n: usize) -> Vec<u8> {
        let mut bytes = Vec::with_capacity(n + 8);
        while bytes.len() < n {
            bytes.extend_from_slice(&self.next_u64().to_le_bytes());
        }
        bytes.truncate(n);
        bytes
    }

    pub fn shuffle<T>(&mut self, items: &mut [T]) {
        for last in (1..items.len()).rev() {
            let other = self.below(last + 1);
            items.swap(last, other);
        }
    }

    /// Puts `item` at any place of `items`.
    fn insert<T>(&mut self, items: &mut Vec<T>, item: T) {
        let place = self.below(items.len() + 1);
        items.insert(place, item);
    }
}
