//! The model of an attempt's journal (document 02, C-20): every answer that was ever given, of which the
//! last eight and the count are read off.

use super::{JOURNAL_PLACES, MAX_EVENTS};

/// What the events of an attempt were answered with, all of them.
#[derive(Debug, Clone, PartialEq, Eq)]
pub struct History {
    /// Events before those of `answers`: 0 but where a test begins near the count's stop, with the
    /// last eight before it in `answers`.
    pub before: u64,
    /// "(0: no refusal ...)", else its number.
    pub answers: Vec<u8>,
}

impl History {
    /// "Starting again empties it."
    pub fn empty() -> History {
        History {
            before: 0,
            answers: Vec::new(),
        }
    }

    /// The history of an attempt that had so many events, and these answers to the last eight; or to
    /// all of them, where they were fewer.
    pub fn after(count: u64, answers: &[u8]) -> History {
        let listed = count.min(JOURNAL_PLACES as u64) as usize;
        History {
            before: count - listed as u64,
            answers: answers[..listed].to_vec(),
        }
    }

    /// "Every event adds one, those answered 61 to 64 too."
    pub fn add<T>(&mut self, answer: &Result<T, u8>) {
        self.answers
            .push(answer.as_ref().err().copied().unwrap_or(0));
    }

    /// "the count of all events, stopping at 4,294,967,295 while the answers go on"
    pub fn count(&self) -> u32 {
        let all = self.before + self.answers.len() as u64;
        all.min(MAX_EVENTS) as u32
    }

    /// "the last eight event answers, oldest first"
    pub fn last_eight(&self) -> &[u8] {
        let first = self.answers.len().saturating_sub(JOURNAL_PLACES);
        &self.answers[first..]
    }

    /// The same in eight places: "unused places are 0 and last".
    pub fn places(&self) -> [u8; JOURNAL_PLACES] {
        let all = self
            .last_eight()
            .iter()
            .copied()
            .chain(std::iter::repeat(0));
        let mut places = [7; JOURNAL_PLACES];
        for (place, answer) in places.iter_mut().zip(all) {
            *place = answer;
        }
        places
    }
}
