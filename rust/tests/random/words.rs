//! Whole calls of lists as words, and of the choice from a word.

use super::Random;
use crate::model::{MAX_LIST, MAX_TABLE};

impl Random {
    /// Table and list; 40, 41 and 42 among the answers of a choice, and all kinds of words.
    pub fn word_call(&mut self) -> (Vec<u32>, Vec<u32>) {
        let table = self.word_table();
        let list = match self.below(192) {
            0 => self.long_list(MAX_LIST + 1, &table),
            1 => self.long_list(MAX_LIST, &table),
            _ => self.word_list(&table),
        };
        (table, list)
    }

    /// A table and two lists to join: now and then as many entries as there may be together, or one
    /// more.
    pub fn joined_call(&mut self) -> (Vec<u32>, Vec<u32>, Vec<u32>) {
        let table = self.word_table();
        let other = self.word_list(&table);
        let one = match self.below(128) {
            0 => {
                let entries = MAX_LIST + self.below(2) - other.len().min(MAX_LIST);
                self.long_list(entries, &table)
            }
            _ => self.word_list(&table),
        };
        if self.one_in(2) {
            (table, one, other)
        } else {
            (table, other, one)
        }
    }

    /// A table, and a word that need be no list's.
    pub fn choose_from_word_call(&mut self) -> (Vec<u32>, u64) {
        let table = self.word_table();
        let entries = table.len() as u32;
        // The bits at or past the table's length.
        let past = u64::MAX.checked_shl(entries).unwrap_or(0);
        let any = self.next_u64();
        let bit = 1 << self.below(64);
        let word = match self.below(8) {
            0 => 0,
            1 => u64::MAX,
            2 => bit,
            3 => any & past,
            4 => past,
            5 => bit | past,
            6 => u64::MAX << self.below(64),
            _ => any,
        };
        (table, word)
    }

    /// As `table`, and often full.
    fn word_table(&mut self) -> Vec<u32> {
        if self.one_in(4) {
            self.distinct(MAX_TABLE)
        } else {
            self.table()
        }
    }

    /// A list whose word has no bit, one, all, those from a place on, or any.
    fn word_list(&mut self, table: &[u32]) -> Vec<u32> {
        let place = self.below(table.len().max(1));
        let mut list = match self.below(12) {
            0 | 1 => return self.list_outside(table),
            2 => return Vec::new(),
            3 | 4 => table.to_vec(),
            5..=7 => table.get(place).copied().into_iter().collect(),
            8 => table.get(place..).unwrap_or(&[]).to_vec(),
            _ => return self.list(table),
        };
        // Repeats, and entries that the table lacks.
        for _ in 0..self.below(3) {
            let more = match list.last() {
                Some(last) if self.one_in(2) => *last,
                _ => self.plain_version_outside(table),
            };
            list.push(more);
        }
        self.shuffle(&mut list);
        list
    }
}
