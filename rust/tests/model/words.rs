//! The model of lists as words, and of the second way to choose (document 02, C-15).
//!
//! A list is a set here, a word is a sum of powers of two, and a choice is a lowest place. The
//! model's `choose` is not used. Quotes are C-15's.

use super::choices::{is_table, set};
use super::MAX_LIST;
use std::collections::BTreeSet;

/// What a place of the table counts in a word: "Each place of the table is a bit".
fn bit(place: usize) -> u64 {
    2_u64.pow(place as u32)
}

/// "refusals included": 40, 41, in this order.
fn judged(table: &[u32], list: &[u32]) -> Result<(), u8> {
    if list.len() > MAX_LIST {
        Err(40)
    } else if !is_table(table) {
        Err(41)
    } else {
        Ok(())
    }
}

/// "Each place of the table is a bit; a list becomes a word of 64 bits". 40, 41. With nothing in
/// common the word is 0; the choice from it is the 42.
pub fn list_word(table: &[u32], list: &[u32]) -> Result<u64, u8> {
    judged(table, list)?;
    let listed = set(list);
    let places = (0..table.len()).filter(|place| listed.contains(&table[*place]));
    Ok(places.map(bit).sum())
}

/// The places of the table whose bit is set in the word.
fn places(table: &[u32], word: u64) -> BTreeSet<usize> {
    let set = |place: &usize| word / bit(*place) % 2 == 1;
    (0..table.len()).filter(set).collect()
}

/// "the most preferred member is the lowest set place of the word". 41, 42. Bits past the table, which
/// the papers leave free, are no place's (docs/DECISIONS.md).
pub fn choose_from_word(table: &[u32], word: u64) -> Result<u32, u8> {
    if !is_table(table) {
        return Err(41);
    }
    let lowest = places(table, word).into_iter().min().ok_or(42)?;
    Ok(table[lowest])
}

/// "a second way to choose": from the list's word. 40, 41, 42.
pub fn choose_by_word(table: &[u32], list: &[u32]) -> Result<u32, u8> {
    choose_from_word(table, list_word(table, list)?)
}

/// "how many table entries the list holds": what both have, as sets. 40, 41.
pub fn count_held(table: &[u32], list: &[u32]) -> Result<usize, u8> {
    judged(table, list)?;
    Ok(set(table).intersection(&set(list)).count())
}
