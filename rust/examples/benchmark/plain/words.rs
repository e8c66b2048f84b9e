//! Lists as words: a bit for each table entry that the list holds.

use super::choices::is_table;
use super::lists;
use quic_version::MAX_LIST;

/// 40, 41.
fn judged(table: &[u32], entries: usize) -> Result<(), u8> {
    if entries > MAX_LIST {
        return Err(40);
    }
    if !is_table(table) {
        return Err(41);
    }
    Ok(())
}

#[inline(never)]
pub fn list_word(table: &[u32], list: &[u32]) -> Result<u64, u8> {
    judged(table, list.len())?;
    let mut word = 0;
    for (place, version) in table.iter().enumerate() {
        if list.contains(version) {
            word |= 1 << place;
        }
    }
    Ok(word)
}

#[inline(never)]
pub fn list_word_from_bytes(table: &[u32], bytes: &[u8]) -> Result<u64, u8> {
    judged(table, bytes.len() / 4)?;
    let mut word = 0;
    for (place, version) in table.iter().enumerate() {
        if lists(bytes, *version) {
            word |= 1 << place;
        }
    }
    Ok(word)
}

/// The table entry at the lowest set place.
fn at_lowest(table: &[u32], word: u64) -> Result<u32, u8> {
    table.get(word.trailing_zeros() as usize).copied().ok_or(42)
}

#[inline(never)]
pub fn choose_by_word(table: &[u32], list: &[u32]) -> Result<u32, u8> {
    at_lowest(table, list_word(table, list)?)
}

#[inline(never)]
pub fn choose_by_word_from_bytes(table: &[u32], bytes: &[u8]) -> Result<u32, u8> {
    at_lowest(table, list_word_from_bytes(table, bytes)?)
}

#[inline(never)]
pub fn choose_from_word(table: &[u32], word: u64) -> Result<u32, u8> {
    judged(table, 0)?;
    at_lowest(table, word)
}

#[inline(never)]
pub fn count_held(table: &[u32], list: &[u32]) -> Result<usize, u8> {
    Ok(list_word(table, list)?.count_ones() as usize)
}

#[inline(never)]
pub fn count_held_from_bytes(table: &[u32], bytes: &[u8]) -> Result<usize, u8> {
    Ok(list_word_from_bytes(table, bytes)?.count_ones() as usize)
}
