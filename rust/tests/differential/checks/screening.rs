//! The search of a list on the wire, where the list lies among entries of the table.

use super::{check_choose_by_word_from_bytes, check_choose_from_bytes};
use super::{check_count_held_from_bytes, check_list_word_from_bytes, Compared};
use crate::random::in_fours;

/// So many entries before the list and after it are the table's first.
const AROUND: usize = 64;

/// The choice from a list as it lies on the wire. What is left of its address when it is divided by
/// four is `address`. Before and after it lies the first entry of the table, over and over, and so do
/// the bytes that are left over.
pub fn check_search(table: &[u32], list: &[u32], left_over: usize, address: usize) -> Compared {
    in_place(table, list, left_over, address, &|bytes| {
        check_choose_from_bytes(table, bytes)
    })
}

/// The same by the list's word, with the word itself and the count.
pub fn check_search_by_word(
    table: &[u32],
    list: &[u32],
    left_over: usize,
    address: usize,
) -> Compared {
    in_place(table, list, left_over, address, &|bytes| {
        check_list_word_from_bytes(table, bytes)?;
        check_count_held_from_bytes(table, bytes)?;
        check_choose_by_word_from_bytes(table, bytes)
    })
}

fn in_place(
    table: &[u32],
    list: &[u32],
    left_over: usize,
    address: usize,
    check: &dyn Fn(&[u8]) -> Compared,
) -> Compared {
    let around = vec![table[0]; AROUND];
    let lying = in_fours(&[&around[..], list, &around].concat());
    // Up to three bytes before, so that the address is as asked.
    let mut memory = Vec::with_capacity(lying.len() + 4);
    while (memory.as_ptr() as usize + memory.len()) % 4 != address {
        memory.push(0);
    }
    let start = memory.len() + 4 * AROUND;
    memory.extend(lying);
    check(&memory[start..start + 4 * list.len() + left_over])
}
