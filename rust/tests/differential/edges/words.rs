//! Each place of each table as a bit, words of any origin, and lists at their longest, alone and
//! joined.

use super::versions;
use crate::checks::*;
use crate::model::{self, MAX_LIST, MAX_TABLE};
use crate::random;

/// Every call that makes a word of a list, as numbers and as bytes with 0 to 3 left over.
fn check_list(table: &[u32], list: &[u32]) {
    check_list_word(table, list).unwrap();
    check_choose_by_word(table, list).unwrap();
    check_count_held(table, list).unwrap();
    let mut bytes = random::in_fours(list);
    for _ in 0..4 {
        check_list_word_from_bytes(table, &bytes).unwrap();
        check_choose_by_word_from_bytes(table, &bytes).unwrap();
        check_count_held_from_bytes(table, &bytes).unwrap();
        bytes.push(0);
    }
}

/// As `check_list`; the word has to be this one.
fn check_word(table: &[u32], list: &[u32], word: u64) {
    assert_eq!(model::list_word(table, list), Ok(word));
    check_list(table, list);
    check_choose_from_word(table, word).unwrap();
}

/// Tables of each length, and of each the places one by one: exactly one bit, alone or among
/// repeats and numbers that the table lacks. Then all places but one, and all.
#[test]
fn each_place_of_each_table() {
    for count in 1..=MAX_TABLE {
        let table = versions(count);
        let all = u64::MAX >> (64 - count);
        for (place, version) in table.iter().copied().enumerate() {
            let bit = 1 << place;
            check_word(&table, &[version], bit);
            check_word(&table, &[99, version, 0, version, 0x1a2a_3a4a], bit);
            let mut others = table.clone();
            others.remove(place);
            check_word(&table, &others, all - bit);
        }
        let turned: Vec<u32> = table.iter().copied().rev().collect();
        check_word(&table, &turned, all);
        check_word(&table, &[turned, table.clone()].concat(), all);
        check_word(&table, &[], 0);
        check_word(&table, &[99, 0, 0x1a2a_3a4a, 100 + count as u32], 0);
    }
}

/// Versions that differ from an entry in one bit. 1 and 0x8000_0001 do so from each other; all others
/// are no entry.
#[test]
fn versions_one_bit_from_an_entry() {
    let table = [0x6b33_43cf, 1, 0x8000_0001];
    for entry in table {
        for bit in 0..32 {
            check_list(&table, &[entry ^ 1 << bit]);
        }
    }
}

/// Bytes left over that are a table entry with zeros after them, or before: no entry.
#[test]
fn bytes_left_over() {
    let table = [
        0x0102_0300,
        0x0001_0203,
        0x0102_0000,
        0x0102,
        0x0100_0000,
        1,
    ];
    for list in [&[][..], &[99], &[1], &[0x0102_0304, 0x0102_0300]] {
        let whole = random::in_fours(list);
        for left_over in [&[1][..], &[1, 2], &[1, 2, 3]] {
            let bytes = [&whole[..], left_over].concat();
            check_list_word_from_bytes(&table, &bytes).unwrap();
            check_choose_by_word_from_bytes(&table, &bytes).unwrap();
            check_count_held_from_bytes(&table, &bytes).unwrap();
        }
    }
}

/// Each single bit, all but it, the bits from each place on and up to it, none and all, with tables
/// of each length: bits at or past the table's length change nothing.
#[test]
fn words_of_any_origin() {
    for count in 0..=MAX_TABLE + 2 {
        let table = versions(count);
        for bit in 0..64 {
            for word in [1 << bit, u64::MAX << bit, u64::MAX >> bit, !(1 << bit)] {
                check_choose_from_word(&table, word).unwrap();
            }
            let beside = 1 << bit | u64::MAX.checked_shl(count as u32).unwrap_or(0);
            check_choose_from_word(&table, beside).unwrap();
        }
        check_choose_from_word(&table, 0).unwrap();
    }
}

/// Lists about the longest, with a match in the last place of list and table alone, and with tables
/// that break their rule: 40 comes first.
#[test]
fn longest_lists_as_words() {
    let full = versions(MAX_TABLE);
    let many = versions(MAX_TABLE + 1);
    let last = full[MAX_TABLE - 1];
    for entries in [0, 1, MAX_LIST - 1, MAX_LIST, MAX_LIST + 1, 20_000] {
        let mut list = vec![13; entries];
        for table in [
            &full[..],
            &many,
            &[],
            &[14, 12],
            &[12, 13],
            &[14, 14],
            &[14, 0],
            &[14, 0x1a2a_3a4a],
        ] {
            check_list(table, &list);
        }
        if let Some(end) = list.last_mut() {
            *end = last;
            check_list(&full, &list);
            check_list(&[14, last], &list);
        }
    }
}

/// Tables that break their rule, with lists and words that have something in common with them and
/// nothing: 41.
#[test]
fn broken_tables_and_words() {
    for count in [0, 1, 2, 16, MAX_TABLE - 1, MAX_TABLE, MAX_TABLE + 1] {
        for fault in [0, 0x1a2a_3a4a, 0x0a0a_0a0a, 0xfafa_fafa, 100] {
            for place in [0, count / 2, count] {
                let mut table = versions(count);
                table.insert(place, fault);
                // One table here keeps its rule.
                assert!(!model::is_table(&table) || table == [100]);
                check_list(&table, &[]);
                check_list(&table, &[fault]);
                check_list(&table, &[99]);
                check_list(&table, &table);
                for word in [0, 1, 1 << 63, u64::MAX] {
                    check_choose_from_word(&table, word).unwrap();
                }
            }
        }
    }
}

/// Two lists that are together as long as a list may be, or longer; and lists whose words are one
/// bit each.
#[test]
fn joined_lists() {
    let table = versions(MAX_TABLE);
    for (one, other) in [
        (0, 0),
        (0, MAX_LIST),
        (1, MAX_LIST - 1),
        (MAX_LIST / 2, MAX_LIST / 2),
        (MAX_LIST - 1, 1),
        (1, MAX_LIST),
        (MAX_LIST, 1),
        (MAX_LIST / 2 + 1, MAX_LIST / 2),
        (MAX_LIST, MAX_LIST),
        (0, MAX_LIST + 1),
        (MAX_LIST + 1, 0),
    ] {
        for (held, also) in [(100, 163), (163, 100), (130, 130), (99, 131), (99, 98)] {
            check_joined(&table, &vec![held; one], &vec![also; other]).unwrap();
        }
        check_joined(&[14, 14], &vec![14; one], &vec![14; other]).unwrap();
    }
    for one in &table {
        for other in &table {
            check_joined(&table, &[*one], &[*other, 99]).unwrap();
        }
    }
}
