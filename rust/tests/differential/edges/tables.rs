//! Tables and pairs at their limits, and each bit of the words that a start makes of them.

use super::versions;
use crate::checks::*;
use crate::model::{MAX_PAIRS, MAX_TABLE};
use crate::random;
use quic_version::{MAX_PACKET, MIN_ANSWERED_DATAGRAM};

/// A first flight in version 1 that is large enough to be answered.
fn first_flight() -> Vec<u8> {
    random::long_packet(0xc0, 1, &[7; 8], &[8; 8], &[0; MIN_ANSWERED_DATAGRAM])
}

/// Every call that takes a table, with this one: 41 or 23 where it breaks its rule.
fn check_table(table: &[u32]) {
    let (sure, last) = ([100], table.last().copied().unwrap_or(1));
    let information = random::in_fours(&[100, last, 100]);
    check_is_table(table).unwrap();
    check_choose(table, &[last]).unwrap();
    check_choose_from_bytes(table, &random::in_fours(&[last])).unwrap();
    check_list_word(table, &[last]).unwrap();
    check_list_word_from_bytes(table, &random::in_fours(&[last])).unwrap();
    check_choose_by_word(table, &[last]).unwrap();
    check_choose_by_word_from_bytes(table, &random::in_fours(&[last])).unwrap();
    check_choose_from_word(table, 1 << 63).unwrap();
    check_count_held(table, &[last]).unwrap();
    check_count_held_from_bytes(table, &random::in_fours(&[last])).unwrap();
    check_write_version_negotiation(&first_flight(), table, &[], 0, MAX_PACKET + 8).unwrap();
    check_server_choice(table, &sure, &[], &[], last, 0, &[]).unwrap();
    check_server_choice(&sure, table, &[], &[], 100, 1, &information).unwrap();
    check_start(table, &[], &[], last, &[], &[]).unwrap();
    for [readable, accepted, offered] in [
        [table, &sure, &sure],
        [&sure, table, &sure],
        [&sure, &sure, table],
        [table, table, table],
    ] {
        check_judge_configuration(readable, accepted, offered, &sure, &[]).unwrap();
    }
}

#[test]
fn every_length_of_a_table() {
    for count in 0..=MAX_TABLE + 2 {
        check_table(&versions(count));
    }
}

/// 0, a reserved version, and an entry twice, at each place of tables at the limit.
#[test]
fn a_fault_at_each_place_of_a_table() {
    for count in [2, 3, 16, 17, MAX_TABLE - 1, MAX_TABLE, MAX_TABLE + 1] {
        for place in 0..count {
            for fault in [0, 0x1a2a_3a4a, 100 + (place + 1) as u32 % count as u32, 100] {
                let mut table = versions(count);
                table[place] = fault;
                check_is_table(&table).unwrap();
            }
        }
        let mut table = versions(count);
        table[count - 1] = table[0];
        check_table(&table);
    }
}

/// Every call that takes pairs, with these: 43 where they break their rule.
fn check_pairs(pairs: &[(u32, u32)]) {
    let table = versions(MAX_TABLE);
    let listed: Vec<u32> = [100, 100].iter().chain(&table).copied().collect();
    let information = random::in_fours(&listed);
    check_are_pairs(pairs).unwrap();
    check_start(&table, pairs, &[], 100, &[], &[]).unwrap();
    // The server does not accept Chosen, 100, so that the pairs decide.
    check_server_choice(&table, &table[1..], pairs, &[], 100, 1, &information).unwrap();
    check_judge_configuration(&table, &table, &table, &table, pairs).unwrap();
}

#[test]
fn numbers_of_pairs() {
    let few = [0, 1, 2, 63, 64, 65];
    let many = MAX_PAIRS - 2..=MAX_PAIRS + 2;
    for count in few.into_iter().chain(many) {
        // The last pair is the only one from 100, and leads to the last entry.
        let mut pairs = vec![(101, 102); count];
        if let Some(last) = pairs.last_mut() {
            *last = (100, 100 + MAX_TABLE as u32 - 1);
        }
        check_pairs(&pairs);
        // A fault in the first place, and in the last.
        for place in [0, count.saturating_sub(1)].into_iter().take(count) {
            for fault in [
                (0, 101),
                (100, 0),
                (0x1a2a_3a4a, 101),
                (100, 0xfafa_fafa),
                (100, 100),
            ] {
                let kept = std::mem::replace(&mut pairs[place], fault);
                check_pairs(&pairs);
                pairs[place] = kept;
            }
        }
    }
}

/// One pair, from each entry of a table to each: one bit of one word, for the client and for the
/// server.
#[test]
fn every_bit_of_the_words() {
    for count in [2, 31, 32, 33, MAX_TABLE - 1, MAX_TABLE] {
        let table = versions(count);
        for from in &table {
            for to in table.iter().filter(|to| *to != from) {
                check_start(&table, &[(*from, *to)], &[], *from, &[], &[]).unwrap();
            }
        }
        // The server does not accept Chosen, 99, and all that it accepts is available, so that the
        // bit alone decides.
        let listed: Vec<u32> = [99, 99].iter().chain(&table).copied().collect();
        let information = random::in_fours(&listed);
        for to in &table {
            check_server_choice(&[99], &table, &[(99, *to)], &[], 99, 1, &information).unwrap();
        }
    }
}

/// As many pairs as there may be, all from one entry: to every entry, and to none.
#[test]
fn all_pairs_from_one_entry() {
    let table = versions(MAX_TABLE);
    for from in [table[0], table[MAX_TABLE / 2], table[MAX_TABLE - 1]] {
        let others: Vec<u32> = table.iter().copied().filter(|v| *v != from).collect();
        let all: Vec<(u32, u32)> = (0..MAX_PAIRS)
            .map(|k| (from, others[k % others.len()]))
            .collect();
        let none: Vec<(u32, u32)> = (0..MAX_PAIRS).map(|k| (from, 9_000 + k as u32)).collect();
        for pairs in [&all, &none] {
            check_start(&table, pairs, &[], from, &[], &[]).unwrap();
            for available in [&table[..], &others, &[]] {
                let listed: Vec<u32> = [from, from].into_iter().chain(available.to_vec()).collect();
                let information = random::in_fours(&listed);
                check_server_choice(&table, &others, pairs, &[], from, 1, &information).unwrap();
            }
        }
    }
}
