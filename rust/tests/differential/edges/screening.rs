//! Each place of a list on the wire, about every border of the search (C-16), and tables and lists that
//! suit it worst.

use super::versions;
use crate::checks::*;
use crate::model::{self, Event, MAX_AVAILABLE, MAX_LIST, MAX_TABLE};
use crate::random::screening::{CHEAP, FEW, MARKS};
use crate::random::slots::{factor_taken, fewest_clashes, sharing, slot, version_in};
use crate::random::slots::{FACTORS, SLOTS};
use crate::random::{self, Random};
use std::ops::RangeInclusive;

/// A version that no table here has.
const OTHER: u32 = 99;

/// A list of others with these versions at these places. How it lies follows from its length.
fn check_held(table: &[u32], length: usize, held: &[(usize, u32)]) {
    let mut list = vec![OTHER; length];
    for (place, version) in held {
        list[*place] = *version;
    }
    check_search(table, &list, length % 4, length / 4 % 4).unwrap();
}

/// One entry of the table, at each place of lists of each of these lengths.
fn check_each_place(table: &[u32], lengths: RangeInclusive<usize>, ranks: &[usize]) {
    for length in lengths {
        for place in 0..length {
            for rank in ranks {
                check_held(table, length, &[(place, table[*rank])]);
            }
        }
    }
}

/// Short lists: by passes with small tables, by slots with a full one.
#[test]
fn each_place_of_short_lists() {
    check_each_place(&versions(1), 1..=140, &[0]);
    check_each_place(&versions(FEW), 1..=140, &[0, FEW - 1]);
    check_each_place(&versions(FEW + 1), 1..=140, &[1, FEW]);
    check_each_place(&versions(MAX_TABLE), 1..=140, &[0, 1, FEW, MAX_TABLE - 1]);
}

/// The lengths from which on a list goes by slots, up to a block more.
#[test]
fn each_place_where_slots_begin() {
    for entries in [FEW + 1, FEW + 2, 16, 33] {
        let passes = CHEAP / entries;
        let table = versions(entries);
        check_each_place(&table, passes - 1..=passes + 65, &[entries - 1]);
    }
}

/// Nothing is found, though the table's first entry lies before the list, after it, and in the bytes
/// that are left over.
#[test]
fn nothing_past_the_ends() {
    for entries in [1, 2, FEW, FEW + 1, 33, MAX_TABLE] {
        let table = versions(entries);
        for length in 0..=CHEAP / entries.max(10) + 70 {
            for lying in 0..16 {
                let list = vec![OTHER; length];
                let seen = check_search(&table, &list, lying / 4, lying % 4).unwrap();
                assert_eq!(seen, 42);
            }
        }
    }
}

/// Each entry of the table alone in a list that goes by slots, if the table is large enough: at its
/// first place, at its last, and between.
fn check_each_entry(table: &[u32]) {
    let length = CHEAP / table.len().max(FEW) + 2;
    for version in table {
        for place in [0, length / 2, length - 1] {
            check_held(table, length, &[(place, *version)]);
        }
    }
}

/// Tables of each size, whose entries clash and do not.
#[test]
fn each_entry_of_each_table() {
    let mut random = Random::new(16);
    for _ in 0..4 {
        let clashing = random.clashing_table(20_000);
        assert!(fewest_clashes(&clashing[MAX_TABLE - 9..]).0 > 0);
        for entries in 1..=MAX_TABLE {
            check_each_entry(&versions(entries));
            check_each_entry(&clashing[MAX_TABLE - entries..]);
        }
    }
}

/// An entry in each slot that there is, under each factor. Others of the eight may be taken.
#[test]
fn each_slot() {
    let mut random = Random::new(22);
    for factor in FACTORS {
        for from in (0..SLOTS).step_by(MAX_TABLE) {
            let mut version = |slot| version_in(slot as u32, factor, random.next_u32());
            let mut table: Vec<u32> = (from..from + MAX_TABLE).map(&mut version).collect();
            table.retain(|v| model::is_table(&[*v]));
            check_each_entry(&table);
        }
    }
}

/// Two entries of a full table, each pair of them, the better one first and last, near each other and
/// apart.
#[test]
fn each_two_entries() {
    let clashing = Random::new(17).clashing_table(500);
    for table in [&versions(MAX_TABLE), &clashing] {
        for better in 0..MAX_TABLE {
            for worse in better + 1..MAX_TABLE {
                let (better, worse) = (table[better], table[worse]);
                for (first, last) in [(0, 99), (40, 41), (47, 48)] {
                    check_held(table, 100, &[(first, better), (last, worse)]);
                    check_held(table, 100, &[(first, worse), (last, better)]);
                }
            }
        }
    }
}

/// Two entries that share a slot, at each two of the places that a table begins with, and a third one
/// beside them: each two of the three in the list, in both orders.
#[test]
fn clashes_among_the_first_entries() {
    let mut random = Random::new(21);
    for _ in 0..4 {
        let mut rest = random.clashing_table(500);
        let (one, other) = sharing(&rest).unwrap();
        let sharing = [rest.remove(other), rest.remove(one)];
        for second in 1..=FEW + 1 {
            for first in 0..second {
                let mut table = rest.clone();
                table.insert(first, sharing[0]);
                table.insert(second, sharing[1]);
                for third in (0..=FEW + 2).filter(|rank| ![first, second].contains(rank)) {
                    check_each_two(&table, [first, second, third]);
                }
            }
        }
    }
}

/// Each two of three entries in the list, in both orders, near each other and apart.
fn check_each_two(table: &[u32], ranks: [usize; 3]) {
    let held = ranks.map(|rank| table[rank]);
    for (one, other) in [(0, 1), (1, 0), (0, 2), (2, 0), (1, 2), (2, 1)] {
        for (first, last) in [(0, 99), (40, 41), (47, 48)] {
            check_held(table, 100, &[(first, held[one]), (last, held[other])]);
        }
    }
}

/// One of the first entries of the table, and at each place after it one that is better still.
#[test]
fn a_better_entry_at_each_place_after() {
    let table = versions(MAX_TABLE);
    for found in [0, 1, 14, 15, 16, 17, 31, 32, 63, 64, 100] {
        for rank in 1..=FEW + 1 {
            for better in 0..rank {
                for place in found + 1..found + 140 {
                    let held = [(found, table[rank]), (place, table[better])];
                    check_held(&table, found + 141, &held);
                }
            }
        }
    }
}

/// All entries of the table, the worst first, down to each rank; at the end of the list, at its
/// beginning, and apart.
#[test]
fn worst_first_down_to_each_rank() {
    let clashing = Random::new(18).clashing_table(500);
    for table in [&versions(MAX_TABLE), &clashing] {
        for best in 0..MAX_TABLE {
            let worst_first = table[best..].iter().rev().copied();
            let count = MAX_TABLE - best;
            for (begin, apart) in [(200 - count, 1), (0, 1), (0, 3)] {
                let places = (begin..).step_by(apart);
                let held: Vec<(usize, u32)> = places.zip(worst_first.clone()).collect();
                check_held(table, 200, &held);
            }
        }
    }
}

/// A full table with an entry in the slot of a mark, under the factor that is taken: lists of marks with
/// that entry among them, where the table has no mark and where it has one.
#[test]
fn marks_in_emptied_slots() {
    let mut random = Random::new(19);
    for mark in MARKS {
        for rank in [0, 1, FEW - 1, FEW, MAX_TABLE - 1] {
            let mut table: Vec<u32> = (0..MAX_TABLE).map(|_| random.any_plain_version()).collect();
            let factor = factor_taken(&table);
            table[rank] = version_in(slot(mark, factor), factor, random.next_u32());
            check_marks(&table, table[rank]);
            for mark in &MARKS[1..] {
                table[MAX_TABLE - 2] = *mark;
                check_marks(&table, table[rank]);
            }
        }
    }
}

/// Lists of one mark over and over: alone, with this entry, and with a better one at the end too.
fn check_marks(table: &[u32], entry: u32) {
    for mark in MARKS {
        check_search(table, &[mark; 80], 0, 1).unwrap();
        for place in [0, 15, 16, 40] {
            let mut list = [mark; 80];
            list[place] = entry;
            check_search(table, &list, 0, 2).unwrap();
            list[79] = table[0];
            check_search(table, &list, 0, 3).unwrap();
        }
    }
}

/// Versions that are no entry, but nearly: one bit or one byte is another, or the bytes are turned
/// round or moved.
#[test]
fn near_misses() {
    let table: Vec<u32> = (0..MAX_TABLE as u32).map(|k| 0x6b33_4301 + k).collect();
    let near = |entry: u32| {
        let bits = (0..32).map(move |bit| entry ^ 1 << bit);
        let bytes = (0..4).map(move |byte| entry & !(0xff << (8 * byte)));
        let moved = (1..4).map(move |bytes| entry.rotate_left(8 * bytes));
        let others = bits.chain(bytes).chain(moved);
        others.chain([entry.swap_bytes()])
    };
    for entry in [table[0], table[1], table[FEW], table[MAX_TABLE - 1]] {
        for version in near(entry) {
            for length in [1, 16, 33, 48, 64, 129] {
                check_search(&table, &vec![version; length], 3, 1).unwrap();
                check_search(&[entry], &vec![version; length], 3, 1).unwrap();
            }
        }
    }
}

/// The longest lists, one past them, and each of several entries at their ends.
#[test]
fn longest_lists_by_slots() {
    let clashing = Random::new(20).clashing_table(500);
    for table in [&versions(MAX_TABLE), &clashing] {
        for length in MAX_LIST - 2..=MAX_LIST + 1 {
            check_held(table, length, &[]);
            for rank in [0, 1, FEW, 40, MAX_TABLE - 1] {
                for place in [0, length - 2, length - 1] {
                    check_held(table, length, &[(place, table[rank])]);
                }
            }
        }
    }
}

/// A Version Negotiation packet on an attempt that begins with the middle of its table.
fn check_packet(table: &[u32], list: &[u32], id: usize, number: u32) {
    let (original, id) = (table[table.len() / 2], vec![7; id]);
    let packet = random::long_packet(0, 0, &id, &[], &random::in_fours(list));
    let events = [Event::Datagram(packet)];
    let seen = check_events(table, &[], &[], original, &[], &id, &events).unwrap();
    assert_eq!(seen, [number]);
}

/// Rule 64: the Original Version at each place of a packet's list, before and after other entries.
#[test]
fn original_version_at_each_place() {
    for entries in [1, FEW + 1, MAX_TABLE] {
        let table = versions(entries);
        for length in 1..=140 {
            let mut list = vec![OTHER; length];
            check_packet(&table, &list, length % 4, 65);
            for place in 0..length {
                list[place] = table[entries / 2];
                check_packet(&table, &list, length % 4, 64);
                list[place] = table[entries - 1];
            }
            let number = if entries == 1 { 64 } else { 0 };
            check_packet(&table, &list, length % 4, number);
        }
    }
}

/// Available Versions: 0 at each place, and Chosen at each.
#[test]
fn each_place_of_available_versions() {
    for length in (1..=140).chain(MAX_AVAILABLE - 2..=MAX_AVAILABLE) {
        for place in 0..length {
            let mut available = vec![OTHER; length];
            available[place] = 100;
            let bytes = random::information(100, &available);
            assert_eq!(check_read_information(0, &bytes), Ok(0));
            check_server_choice(&[100], &[14, 100], &[], &[], 100, 1, &bytes).unwrap();
            available[place] = 0;
            let bytes = random::information(OTHER, &available);
            assert_eq!(check_read_information(1, &bytes), Ok(35));
        }
    }
}

/// After acting: a better version than the attempted one at each place of the server's Available
/// Versions.
#[test]
fn a_better_version_at_each_place_of_an_outcome() {
    let table = versions(MAX_TABLE);
    let (original, attempted) = (table[MAX_TABLE - 1], table[MAX_TABLE - 2]);
    let packet = random::long_packet(0, 0, &[], &[], &random::in_fours(&[attempted]));
    for length in [1, 16, 31, 32, 33, 48, 64, 129, MAX_AVAILABLE] {
        for better in [
            table[0],
            table[1],
            table[FEW],
            table[MAX_TABLE - 3],
            attempted,
        ] {
            for place in 0..length {
                let mut available = vec![OTHER; length];
                available[place] = better;
                let outcome = Event::Outcome {
                    in_use: attempted,
                    information: Some(random::information(attempted, &available)),
                };
                let events = [Event::Datagram(packet.clone()), outcome];
                let seen = check_events(&table, &[], &[], original, &[], &[], &events).unwrap();
                let number = if better == attempted { 0 } else { 75 };
                assert_eq!(seen, [0, number]);
            }
        }
    }
}
