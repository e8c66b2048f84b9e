//! Barred pairs of a start (C-17): every bit of its words, numbers about the limit, each place of the
//! longest list, the order of the refusals, and P10.

use super::versions;
use crate::checks::*;
use crate::model::{Event, MAX_PAIRS, MAX_TABLE};
use crate::random;

/// Pairs that break the rule, each in its way.
const BAD: [(u32, u32); 8] = [
    (0, 101),
    (100, 0),
    (0, 0),
    (0x1a2a_3a4a, 101),
    (100, 0xfafa_fafa),
    (100, 100),
    (101, 101),
    (9_000, 9_000),
];

/// A start with a table of so many entries and all pairs from its first one, with these barred.
fn check_barred(count: usize, barred: &[(u32, u32)]) -> u32 {
    let table = versions(count);
    let pairs: Vec<(u32, u32)> = table[1..].iter().map(|to| (table[0], *to)).collect();
    check_start(&table, &pairs, barred, table[0], &[], &[]).unwrap()
}

/// One barred pair, from each entry of a table to each, where all that there may be are paired: from
/// the same entry, or to it. So one bit of one word is cleared, or none.
#[test]
fn every_bit_that_is_barred() {
    for count in [2, 3, 31, 32, 33, MAX_TABLE - 1, MAX_TABLE] {
        let table = versions(count);
        for from in &table {
            let others = || table.iter().copied().filter(|v| v != from);
            let out: Vec<(u32, u32)> = others().map(|to| (*from, to)).collect();
            let back: Vec<(u32, u32)> = others().map(|to| (to, *from)).collect();
            let both = [&out[..], &back].concat();
            for pair in &out {
                for pairs in [&out, &back, &both] {
                    check_start(&table, pairs, &[*pair], *from, &[], &[]).unwrap();
                }
            }
            check_start(&table, &both, &out, *from, &[], &[]).unwrap();
            check_start(&table, &both, &both, *from, &[], &[]).unwrap();
        }
    }
}

/// Every pair of a table of 32 entries is there, and one of them is barred; or all but one.
#[test]
fn each_of_all_pairs() {
    let table = versions(32);
    let from_each = table
        .iter()
        .flat_map(|from| table.iter().map(move |to| (*from, *to)));
    let pairs: Vec<(u32, u32)> = from_each.filter(|(from, to)| from != to).collect();
    for place in 0..pairs.len() {
        check_start(&table, &pairs, &[pairs[place]], 100, &[], &[]).unwrap();
        let mut but_one = pairs.clone();
        but_one.remove(place);
        check_start(&table, &pairs, &but_one, 100, &[], &[]).unwrap();
    }
}

/// As many pairs as there may be, all the same one, and one that bars them; each entry of a table
/// barred to and from a version that is in no table.
#[test]
fn repeated_pairs_and_members_of_no_table() {
    let table = versions(MAX_TABLE);
    let first = vec![(100, 101); MAX_PAIRS];
    let all: Vec<(u32, u32)> = (0..MAX_PAIRS)
        .map(|k| (100, 101 + (k % (MAX_TABLE - 1)) as u32))
        .collect();
    for barred in [(100, 101), (101, 100), (100, 102), (102, 101)] {
        check_start(&table, &first, &[barred], 100, &[], &[]).unwrap();
        check_start(&table, &all, &[barred], 100, &[], &[]).unwrap();
    }
    for entry in &table {
        let others = table.iter().filter(|v| *v != entry);
        let pairs: Vec<(u32, u32)> = others.flat_map(|v| [(*entry, *v), (*v, *entry)]).collect();
        for barred in [(*entry, 9_000), (9_000, *entry)] {
            check_start(&table, &pairs, &[barred], *entry, &[], &[]).unwrap();
        }
    }
}

/// A pair that bars at each place of the longest list, the only one that does; and a fault there.
#[test]
fn each_place_of_the_barred_pairs() {
    let last = 100 + MAX_TABLE as u32 - 1;
    let mut barred = vec![(101, 100); MAX_PAIRS];
    for place in 0..barred.len() {
        barred[place] = (100, last);
        assert_eq!(check_barred(MAX_TABLE, &barred), 0);
        barred[place] = BAD[place % BAD.len()];
        assert_eq!(check_barred(MAX_TABLE, &barred), 43);
        barred[place] = (101, 100);
    }
}

/// Numbers of barred pairs about the limit, and about those of shorter counts. The last bars, and a
/// fault stands first or last.
#[test]
fn numbers_of_barred_pairs() {
    let few = [0, 1, 2, 63, 64, 65, 255, 256, 257];
    let many = MAX_PAIRS - 2..=MAX_PAIRS + 2;
    let counts = few
        .into_iter()
        .chain(many)
        .chain([2_048, 65_535, 65_536, 65_537]);
    for count in counts {
        let mut barred = vec![(101, 102); count];
        if let Some(last) = barred.last_mut() {
            *last = (100, 100 + MAX_TABLE as u32 - 1);
        }
        let number = if count <= MAX_PAIRS { 0 } else { 43 };
        assert_eq!(check_barred(MAX_TABLE, &barred), number);
        for place in [0, count.saturating_sub(1)].into_iter().take(count) {
            for fault in BAD {
                let kept = std::mem::replace(&mut barred[place], fault);
                assert_eq!(check_barred(MAX_TABLE, &barred), 43);
                barred[place] = kept;
            }
        }
    }
}

/// Pairs that differ from a compatible one in one bit of a member do not bar it.
#[test]
fn pairs_near_a_barred_one() {
    for (from, to) in [(100, 101), (0x0102_0304, u32::MAX), (u32::MAX - 1, 100)] {
        let near = (0..32).map(|bit| 1 << bit);
        let near = near.flat_map(|change| [(from ^ change, to), (from, to ^ change)]);
        for barred in near.chain([(from, to), (to, from)]) {
            check_start(&[from, to], &[(from, to)], &[barred], from, &[], &[]).unwrap();
        }
    }
}

/// 41, 43, 44 and 45: a fault of the barred pairs beside one of every other kind, and of both.
#[test]
fn order_of_the_refusals_of_a_start() {
    let many = vec![(100, 101); MAX_PAIRS + 1];
    let long = [7; 21];
    for fault in BAD.iter().map(|bad| vec![*bad]).chain([many]) {
        let good = vec![(100, 101)];
        for (pairs, barred) in [(&good, &fault), (&fault, &good), (&fault, &fault)] {
            for (table, original, id, number) in [
                (&[][..], 100, &[][..], 41),
                (&[100, 100], 100, &[], 41),
                (&[100, 0], 9, &long, 41),
                (&[100], 100, &[], 43),
                (&[100], 9, &[], 43),
                (&[100], 9, &long, 43),
                (&[100], 100, &long, 43),
            ] {
                let seen = check_start(table, pairs, barred, original, id, &[]).unwrap();
                assert_eq!(seen, number);
                let seen = check_start(table, pairs, barred, original, &[], id).unwrap();
                assert_eq!(seen, number);
            }
        }
    }
}

fn packet(list: &[u32]) -> Event {
    let list = random::in_fours(list);
    Event::Datagram(random::long_packet(0, 0, &[], &[], &list))
}

fn outcome(chosen: u32, available: &[u32]) -> Event {
    Event::Outcome {
        in_use: chosen,
        information: Some(random::information(chosen, available)),
    }
}

fn missing(in_use: u32) -> Event {
    Event::Outcome {
        in_use,
        information: None,
    }
}

/// P4 to P9, which have no pairs, and the same with pairs that lead elsewhere: what is barred changes
/// no choice, no stand-in and no other number.
#[test]
fn p4_to_p9_with_each_barred() {
    let table = [14, 12, 10];
    let versions = [14, 12, 10, 1, 13];
    let all = versions.map(|from| versions.map(|to| (from, to))).concat();
    for barred in all.iter().filter(|(from, to)| from != to) {
        for pairs in [
            &[][..],
            &[(10, 12), (14, 12), (1, 12)],
            &[(10, 14), (1, 14)],
        ] {
            let check = |table: &[u32], original, events: &[Event], numbers: &[u32]| {
                let check = check_events(table, pairs, &[*barred], original, &[], &[], events);
                assert_eq!(check.unwrap(), numbers, "{:?} {:?}", pairs, barred);
            };
            let p4 = packet(&[10, 13, 14]);
            check(&table, 12, &[p4.clone(), outcome(14, &[13, 14])], &[0, 0]);
            let p5 = [packet(&[10, 13]), outcome(10, &[10, 13, 14])];
            check(&table, 12, &p5, &[0, 75]);
            check(&table, 12, &[p4, outcome(14, &[])], &[0, 74]);
            check(&table, 12, &[packet(&[12, 14])], &[64]);
            check(&[14, 1], 14, &[packet(&[1]), missing(1)], &[0, 0]);
            check(&[14, 10], 14, &[packet(&[10]), missing(10)], &[0, 71]);
        }
    }
}

/// P10 to P12 with each pair of five versions barred, and each two: the attempt acts, and every
/// version is Chosen and in use.
#[test]
fn p10_with_each_two_barred() {
    let table = [3, 4, 1, 2];
    let all: Vec<(u32, u32)> = (1..=5)
        .flat_map(|from| (1..=5).map(move |to| (from, to)))
        .filter(|(from, to)| from != to)
        .collect();
    let packet = packet(&[4, 3]);
    for one in &all {
        for other in &all {
            let barred = [*one, *other];
            let check = |events: &[Event]| {
                let pairs = [(1, 2), (3, 4)];
                check_events(&table, &pairs, &barred, 1, &[], &[], events).unwrap()
            };
            let expected = if barred.contains(&(3, 4)) { 72 } else { 0 };
            let seen = check(&[packet.clone(), outcome(4, &[4, 3])]);
            assert_eq!(seen, [0, expected], "{:?}", barred);
            let expected = if barred.contains(&(1, 2)) { 72 } else { 0 };
            assert_eq!(check(&[outcome(2, &[])]), [expected], "{:?}", barred);
            for chosen in 1..=5 {
                check(&[packet.clone(), outcome(chosen, &[4])]);
                check(&[packet.clone(), outcome(chosen, &[])]);
                check(&[outcome(chosen, &[4, 3])]);
            }
        }
    }
}
