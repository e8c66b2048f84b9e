//! Barred versions of the server's choice (C-17): each accepted version, numbers about the limit, each
//! place of the longest list, and the order of the refusals. Lists of both that lie between others.

use super::versions;
use crate::checks::*;
use crate::model::{MAX_BARRED, MAX_PAIRS, MAX_TABLE};
use crate::{random, raw, Pair};

/// Chosen 100, which is paired to all others of the table; all are Available.
fn check_flight(accepted: &[u32], barred: &[u32]) -> u32 {
    let table = versions(MAX_TABLE);
    let pairs: Vec<(u32, u32)> = table[1..].iter().map(|to| (100, *to)).collect();
    let information = random::information(100, &table);
    let check = |readable: &[u32], presence| {
        let call = check_server_choice;
        call(
            readable,
            accepted,
            &pairs,
            barred,
            100,
            presence,
            &information,
        )
        .unwrap()
    };
    // Information is missing; the presence is unknown; all are readable, too.
    check(&[100], 0);
    check(&[100], 2);
    assert_eq!(check(&table, 1), check(&[100], 1));
    check(&[100], 1)
}

/// Each accepted version barred alone, and all but each; where Chosen is accepted and where not.
#[test]
fn each_accepted_version_barred() {
    let table = versions(MAX_TABLE);
    for accepted in [&table[..], &table[1..], &table[..2], &table[1..3]] {
        for version in &table {
            check_flight(accepted, &[*version]);
            let but_one: Vec<u32> = table.iter().copied().filter(|v| v != version).collect();
            check_flight(accepted, &but_one);
        }
        for first in 0..=MAX_TABLE {
            check_flight(accepted, &table[..first]);
            check_flight(accepted, &table[first..]);
        }
    }
}

/// The server does not accept Chosen, 99, and all that it accepts is Available. One is paired, and it
/// is barred or all others are; or all are paired, and all but one are barred.
#[test]
fn each_place_of_the_accepted_versions() {
    for count in [1, 2, 31, 32, 33, MAX_TABLE - 1, MAX_TABLE] {
        let table = versions(count);
        let listed: Vec<u32> = [99, 99].iter().chain(&table).copied().collect();
        let information = random::in_fours(&listed);
        let all: Vec<(u32, u32)> = table.iter().map(|to| (99, *to)).collect();
        for (place, to) in table.iter().enumerate() {
            let check = |pairs: &[(u32, u32)], barred: &[u32]| {
                check_server_choice(&[99], &table, pairs, barred, 99, 1, &information).unwrap();
            };
            let others = [&table[..place], &table[place + 1..]].concat();
            for pairs in [&all[..], &all[place..place + 1]] {
                check(pairs, &[*to]);
                check(pairs, &others);
                check(pairs, &table);
            }
        }
    }
}

/// Numbers of barred versions about the limit, and about those of shorter counts; a version that
/// bars at each place, the only one that does.
#[test]
fn each_place_of_the_barred_versions() {
    let longer = [127, 128, 129, 255, 256, 257, 320, 1_024, 65_536, 65_600];
    for count in (1..=MAX_BARRED + 2).chain(longer) {
        let number = if count <= MAX_BARRED { 0 } else { 43 };
        for fill in [9_000, 100, 0, 0x1a2a_3a4a, u32::MAX] {
            let mut barred = vec![fill; count];
            assert_eq!(check_flight(&[101, 102], &barred), number);
            let places = (0..count.min(MAX_BARRED + 2)).chain([count - 1]);
            for place in places {
                barred[place] = 101;
                assert_eq!(check_flight(&[101, 102], &barred), number);
                barred[place] = fill;
            }
        }
    }
}

/// As many pairs as there may be, all to one version, and it is barred; or another one is.
#[test]
fn a_barred_version_of_repeated_pairs() {
    let information = random::information(100, &[100, 101, 102]);
    for pairs in [vec![(100, 101); 2], vec![(100, 101); MAX_PAIRS]] {
        for accepted in [&[101, 100][..], &[101], &[102, 101]] {
            for barred in [101, 102, 100] {
                let call = check_server_choice;
                call(&[100], accepted, &pairs, &[barred], 100, 1, &information).unwrap();
            }
        }
    }
}

/// Versions that differ from an accepted one in one bit, or have its bytes in another order, do not
/// bar it.
#[test]
fn versions_near_a_barred_one() {
    for accepted in [101, 0x0102_0304, u32::MAX - 1] {
        let pairs = [(100, accepted)];
        let information = random::information(100, &[100, accepted]);
        let turned = [accepted.swap_bytes(), accepted.rotate_left(16), !accepted];
        let near = (0..32).map(|bit| accepted ^ 1 << bit).chain(turned);
        for barred in near.chain([accepted]) {
            check_server_choice(&[100], &[accepted], &pairs, &[barred], 100, 1, &information)
                .unwrap();
        }
    }
}

/// 43 for too many barred versions, before "negotiate" and all that the information has, and after
/// 41; up to 64 leave every refusal as it is.
#[test]
fn order_of_the_refusals_of_the_server() {
    let informations: [&[u32]; 6] = [&[], &[0], &[3], &[3, 0], &[4, 4], &[3, 3, 4]];
    for count in [0, 1, 4, MAX_BARRED, MAX_BARRED + 1] {
        let barred: Vec<u32> = [4, 9, 3, 0].into_iter().cycle().take(count).collect();
        for versions in informations {
            for (version, presence) in [(3, 0), (3, 1), (9, 0), (9, 1), (0, 1), (3, 2)] {
                let check = |readable: &[u32], accepted: &[u32], pairs: &[(u32, u32)]| {
                    let bytes = random::in_fours(versions);
                    check_server_choice(
                        readable, accepted, pairs, &barred, version, presence, &bytes,
                    )
                    .unwrap();
                };
                for pairs in [&[][..], &[(3, 4)], &[(3, 3)]] {
                    check(&[3], &[4, 3], pairs);
                    check(&[3], &[4], pairs);
                    check(&[3, 3], &[4], pairs);
                    check(&[3], &[], pairs);
                }
            }
        }
    }
}

// Barred pairs too.

/// The rows of a start with the table of `versions(8)` and all pairs from 100, and the decision of a
/// server that reads 100 and accepts all others.
fn rows_and_decision(pairs: &[Pair], barred: &[Pair], not_used: &[u32]) -> (Vec<u64>, u32) {
    let table = versions(8);
    let started = raw::start(&table, pairs, barred, 100, &[], &[]);
    assert_eq!(started.refusal, 0);
    let information = random::information(100, &table);
    let (accepted, mut decision) = (&table[1..], 0);
    let answer = raw::server_choice(
        &[100],
        accepted,
        pairs,
        not_used,
        100,
        1,
        &information,
        &mut decision,
    );
    assert_eq!(answer, 0);
    (started.attempt.rows[..8].to_vec(), decision)
}

/// Lists that lie between others that would bar too, or bar nothing, or break the rule: what is read
/// before or after a list is found.
#[test]
fn lists_between_others() {
    let table = versions(8);
    let pairs: Vec<Pair> = table[1..].iter().map(|to| Pair::from((100, *to))).collect();
    let places = (0..=7).flat_map(|first| (first..=7).map(move |end| (first, end)));
    for (first, end) in places {
        let (barred, not_used) = (&pairs[first..end], &table[1 + first..1 + end]);
        let answer = rows_and_decision(&pairs, barred, not_used);
        let left = (1..8).filter(|place| !(1 + first..1 + end).contains(place));
        let row = left.clone().fold(1, |row, place| row | 1 << place);
        let rows: Vec<u64> = [row].into_iter().chain((1..8).map(|k| 1 << k)).collect();
        let decision = left.min().map_or(0, |place| table[place]);
        assert_eq!(answer, (rows, decision));
        for other in [(9_000, 9_001), (0, 0), (100, 101), (100, 107)].map(Pair::from) {
            let among = [&[other; 3], barred, &[other; 3]].concat();
            let near = [&[other.to; 3], not_used, &[other.to; 3]].concat();
            let (barred, not_used) = (&among[3..among.len() - 3], &near[3..near.len() - 3]);
            assert_eq!(rows_and_decision(&pairs, barred, not_used), answer);
        }
    }
}

/// One list lent twice: as pairs and as barred pairs, as a table and as barred versions.
#[test]
fn the_same_places_twice() {
    let table = versions(8);
    let pairs: Vec<Pair> = table[1..].iter().map(|to| Pair::from((100, *to))).collect();
    let rows: Vec<u64> = (0..8).map(|place| 1 << place).collect();
    assert_eq!(rows_and_decision(&pairs, &pairs, &table), (rows, 0));
}
