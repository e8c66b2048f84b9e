//! The test of a server's configuration: every length and every place of each list, each part of the
//! safe rule broken alone and with others, every order of refusals, and all lists over three versions.

use super::versions;
use crate::checks::*;
use crate::model::{Configuration, Finding, MAX_AVAILABLE, MAX_PAIRS, MAX_TABLE};
use crate::{raw, Pair};

const RESERVED: u32 = 0x1a2a_3a4a;

/// A safe configuration with so many versions, in another order in each list.
fn safe(count: usize) -> Configuration {
    let accepted = versions(count);
    let turned: Vec<u32> = accepted.iter().rev().copied().collect();
    let (first, second) = accepted.split_at(count / 2);
    Configuration {
        readable: [second, first].concat(),
        offered: turned,
        available: [first, second].concat(),
        accepted,
        pairs: vec![(100, 101)],
    }
}

/// Compared, and what the model finds.
fn check(c: &Configuration) -> Result<Finding, u8> {
    check_judge_configuration(&c.readable, &c.accepted, &c.offered, &c.available, &c.pairs)
        .unwrap();
    c.judged()
}

/// The four lists, and with which number each is refused where it breaks a rule of its own.
const LISTS: [(fn(&mut Configuration) -> &mut Vec<u32>, u8); 4] = [
    (|c| &mut c.readable, 41),
    (|c| &mut c.accepted, 41),
    (|c| &mut c.offered, 23),
    (|c| &mut c.available, 33),
];

#[test]
fn every_length_of_each_table() {
    for count in 1..=MAX_TABLE {
        assert_eq!(check(&safe(count)), Ok((0, 0)));
    }
    for count in (0..=MAX_TABLE + 2).chain([128, 255, 256, 257, 320, 65_536, 65_600]) {
        for (list, number) in &LISTS[..3] {
            let mut c = safe(MAX_TABLE);
            *list(&mut c) = versions(count);
            let refused = count == 0 || count > MAX_TABLE;
            assert_eq!(check(&c).err(), refused.then_some(*number));
        }
    }
}

/// Numbers of Available Versions about the limit and about those of shorter counts. All are there,
/// repeated, in whatever order; one is missing; the last alone is not offered.
#[test]
fn every_length_of_available() {
    let few = (0..=70).chain(250..=260);
    for count in few.chain([511, 512, 513, 1_024, 65_535, 65_536, 65_537, 65_791]) {
        let too_many = (count > MAX_AVAILABLE).then_some(33);
        for entries in [1, 2, 3, MAX_TABLE] {
            let mut c = safe(entries);
            c.available = versions(entries).into_iter().cycle().take(count).collect();
            let found = check(&c);
            assert_eq!(found.err(), too_many);
            assert!(too_many.is_some() || (found == Ok((0, 0))) == (count >= entries));
            c.available.reverse();
            assert_eq!(check(&c).err(), too_many);
            for other in [99, 0, RESERVED, u32::MAX] {
                if let Some(last) = c.available.last_mut() {
                    *last = other;
                    let due = too_many.map_or(Ok((4, other)), Err);
                    assert_eq!(check(&c), due);
                }
            }
        }
    }
}

/// 0, a reserved number and a repeat at each place of each list: a refusal of a table, and in
/// Available a version that is not offered, or nothing.
#[test]
fn a_fault_at_each_place_of_each_list() {
    for count in [2, 3, 16, 17, MAX_TABLE - 1, MAX_TABLE] {
        for place in 0..count {
            for (list, number) in LISTS {
                for fault in [0, RESERVED, 0xfafa_fafa] {
                    let mut c = safe(count);
                    list(&mut c)[place] = fault;
                    let due = match number {
                        33 => Ok((4, fault)),
                        _ => Err(number),
                    };
                    assert_eq!(check(&c), due);
                }
                let mut c = safe(count);
                let again = list(&mut c)[place];
                list(&mut c).insert(count / 2, again);
                let due = match number {
                    33 => Ok((0, 0)),
                    _ => Err(number),
                };
                assert_eq!(check(&c), due);
            }
        }
    }
}

/// A version that one list alone lacks, or two that it lacks, at each place: each part is broken
/// alone, and the first version in the order of the list that the part names first is told.
#[test]
fn each_part_at_each_place() {
    for count in [2, 3, 16, 17, MAX_TABLE - 1, MAX_TABLE] {
        for version in versions(count) {
            let other = 100 + (version - 99) % count as u32;
            for gone in [&[version][..], &[version, other]] {
                if gone.len() == count {
                    continue;
                }
                let (low, high) = (*gone.iter().min().unwrap(), *gone.iter().max().unwrap());
                let without = |lists: &[usize]| {
                    let mut c = safe(count);
                    for list in lists {
                        LISTS[*list].0(&mut c).retain(|v| !gone.contains(v));
                    }
                    check(&c)
                };
                // Accepted is in rising order, offered in falling order.
                assert_eq!(without(&[2, 3]), Ok((1, low)));
                assert_eq!(without(&[2]), Ok((1, low)));
                assert_eq!(without(&[1]), Ok((2, high)));
                assert_eq!(without(&[1, 3]), Ok((2, high)));
                assert_eq!(without(&[0]), Ok((3, high)));
                assert_eq!(without(&[0, 3]), Ok((3, high)));
                assert_eq!(without(&[1, 2]), Ok((4, low)));
                assert_eq!(without(&[0, 1, 2]), Ok((4, low)));
                assert_eq!(without(&[3]), Ok((5, high)));
                // Not readable, and nowhere else either.
                assert_eq!(without(&[0, 1, 2, 3]), Ok((0, 0)));
                assert_eq!(without(&[1, 2, 3]), Ok((0, 0)));
            }
        }
    }
}

/// Every set of the five parts, with every set of what is refused: the lowest number, then the first
/// part.
#[test]
fn every_order_of_parts_and_refusals() {
    // One version for each part; 100 and 101 are everywhere.
    for broken in 0..32_u32 {
        for refused in 0..32_u32 {
            let part = |number: u32| broken >> (number - 1) & 1 == 1;
            let mut c = safe(2);
            if part(1) {
                c.accepted.insert(1, 201);
            }
            if part(2) {
                c.offered.insert(1, 202);
                c.readable.insert(1, 202);
                c.available.insert(1, 202);
            }
            if part(3) {
                c.offered.insert(1, 203);
                c.accepted.insert(1, 203);
                c.available.insert(1, 203);
            }
            if part(4) {
                c.available.insert(1, 204);
            }
            if part(5) {
                c.offered.insert(1, 205);
                c.accepted.insert(1, 205);
                c.readable.insert(1, 205);
            }
            let first = (1..=5).find(|number| part(*number));
            let found = first.map_or((0, 0), |number| (number, 200 + number));
            let faults = [23, 33, 41, 41, 43];
            for (place, fault) in faults.iter().enumerate() {
                if refused >> place & 1 == 0 {
                    continue;
                }
                match (place, fault) {
                    (0, _) => c.offered.push(100),
                    (1, _) => c.available.resize(MAX_AVAILABLE + 1, 100),
                    (2, _) => c.readable.push(RESERVED),
                    (3, _) => c.accepted.push(0),
                    _ => c.pairs.push((101, 101)),
                }
            }
            let lowest = (0..5).find(|place| refused >> place & 1 == 1);
            let due = lowest.map_or(Ok(found), |place| Err(faults[place]));
            assert_eq!(check(&c), due, "{:?}", c);
        }
    }
}

/// Pairs change nothing where they keep their rule, whatever their members; else 43.
#[test]
fn pairs_of_a_configuration() {
    let counts = [0, 1, 2, 63, 64, 65, 1_022, 1_023, 1_024, 1_025, 1_026];
    for count in counts.into_iter().chain([2_048, 65_536, 65_537]) {
        let due = if count <= MAX_PAIRS { None } else { Some(43) };
        for pair in [(100, 101), (9_000, 9_001)] {
            let mut c = safe(3);
            c.pairs = vec![pair; count];
            assert_eq!(check(&c).err(), due);
            for place in [0, count / 2, count.saturating_sub(1)] {
                if count == 0 {
                    continue;
                }
                for fault in [(0, 101), (100, 0), (RESERVED, 101), (100, RESERVED), (7, 7)] {
                    c.pairs[place] = fault;
                    assert_eq!(check(&c), Err(43));
                }
                c.pairs[place] = pair;
            }
        }
    }
}

/// Versions that differ in one bit, or have their bytes in another order, are others.
#[test]
fn versions_near_each_other() {
    for version in [100, 0x0102_0304, 0x6b33_43cf, u32::MAX - 1] {
        let near = (0..32).map(|bit| version ^ 1 << bit);
        for other in near.chain([version.swap_bytes(), version.rotate_left(16), !version]) {
            for (list, _) in LISTS {
                let mut c = safe(1);
                for (list, _) in LISTS {
                    *list(&mut c) = vec![9_000, version];
                }
                assert_eq!(check(&c), Ok((0, 0)));
                list(&mut c)[1] = other;
                assert_ne!(check(&c), Ok((0, 0)));
            }
        }
    }
}

/// All tables over three versions as readable, accepted and offered, with all lists of up to three
/// entries as Available.
#[test]
fn all_lists_over_three_versions() {
    let world = [1, 2, 3];
    let mut lists: Vec<Vec<u32>> = vec![Vec::new()];
    let mut from = 0;
    while lists[from].len() < 3 {
        for version in world {
            let longer = [&lists[from][..], &[version]].concat();
            lists.push(longer);
        }
        from += 1;
    }
    let tables: Vec<&Vec<u32>> = lists
        .iter()
        .filter(|list| raw::is_table(list) == 1)
        .collect();
    assert_eq!((lists.len(), tables.len()), (40, 15));
    let mut found = [0; 6];
    for readable in &tables {
        for accepted in &tables {
            for offered in &tables {
                for available in &lists {
                    check_judge_configuration(readable, accepted, offered, available, &[]).unwrap();
                    let c = Configuration {
                        readable: readable.to_vec(),
                        accepted: accepted.to_vec(),
                        offered: offered.to_vec(),
                        available: available.clone(),
                        pairs: Vec::new(),
                    };
                    let (part, _) = c.judged().unwrap();
                    assert_eq!(part == 0, c.keeps_the_safe_rule());
                    found[part as usize] += 1;
                }
            }
        }
    }
    assert!(found.iter().all(|count| *count > 500), "{:?}", found);
}

/// What the library finds, with places that hold something.
fn judged(lists: [&[u32]; 4], pairs: &[Pair]) -> (u32, u32, u32) {
    let (mut part, mut version) = (77, 78);
    let [readable, accepted, offered, available] = lists;
    let answer = raw::judge_configuration(
        readable,
        accepted,
        offered,
        available,
        pairs,
        &mut part,
        &mut version,
    );
    (answer, part, version)
}

/// Lists that lie between others that would change the answer: what is read before or after a list is
/// found.
#[test]
fn configurations_between_others() {
    let long: Vec<u32> = versions(8);
    let pairs: Vec<Pair> = [(0, 0), (100, 101), (0, 0)].map(Pair::from).to_vec();
    for first in 0..8 {
        for end in first + 1..=8 {
            let part = &long[first..end];
            assert_eq!(judged([part; 4], &pairs[1..2]), (0, 0, 0));
            for other in [0, 100, 103, 107, 9_000, RESERVED] {
                let among = [&[other; 2], part, &[other; 2]].concat();
                let among = &among[2..among.len() - 2];
                assert_eq!(judged([among; 4], &pairs[1..2]), (0, 0, 0));
            }
            if end < 8 {
                let longer = &long[first..end + 1];
                let more = long[end];
                assert_eq!(judged([longer, longer, part, part], &[]), (0, 1, more));
                assert_eq!(judged([longer, part, longer, longer], &[]), (0, 2, more));
                assert_eq!(judged([part, longer, longer, longer], &[]), (0, 3, more));
                assert_eq!(judged([longer, part, part, longer], &[]), (0, 4, more));
                assert_eq!(judged([longer, longer, longer, part], &[]), (0, 5, more));
                assert_eq!(judged([longer, part, part, part], &[]), (0, 0, 0));
            }
        }
    }
}

/// Each refusal leaves both places as found.
#[test]
fn refused_configurations_leave_the_places() {
    let (good, bad, many) = (&[100, 101][..], &[100, 100][..], &[100; 256][..]);
    let equal = [Pair::from((100, 100))];
    assert_eq!(judged([good, good, bad, good], &[]), (23, 77, 78));
    assert_eq!(judged([good, good, good, many], &[]), (33, 77, 78));
    assert_eq!(judged([bad, good, good, good], &[]), (41, 77, 78));
    assert_eq!(judged([good, bad, good, good], &[]), (41, 77, 78));
    assert_eq!(judged([good; 4], &equal), (43, 77, 78));
    assert_eq!(judged([bad, bad, bad, many], &equal), (23, 77, 78));
    assert_eq!(judged([bad, bad, good, many], &equal), (33, 77, 78));
    assert_eq!(judged([bad, bad, good, good], &equal), (41, 77, 78));
}
