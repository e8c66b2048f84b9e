//! Configurations that are drawn: every answer, each part broken alone, lists on both sides of their
//! limits, and answers that each slip would change.

use super::{Reach, Sizes};
use crate::model::*;
use crate::random::Random;
use std::collections::{BTreeMap, BTreeSet};

/// All parts that are broken, not the first alone.
fn parts(c: &Configuration) -> Vec<u32> {
    let set = |list: &[u32]| -> BTreeSet<u32> { list.iter().copied().collect() };
    let (readable, accepted) = (set(&c.readable), set(&c.accepted));
    let (offered, available) = (set(&c.offered), set(&c.available));
    let kept = [
        accepted.is_subset(&offered),
        offered.is_subset(&accepted),
        offered.is_subset(&readable),
        available.is_subset(&offered),
        offered.is_subset(&available),
    ];
    let broken = (1..).zip(kept).filter(|(_, kept)| !kept);
    broken.map(|(part, _)| part).collect()
}

#[test]
fn reach_of_the_configurations() {
    let mut random = Random::new(40);
    let mut reach = Reach::default();
    let mut found: BTreeMap<u32, usize> = BTreeMap::new();
    let mut alone: BTreeMap<Vec<u32>, usize> = BTreeMap::new();
    let mut sizes: [Sizes; 4] = Default::default();
    let mut often: BTreeMap<&str, usize> = BTreeMap::new();
    for _ in 0..20_000 {
        let c = random.configuration();
        let lists = [&c.readable, &c.accepted, &c.offered, &c.available];
        for (sizes, list) in sizes.iter_mut().zip(lists) {
            sizes.note(list);
        }
        let answer = c.judged();
        reach.note(&answer);
        let (part, version) = match answer {
            Ok(found) => found,
            Err(_) => continue,
        };
        assert_eq!(part == 0, c.keeps_the_safe_rule());
        let broken = parts(&c);
        assert_eq!(part, broken.first().copied().unwrap_or(0));
        *found.entry(part).or_insert(0) += 1;
        *alone.entry(broken).or_insert(0) += 1;
        let mut note = |what, so| *often.entry(what).or_insert(0) += usize::from(so);
        let lists = [
            &[][..],
            &c.accepted,
            &c.offered,
            &c.offered,
            &c.available,
            &c.offered,
        ];
        let first = lists[part as usize].first() == Some(&version);
        let last = lists[part as usize].last() == Some(&version);
        note("broken by the first of the list", part > 0 && first);
        note("broken by the last of the list", part > 0 && last && !first);
        note("broken by one between", part > 0 && !last && !first);
        note("0 is Available", part == 4 && version == 0);
        note("a reserved number is Available", is_reserved(version));
        let set: BTreeSet<u32> = c.available.iter().copied().collect();
        let repeated = set.len() < c.available.len();
        note("safe, with repeats", part == 0 && repeated);
        note(
            "safe, and more readable",
            part == 0 && c.readable.len() > c.offered.len(),
        );
        note(
            "safe, in other orders",
            part == 0 && c.accepted != c.offered,
        );
        note(
            "safe, 64 in each table",
            part == 0 && c.offered.len() == MAX_TABLE,
        );
        note(
            "safe, 255 Available",
            part == 0 && c.available.len() == MAX_AVAILABLE,
        );
        note(
            "safe, as many pairs as may be",
            part == 0 && c.pairs.len() == MAX_PAIRS,
        );
    }
    reach.holds(&[0, 23, 33, 41, 43], 400);
    assert_eq!(found.len(), 6, "{:?}", found);
    assert!(found.values().all(|n| *n >= 400), "{:?}", found);
    for part in 1..=5 {
        let alone = alone.get(&vec![part]).copied().unwrap_or(0);
        assert!(alone >= 200, "{} alone {}", part, alone);
    }
    for sizes in &sizes[..3] {
        sizes.hold(&[0, 1, 2, 63, 64, 65, 66], 50);
    }
    sizes[3].hold(&[0, 1, 254, 255, 256, 257, 511, 512, 513], 50);
    assert!(often.values().all(|n| *n >= 50), "{:#?}", often);
}
