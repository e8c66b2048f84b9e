//! Lists of events and journals: the eight run over, every answer is at every place, and counts are
//! on both sides of eight and of the stop.

use crate::model::*;
use crate::random::journal::GIVEN;
use crate::random::Random;
use std::collections::BTreeMap;

#[test]
fn reach_of_the_journals() {
    let mut random = Random::new(30);
    let mut lengths: BTreeMap<usize, usize> = BTreeMap::new();
    let mut noted: BTreeMap<(usize, u8), usize> = BTreeMap::new();
    let (mut after_end, mut ignored_after_end, mut unlike) = (0, 0, 0);
    for round in 0..16_000 {
        let started = random.good_start_call().start().unwrap();
        let events = match round % 2 {
            0 => random.events(&started),
            _ => random.long_events(&started),
        };
        assert!(events.len() <= 20);
        *lengths.entry(events.len()).or_insert(0) += 1;
        let mut attempt = started;
        for event in &events {
            let ended = attempt.end != End::Open;
            let answer = attempt.event(event);
            after_end += usize::from(ended && answer == Err(62));
            ignored_after_end += usize::from(ended && answer == Err(61));
            let last = attempt.history.last_eight();
            for (place, number) in last.iter().enumerate() {
                *noted.entry((place, *number)).or_insert(0) += 1;
            }
            // Full, and other than it was, and than turned round.
            let turned: Vec<u8> = last.iter().rev().copied().collect();
            let all = &attempt.history.answers;
            unlike += usize::from(all.len() > 8 && last != turned && last != &all[..8]);
        }
    }
    // Every length, and each often enough past eight.
    for length in 0..=20 {
        let seen = lengths.get(&length).copied().unwrap_or(0);
        assert!(seen >= 100, "{} lists of {} events", seen, length);
    }
    // Every answer at every place.
    for place in 0..JOURNAL_PLACES {
        for number in GIVEN {
            let seen = noted.get(&(place, number)).copied().unwrap_or(0);
            assert!(seen >= 20, "{} at place {}: {}", number, place, seen);
        }
    }
    assert_eq!(noted.len(), JOURNAL_PLACES * GIVEN.len());
    for count in [after_end, ignored_after_end, unlike] {
        assert!(
            count >= 4_000,
            "{:?}",
            (after_end, ignored_after_end, unlike)
        );
    }
}

/// Counts and answers of journals that are set: each side of eight, of the stop and of the widths.
#[test]
fn reach_of_the_set_journals() {
    let mut random = Random::new(31);
    let mut counts: BTreeMap<u32, usize> = BTreeMap::new();
    let (mut zeros_among, mut strange) = (0, 0);
    for _ in 0..20_000 {
        *counts.entry(random.event_count()).or_insert(0) += 1;
        let answers = random.any_answers();
        zeros_among += usize::from(answers.contains(&0) && answers != [0; JOURNAL_PLACES]);
        strange += usize::from(answers.iter().any(|answer| !GIVEN.contains(answer)));
        assert!(random.given_answers().iter().all(|a| GIVEN.contains(a)));
    }
    let most = u32::MAX;
    for count in (0..=9).chain(most - 19..=most).chain([255, 256, 65_536]) {
        let seen = counts.get(&count).copied().unwrap_or(0);
        assert!(seen >= 40, "{} counts of {}", seen, count);
    }
    for count in [7, 8, 9, most - 2, most - 1, most] {
        assert!(counts[&count] >= 1_000, "{} of {}", counts[&count], count);
    }
    assert!(zeros_among >= 4_000 && strange >= 4_000);
}
