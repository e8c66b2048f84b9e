//! Events, a client's information and the journal, on any record value whatever, drawn from a seed.

use crate::checks::{check_any_information, check_any_record};
use crate::model::{MAX_ID, MAX_TABLE};
use crate::random::journal::GIVEN;
use crate::random::{in_fours, information, long_packet, Random};
use crate::raw::{self, Journal, Record};
use crate::{number_of, Pair, DEFAULT_ROUNDS, DEFAULT_SEED};
use std::collections::BTreeMap;

#[test]
fn no_event_completes_outside_the_table() {
    let rounds = number_of("QUIC_VERSION_ROUNDS", DEFAULT_ROUNDS as u64) as usize;
    let mut random = Random::new(!number_of("QUIC_VERSION_SEED", DEFAULT_SEED));
    let mut seen: BTreeMap<(u32, u32), usize> = BTreeMap::new();
    let mut journals: BTreeMap<(&str, bool), usize> = BTreeMap::new();
    for _ in 0..rounds {
        let record = any_record(&mut random);
        let (kind, value, bytes) = any_event(&mut random, &record);
        match check_any_record(&record, kind, value, &bytes) {
            Ok(number) => {
                *seen.entry((kind.min(4), number)).or_insert(0) += 1;
                for what in kinds_of(&record.journal) {
                    *journals.entry((what, number == 255)).or_insert(0) += 1;
                }
            }
            Err(difference) => panic!(
                "{}\n{:?}\nkind {}, value {:#x}, bytes {:?}",
                difference, record, kind, value, bytes
            ),
        }
    }
    // Every answer came up that an event of the kind has: 31 to 75 are document 01's.
    let often = |kind, numbers: &[u32]| {
        let often = |number| matches!(seen.get(&(kind, number)), Some(count) if *count >= 100);
        numbers.iter().copied().all(often)
    };
    let enough = often(0, &[0, 61, 62, 63, 64, 65, 255])
        && often(1, &[0, 62, 255])
        && often(2, &[0, 31, 32, 34, 35, 62, 72, 73, 74, 75, 255])
        && often(3, &[0, 62, 71, 73, 255])
        && often(4, &[255]);
    assert!(rounds < DEFAULT_ROUNDS || enough, "{:?}", seen);
    // Journals on both sides of eight and of the stop, and ones that no attempt has; noted in, and
    // left as found.
    let noted = |what, not_valid| journals.get(&(what, not_valid)).copied().unwrap_or(0);
    let often = |what| noted(what, false) >= 1_000 && noted(what, true) >= 1_000;
    let enough = JOURNALS.iter().all(|what| often(*what));
    assert!(rounds < DEFAULT_ROUNDS || enough, "{:?}", journals);
}

/// What `kinds_of` tells.
const JOURNALS: [&str; 7] = [
    "empty",
    "places left",
    "one place left",
    "eight",
    "one before the stop",
    "at the stop",
    "of no attempt",
];

/// What is told of a journal: how full it is, and whether an attempt could have it.
fn kinds_of(journal: &Journal) -> Vec<&'static str> {
    let Journal { answers, count } = *journal;
    let used = answers.len().min(count as usize);
    let past = answers[used..].iter().any(|answer| *answer != 0);
    let other = answers.iter().any(|answer| !GIVEN.contains(answer));
    let kinds = [
        count == 0,
        (1..7).contains(&count),
        count == 7,
        count == 8,
        count == u32::MAX - 1,
        count == u32::MAX,
        past || other,
    ];
    let kinds = kinds.iter().zip(JOURNALS).filter(|(holds, _)| **holds);
    kinds.map(|(_, what)| what).collect()
}

#[test]
fn information_of_any_record() {
    let rounds = number_of("QUIC_VERSION_ROUNDS", DEFAULT_ROUNDS as u64) as usize / 2;
    let mut random = Random::new(!number_of("QUIC_VERSION_SEED", DEFAULT_SEED) ^ 18);
    let mut seen: BTreeMap<(bool, u32), usize> = BTreeMap::new();
    for _ in 0..rounds {
        let record = any_record(&mut random);
        let (mut versions, mut own) = ([0; MAX_TABLE], 3);
        raw::own_list(&record, &mut versions, &mut own);
        let reserved = random.reserved_in_list(own);
        let room = random.room_with(4 + 4 * own, reserved.len());
        match check_any_information(&record, &reserved, room) {
            Ok(number) => *seen.entry((own == 0, number)).or_insert(0) += 1,
            Err(difference) => panic!(
                "{}\n{:?}\nreserved {:?}, room {}",
                difference, record, reserved, room
            ),
        }
    }
    // Own lists without an entry, which no attempt has, are among them.
    let all = [(false, 0), (false, 37), (false, 47), (false, 255)];
    let all = [&all[..], &[(true, 0), (true, 37), (true, 47)]].concat();
    let often = |answer| matches!(seen.get(answer), Some(count) if *count >= 100);
    let enough = all.iter().all(often) && seen.len() == all.len();
    assert!(rounds < DEFAULT_ROUNDS / 2 || enough, "{:?}", seen);
}

/// The record of a start, or zeroed memory, with up to five fields changed, and half of them with a
/// journal.
pub fn any_record(random: &mut Random) -> Record {
    let mut record = Record::default();
    if !random.one_in(8) {
        let c = random.good_start_call();
        let of = |pairs: &[(u32, u32)]| pairs.iter().map(|pair| Pair::from(*pair)).collect();
        let (pairs, barred): (Vec<Pair>, Vec<Pair>) = (of(&c.pairs), of(&c.barred));
        let (destination, source) = (&c.destination, &c.source);
        let started = raw::start(&c.table, &pairs, &barred, c.original, destination, source);
        record = started.attempt;
    }
    for _ in 0..random.below(6) {
        change(random, &mut record);
    }
    if random.one_in(2) {
        record.journal.count = random.event_count();
        record.journal.answers = random.given_answers();
    }
    record
}

fn change(random: &mut Random, record: &mut Record) {
    let version = version_of(random, record);
    let place = random.below(MAX_TABLE);
    match random.below(15) {
        0 => record.table_len = up_to(random, MAX_TABLE as u32),
        1 => record.destination_len = up_to(random, MAX_ID as u32),
        2 => record.source_len = up_to(random, MAX_ID as u32),
        3 | 4 => record.table[place] = version,
        5 => record.rows[place] = random.next_u64(),
        6 => record.original = version,
        7 | 8 => record.attempted = version,
        9 | 10 => record.acted = up_to(random, 1),
        11 => record.heard = up_to(random, 1),
        12 => {
            record.end_mark = up_to(random, 2);
            record.end_value = *random.pick(&[0, 0, 75, 255, 256, version]);
        }
        13 => {
            record.journal.count = random.event_count();
            record.journal.answers = match random.below(3) {
                0 => random.any_answers(),
                _ => random.given_answers(),
            };
        }
        _ => record.source[random.below(MAX_ID)] = random.next_u32() as u8,
    }
}

/// Mostly one of 0 to `most`.
fn up_to(random: &mut Random, most: u32) -> u32 {
    match random.below(16) {
        0 => most + 1,
        1 => random.next_u32(),
        _ => random.below(most as usize + 1) as u32,
    }
}

/// A version that the record has somewhere, or another.
fn version_of(random: &mut Random, record: &Record) -> u32 {
    let place = random.below(MAX_TABLE);
    let near = random.below(4);
    let other = random.version();
    *random.pick(&[
        record.attempted,
        record.attempted,
        record.attempted,
        record.original,
        record.table[place],
        record.table[near],
        record.table[near],
        other,
    ])
}

/// Kind, value and bytes of an event that often suits the record.
fn any_event(random: &mut Random, record: &Record) -> (u32, u32, Vec<u8>) {
    let kind = match random.below(16) {
        0 => *random.pick(&[4, 255, 256, 1 << 31, u32::MAX]),
        n => n as u32 % 4,
    };
    let value = version_of(random, record);
    let entries = random.below(6);
    let list: Vec<u32> = (0..entries).map(|_| version_of(random, record)).collect();
    let bytes = match random.below(8) {
        0 => {
            let count = random.below(40);
            random.bytes(count)
        }
        _ if kind == 0 => {
            let destination = &record.source[..record.source_len.min(MAX_ID as u32) as usize];
            let source = &record.destination[..record.destination_len.min(MAX_ID as u32) as usize];
            let (destination, source) = match random.below(8) {
                0 => (source, destination),
                _ => (destination, source),
            };
            long_packet(128, 0, destination, source, &in_fours(&list))
        }
        1 | 2 => information(version_of(random, record), &list),
        _ => information(value, &list),
    };
    (kind, value, bytes)
}
