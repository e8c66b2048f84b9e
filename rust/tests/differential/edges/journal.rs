//! Journals: every number of events, every place, every answer, every count at a border.

use super::versions;
use crate::checks::*;
use crate::model::{self, Event, JOURNAL_PLACES};
use crate::random::journal::GIVEN;
use crate::random::{in_fours, information, long_packet};
use crate::raw::{self, Journal, Record};

const TABLE: [u32; 3] = [14, 12, 10];
const DESTINATION: &[u8] = &[0xd1, 0xd2];
const SOURCE: &[u8] = &[0x51];

/// The attempt of these tests: Original Version 12.
fn check(events: &[Event]) -> Vec<u32> {
    check_events(&TABLE, &[], &[], 12, DESTINATION, SOURCE, events).unwrap()
}

fn begun() -> Record {
    raw::start(&TABLE, &[], &[], 12, DESTINATION, SOURCE).attempt
}

/// Version Negotiation with matching IDs.
fn listing(list: &[u32]) -> Event {
    Event::Datagram(long_packet(0, 0, SOURCE, DESTINATION, &in_fours(list)))
}

fn outcome(in_use: u32, bytes: Vec<u8>) -> Event {
    Event::Outcome {
        in_use,
        information: Some(bytes),
    }
}

fn missing(in_use: u32) -> Event {
    Event::Outcome {
        in_use,
        information: None,
    }
}

/// Events that are ignored, with 61, 63 and 64, before the attempt acts.
fn ignored() -> [Event; 3] {
    let other = long_packet(0, 0, DESTINATION, SOURCE, &in_fours(&[14]));
    [
        Event::Datagram(Vec::new()),
        Event::Datagram(other),
        listing(&[12, 14]),
    ]
}

/// For each number that an event gives, events of which the last gives it.
fn ways_to(number: u8) -> Vec<Event> {
    let acts = listing(&[10, 13, 14]);
    let acted = |last: Event| vec![acts.clone(), last];
    match number {
        0 => vec![acts],
        31 => acted(outcome(14, vec![0; 3])),
        32 => acted(outcome(14, vec![0; 5])),
        33 => acted(outcome(14, vec![0; 1_028])),
        34 => acted(outcome(14, vec![0; 4])),
        35 => acted(outcome(14, information(14, &[0]))),
        61 => vec![ignored()[0].clone()],
        62 => acted(listing(&[10])),
        63 => vec![ignored()[1].clone()],
        64 => vec![ignored()[2].clone()],
        65 => vec![listing(&[13])],
        71 => acted(missing(14)),
        72 => acted(outcome(12, information(12, &[12]))),
        73 => acted(outcome(12, information(14, &[14]))),
        74 => acted(outcome(14, information(14, &[]))),
        75 => vec![listing(&[10]), outcome(10, information(10, &[14]))],
        number => panic!("no event gives {}", number),
    }
}

/// Every number that an event gives, after 0 to 12 others, and with 0 to 12 events after it: at every
/// place of the journal, and pushed out of it.
#[test]
fn every_answer_at_every_place() {
    for number in GIVEN {
        for before in 0..=12 {
            for after in 0..=12 {
                let mut events: Vec<Event> = ignored().into_iter().cycle().take(before).collect();
                events.extend(ways_to(number));
                let last = events.len() - 1;
                events.extend((0..after).map(|_| Event::Datagram(vec![7])));
                assert_eq!(check(&events)[last], u32::from(number));
            }
        }
    }
}

/// 0 to 40 events of one kind, before the end and after it: 61, 62, 0, and all by turns.
#[test]
fn every_number_of_events() {
    let turns = [
        vec![Event::Datagram(Vec::new())],
        vec![Event::Processed],
        ignored().to_vec(),
        vec![listing(&[10, 14]), Event::Processed, missing(14)],
    ];
    for turn in &turns {
        for count in 0..=40 {
            let events: Vec<Event> = turn.iter().cloned().cycle().take(count).collect();
            check(&events);
        }
    }
}

/// After each end, events of every kind: each is noted, as 62 or 61.
#[test]
fn events_after_each_end() {
    let ends = [
        vec![missing(12)],
        vec![missing(14)],
        ways_to(65),
        ways_to(74),
        ways_to(34),
    ];
    for end in ends {
        for kind in 0..5 {
            let mut events = end.clone();
            let late = [
                Event::Processed,
                missing(12),
                outcome(12, information(12, &[12])),
                listing(&[14]),
                Event::Datagram(vec![1, 2, 3]),
            ];
            events.extend((0..10).map(|_| late[kind].clone()));
            let numbers = check(&events);
            let due = if kind == 4 { 61 } else { 62 };
            assert!(numbers[end.len()..].iter().all(|number| *number == due));
        }
    }
}

/// Counts about eight, about the stop, and about the widths of numbers.
fn counts() -> Vec<u32> {
    let mut counts: Vec<u32> = (0..=20).collect();
    for border in [1_u64 << 8, 1 << 15, 1 << 16, 1 << 24, 1 << 31] {
        counts.extend((border - 2..=border + 2).map(|count| count as u32));
    }
    counts.extend(u32::MAX - 20..=u32::MAX);
    counts
}

/// Journals with each count, and answers that are all different, all 0, 0 in turns, or 0 last.
fn journals() -> Vec<Journal> {
    let answers = [
        [31, 32, 33, 34, 35, 61, 62, 63],
        [0; JOURNAL_PLACES],
        [0, 61, 0, 62, 0, 63, 0, 64],
        [61, 0, 63, 0, 65, 0, 0, 0],
        [255, 254, 1, 7, 128, 36, 99, 200],
    ];
    let all = counts().into_iter();
    all.flat_map(|count| answers.map(|answers| Journal { answers, count }))
        .collect()
}

/// One event of each answer on a record with each of these journals: noted, whatever is there, and
/// nothing else of the record is read or changed by it. Up to the stop and past it.
#[test]
fn one_event_on_each_journal() {
    for number in GIVEN {
        let events = ways_to(number);
        let (last, before) = events.split_last().unwrap();
        let mut found = begun();
        for event in before {
            assert_eq!(own_number(&mut found, event), 0);
        }
        for journal in journals() {
            found.journal = journal;
            let (kind, value, bytes) = raw_of(last);
            let seen = check_any_record(&found, kind, value, &bytes).unwrap();
            assert_eq!(seen, u32::from(number));
        }
    }
}

/// Kind, value and bytes of an event.
fn raw_of(event: &Event) -> (u32, u32, Vec<u8>) {
    match event {
        Event::Datagram(datagram) => (0, 0, datagram.clone()),
        Event::Processed => (1, 0, Vec::new()),
        Event::Outcome {
            in_use,
            information: Some(bytes),
        } => (2, *in_use, bytes.clone()),
        Event::Outcome { in_use, .. } => (3, *in_use, Vec::new()),
    }
}

fn own_number(record: &mut Record, event: &Event) -> u32 {
    let (kind, value, bytes) = raw_of(event);
    raw::event(record, kind, value, &bytes)
}

/// Twelve events from each count on, over the eight and over the stop.
#[test]
fn lists_from_each_count() {
    let answers = [75, 74, 73, 72, 71, 65, 64, 35];
    for count in counts() {
        for last in [Event::Processed, missing(12), listing(&[13])] {
            let mut events: Vec<Event> = ignored().into_iter().cycle().take(5).collect();
            events.push(last);
            events.extend([listing(&[14]), Event::Processed, missing(12)]);
            events.extend(ignored());
            check_events_after(
                &TABLE,
                &[],
                &[],
                12,
                DESTINATION,
                SOURCE,
                count,
                &answers,
                &events,
            )
            .unwrap();
        }
    }
}

/// Reading: each journal of a record in every state, and of a record that could not be an attempt's.
#[test]
fn each_journal_is_read() {
    for state in [
        vec![],
        ways_to(0),
        ways_to(65),
        ways_to(74),
        vec![missing(12)],
    ] {
        let mut record = begun();
        for event in &state {
            own_number(&mut record, event);
        }
        for journal in journals() {
            record.journal = journal;
            assert_eq!(check_any_journal(&record).unwrap(), 0);
            let mut damaged = record;
            damaged.heard = 2;
            assert_eq!(check_any_journal(&damaged).unwrap(), 255);
        }
    }
}

/// 255 is not noted: of an unknown kind, and of a record that could not be an attempt's, whatever its
/// journal. `check_any_record` asks that all is left as found.
#[test]
fn not_valid_is_not_noted() {
    for journal in journals() {
        let mut record = begun();
        record.journal = journal;
        for kind in [4, 5, 255, 256, 1 << 31, u32::MAX] {
            assert_eq!(check_any_record(&record, kind, 12, &[]).unwrap(), 255);
        }
        let mut strange = record;
        strange.attempted = 13;
        for kind in 0..4 {
            assert_eq!(check_any_record(&strange, kind, 12, &[]).unwrap(), 255);
        }
        check_no_record(&strange).unwrap();
    }
}

/// A journal that no attempt has is no damage: every bit of it may be set.
#[test]
fn no_journal_is_judged() {
    for bit in 0..96 {
        let mut record = begun();
        match bit {
            0..=63 => record.journal.answers[bit / 8] = 1 << (bit % 8),
            _ => record.journal.count = 1 << (bit - 64),
        }
        assert_eq!(check_any_record(&record, 1, 0, &[]).unwrap(), 0);
        assert_eq!(check_any_record(&record, 0, 0, &[]).unwrap(), 61);
        assert_eq!(check_any_journal(&record).unwrap(), 0);
    }
}

/// A start after a start, in the same place and elsewhere, refused or not: empty.
#[test]
fn starting_again() {
    let mut record = begun();
    for event in ignored().iter().cycle().take(11) {
        own_number(&mut record, event);
    }
    assert_eq!(record.journal.count, 11);
    record = begun();
    assert_eq!(record.journal, Journal::default());
    for (table, original, number) in [(&[14, 12][..], 12, 0), (&[14, 12], 9, 44), (&[], 9, 41)] {
        for _ in 0..2 {
            own_number(&mut record, &Event::Processed);
            let seen = check_start(table, &[], &[], original, &[], &[]).unwrap();
            assert_eq!(seen, number);
            let started = raw::start(table, &[], &[], original, &[], &[]);
            assert_eq!(started.attempt.journal, Journal::default());
        }
    }
    assert_eq!(record.journal.count, 6);
}

/// Records that lie one after the other: noting and reading stay within their own.
#[test]
fn records_between_others() {
    let mut records = [begun(); 3];
    let found = records[0];
    for round in 1..=20 {
        assert_eq!(own_number(&mut records[1], &Event::Processed), 0);
        assert_eq!(records[1].journal.count, round);
        assert_eq!((records[0], records[2]), (found, found));
    }
    let places = &mut [[0x77; JOURNAL_PLACES]; 3];
    let (mut used, mut count) = ([7; 3], [7; 3]);
    let (answers, own) = (&mut places[1], &mut used[1]);
    assert_eq!(
        raw::read_journal(&records[1], answers, own, &mut count[1]),
        0
    );
    assert_eq!(*places, [[0x77; 8], [0; 8], [0x77; 8]]);
    assert_eq!((used, count), ([7, 8, 7], [7, 20, 7]));
}

/// The same on a full table, and with the longest connection IDs.
#[test]
fn on_a_full_record() {
    let table = versions(model::MAX_TABLE);
    let (destination, source) = ([7; model::MAX_ID], [8; model::MAX_ID]);
    let packet = |list: &[u32]| long_packet(0, 0, &source, &destination, &in_fours(list));
    let mut events: Vec<Event> = (0..12).map(|_| Event::Datagram(packet(&table))).collect();
    events.push(Event::Datagram(packet(&table[..63])));
    events.extend((0..12).map(|_| Event::Processed));
    let last = table[63];
    let seen = check_events(&table, &[], &[], last, &destination, &source, &events).unwrap();
    assert_eq!(seen[..12], [64; 12]);
    assert_eq!(seen[12..], [0; 13]);
}
