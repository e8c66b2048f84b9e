//! The record of this crate against the library's.
//!
//! The sizes that the header has are asserted in src/ffi.rs, when the crate is built.

#[allow(dead_code)]
#[path = "../src/ffi.rs"]
mod raw;

use quic_version::{Attempt, Pair, Reserved};
use raw::{Journal, Record};
use std::mem::size_of;
use std::ops::Range;

/// Where a field lies, from its first byte up to, not with, the last.
fn place<T>(record: &Record, field: &T) -> Range<usize> {
    let start = field as *const T as usize - record as *const Record as usize;
    start..start + size_of::<T>()
}

#[test]
fn interface_version() {
    assert_eq!(
        quic_version::interface_version(),
        quic_version::INTERFACE_VERSION
    );
    assert_eq!(raw::interface_9(), quic_version::INTERFACE_VERSION);
}

#[test]
fn sizes() {
    assert_eq!(raw::record_size(), size_of::<Record>());
    assert_eq!(size_of::<Attempt>(), size_of::<Record>());
    assert_eq!(size_of::<Record>(), 12 * 64 + 2 * 20 + 48);
}

/// Each field begins where the one before it ends, in the order of the header.
#[test]
fn places_of_the_fields() {
    let record = raw::known_record();
    let places = [
        place(&record, &record.rows),
        place(&record, &record.table),
        place(&record, &record.destination),
        place(&record, &record.source),
        place(&record, &record.table_len),
        place(&record, &record.destination_len),
        place(&record, &record.source_len),
        place(&record, &record.original),
        place(&record, &record.attempted),
        place(&record, &record.acted),
        place(&record, &record.heard),
        place(&record, &record.end_mark),
        place(&record, &record.end_value),
        // The two fields of the journal, which is last.
        place(&record, &record.journal.answers),
        place(&record, &record.journal.count),
    ];
    let mut end = 0;
    for place in &places {
        assert_eq!(place.start, end, "{:?}", places);
        end = place.end;
    }
    assert_eq!(end, raw::record_size());
    let journal = place(&record, &record.journal);
    assert_eq!(journal, end - size_of::<Journal>()..end);
}

#[test]
fn known_record_field_by_field() {
    let record = raw::known_record();
    assert_eq!(record.rows, [0x1112_1314_1516_1718; raw::MAX_TABLE]);
    assert_eq!(record.table, [0x2122_2324; raw::MAX_TABLE]);
    assert_eq!(record.destination, [0x31; raw::MAX_ID]);
    assert_eq!(record.source, [0x32; raw::MAX_ID]);
    assert_eq!(record.table_len, 0x41);
    assert_eq!(record.destination_len, 0x42);
    assert_eq!(record.source_len, 0x43);
    assert_eq!(record.original, 0x44);
    assert_eq!(record.attempted, 0x45);
    assert_eq!(record.acted, 0x46);
    assert_eq!(record.heard, 0x47);
    assert_eq!(record.end_mark, 0x48);
    assert_eq!(record.end_value, 0x49);
    assert_eq!(record.journal.answers, [0x51; raw::JOURNAL_PLACES]);
    assert_eq!(record.journal.count, 0x52);
}

/// The known record is no attempt.
#[test]
fn known_record_is_refused() {
    let mut record = raw::known_record();
    for kind in 0..4 {
        assert_eq!(raw::event(&mut record, kind, 1, &[]), 255);
        assert_eq!(record, raw::known_record());
    }
    let (mut answers, mut used, mut count) = ([7; raw::JOURNAL_PLACES], 7, 7);
    let answer = raw::read_journal(&record, &mut answers, &mut used, &mut count);
    assert_eq!((answer, answers, used, count), (255, [7; 8], 7, 7));
}

/// An event notes its answer in the journal's own bytes, and the count behind them.
#[test]
fn journal_of_a_record() {
    let mut record = raw::start(&[14, 12], &[], &[], 12, &[], &[]).attempt;
    assert_eq!(raw::event(&mut record, 0, 0, &[]), 61);
    assert_eq!(raw::event(&mut record, 1, 0, &[]), 0);
    assert_eq!(raw::event(&mut record, 3, 14, &[]), 73);
    let journal = Journal {
        answers: [61, 0, 73, 0, 0, 0, 0, 0],
        count: 3,
    };
    assert_eq!(record.journal, journal);
    let (mut answers, mut used, mut count) = ([7; raw::JOURNAL_PLACES], 7, 7);
    let answer = raw::read_journal(&record, &mut answers, &mut used, &mut count);
    assert_eq!((answer, answers, used, count), (0, journal.answers, 3, 3));
}

/// Every field of a start's record is where and what the header says.
#[test]
fn record_of_a_start() {
    let pairs = [Pair { from: 12, to: 14 }, Pair { from: 10, to: 12 }];
    let started = raw::start(&[14, 12, 10], &pairs, &[], 12, &[0xd1, 0xd2, 0xd3], &[0x51]);
    assert_eq!(started.refusal, 0);
    let mut expected = Record {
        table_len: 3,
        destination_len: 3,
        source_len: 1,
        original: 12,
        attempted: 12,
        ..Record::default()
    };
    expected.rows[..3].copy_from_slice(&[0b001, 0b011, 0b110]);
    expected.table[..3].copy_from_slice(&[14, 12, 10]);
    expected.destination[..3].copy_from_slice(&[0xd1, 0xd2, 0xd3]);
    expected.source[0] = 0x51;
    assert_eq!(started.attempt, expected);
}

/// What is barred is in no field: the record is that of a start without those pairs.
#[test]
fn record_of_a_start_that_bars() {
    let start = |pairs: &[Pair], barred: &[Pair]| {
        let started = raw::start(&[14, 12, 10], pairs, barred, 12, &[0xd1, 0xd2], &[0x51]);
        assert_eq!(started.refusal, 0);
        started.attempt
    };
    let pairs = [(12, 14), (10, 12), (10, 14)].map(Pair::from);
    let barred = [(10, 12), (12, 14), (14, 10)].map(Pair::from);
    assert_eq!(start(&pairs, &barred), start(&pairs[2..], &[]));
    assert_eq!(start(&pairs, &barred).rows[..3], [0b001, 0b010, 0b101]);
}

/// A reserved number for a list, and its place: two numbers of 32 bits, in this order.
#[test]
fn reserved_numbers() {
    let reserved = Reserved {
        number: 0x1a2a_3a4a,
        place: 1,
    };
    let start = &reserved as *const Reserved as usize;
    assert_eq!(&reserved.number as *const u32 as usize - start, 0);
    assert_eq!(&reserved.place as *const u32 as usize - start, 4);
    assert_eq!(size_of::<[Reserved; 3]>(), 24);
    let record = raw::start(&[14, 12], &[], &[], 12, &[], &[]).attempt;
    let (mut buffer, mut count) = ([0x77; 13], 0);
    let answer = raw::write_client_information(&record, &[reserved], &mut buffer, &mut count);
    assert_eq!((answer, count), (0, 12));
    let sent = [0, 0, 0, 12, 0, 0, 0, 12, 0x1a, 0x2a, 0x3a, 0x4a, 0x77];
    assert_eq!(buffer, sent);
}
