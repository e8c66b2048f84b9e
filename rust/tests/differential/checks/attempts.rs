//! Starts and events: the answer, the whole record and the own list after each.

use super::damaged::check_no_record;
use super::journal::{check_journal, check_own_journal, journal_of};
use super::{number, paired, plain, same, Compared, Lent, FOUND};
use crate::model::{self, Event, MAX_TABLE};
use crate::raw::{self, Record};
use quic_version::{Attempt, End, Pair, Refusal};
use std::collections::BTreeSet;

/// The record that the header describes for a model's attempt.
fn record_of(attempt: &model::Attempt) -> Record {
    let mut record = Record {
        rows: rows_of(attempt),
        ..Record::default()
    };
    record.table[..attempt.table.len()].copy_from_slice(&attempt.table);
    let (destination, source) = (&attempt.destination, &attempt.source);
    record.destination[..destination.len()].copy_from_slice(destination);
    record.source[..source.len()].copy_from_slice(source);
    record.table_len = attempt.table.len() as u32;
    record.destination_len = destination.len() as u32;
    record.source_len = source.len() as u32;
    record.original = attempt.original;
    put_changes(&mut record, attempt);
    record
}

/// The rows of its record: the bit of each entry's own place, and of every pair that is not barred
/// and has its members in the table.
fn rows_of(attempt: &model::Attempt) -> [u64; MAX_TABLE] {
    let place = |version| attempt.table.iter().position(|v| *v == version);
    let barred: BTreeSet<_> = attempt.barred.iter().collect();
    let mut rows = [0; MAX_TABLE];
    for (entry, row) in rows.iter_mut().take(attempt.table.len()).enumerate() {
        *row = 1 << entry;
    }
    for pair in attempt.pairs.iter().filter(|pair| !barred.contains(pair)) {
        if let (Some(from), Some(to)) = (place(pair.0), place(pair.1)) {
            rows[from] |= 1 << to;
        }
    }
    rows
}

/// The fields that an event may change.
pub(super) fn put_changes(record: &mut Record, attempt: &model::Attempt) {
    record.attempted = attempt.attempted;
    record.acted = u32::from(attempt.acted);
    record.heard = u32::from(attempt.heard);
    let (mark, value) = match attempt.end {
        model::End::Open => (0, 0),
        model::End::Completed(version) => (1, version),
        model::End::Closed(number) => (2, u32::from(number)),
    };
    record.end_mark = mark;
    record.end_value = value;
    record.journal = journal_of(&attempt.history);
}

/// What a refused start hands back: no attempt, closed with 0, and with an empty journal.
fn blank() -> Record {
    Record {
        end_mark: 2,
        ..Record::default()
    }
}

/// The own list of a record; places past its count are left as found.
pub(super) fn check_own_list(record: &Record, own: &[u32]) -> Result<(), String> {
    for found in FOUND {
        let (mut versions, mut count) = ([found; MAX_TABLE], usize::found(found));
        let mut left = versions;
        left[..own.len()].copy_from_slice(own);
        same(
            "own list's answer",
            raw::own_list(record, &mut versions, &mut count),
            0,
        )?;
        same("own list", (versions, count), (left, own.len()))?;
    }
    Ok(())
}

fn end_of(end: model::End) -> End {
    match end {
        model::End::Open => End::Open,
        model::End::Completed(version) => End::Completed(version),
        model::End::Closed(number) => End::Closed(Refusal::from_number(number).unwrap()),
    }
}

/// What can be read of the crate's own attempt.
fn check_attempt(attempt: &Attempt, model: &model::Attempt) -> Result<(), String> {
    same("attempted", attempt.attempted(), model.attempted)?;
    same("original", attempt.original(), model.original)?;
    same("table", attempt.table(), &model.table[..])?;
    same("acted", attempt.acted(), model.acted)?;
    same("heard", attempt.heard(), model.heard)?;
    same("end", attempt.end(), end_of(model.end))?;
    same("own_list", attempt.own_list().to_vec(), model.own_list())?;
    check_own_journal(attempt, &model.history)
}

/// The crate's own starts. With nothing barred the short one is the same.
fn own_start(
    table: &[u32],
    pairs: &[Pair],
    barred: &[Pair],
    original: u32,
    destination: &[u8],
    source: &[u8],
) -> Result<Result<Attempt, u8>, String> {
    let attempt = Attempt::start_barring(table, pairs, barred, original, destination, source);
    if barred.is_empty() {
        let short = Attempt::start(table, pairs, original, destination, source);
        same("start and start_barring", &short, &attempt)?;
    }
    Ok(plain(attempt))
}

pub fn check_start(
    table: &[u32],
    pairs: &[(u32, u32)],
    barred: &[(u32, u32)],
    original: u32,
    destination: &[u8],
    source: &[u8],
) -> Compared {
    let model = model::start(table, pairs, barred, original, destination, source);
    let (pairs, barred) = (paired(pairs), paired(barred));
    let started = raw::start(table, &pairs, &barred, original, destination, source);
    same("answer", started.refusal, number(&model))?;
    let record = model.as_ref().map_or_else(|_| blank(), record_of);
    same("record", started.attempt, record)?;
    match &model {
        Ok(model) => {
            check_own_list(&started.attempt, &model.own_list())?;
            check_journal(&started.attempt, &model.history)?;
        }
        Err(_) => check_no_record(&started.attempt)?,
    }
    let attempt = own_start(table, &pairs, &barred, original, destination, source)?;
    match (&attempt, &model) {
        (Ok(attempt), Ok(model)) => check_attempt(attempt, model)?,
        _ => same("start_barring", number(&attempt), number(&model))?,
    }
    Ok(number(&model))
}

/// One event on a record, as the header numbers it.
pub(super) fn raw_event(record: &mut Record, event: &Event) -> u32 {
    match event {
        Event::Datagram(datagram) => raw::event(record, 0, 0xdead_beef, datagram),
        Event::Processed => raw::event(record, 1, 0xdead_beef, &[1, 2, 3]),
        Event::Outcome {
            in_use,
            information: Some(bytes),
        } => raw::event(record, 2, *in_use, bytes),
        Event::Outcome {
            in_use,
            information: None,
        } => raw::event(record, 3, *in_use, &[0, 0, 0]),
    }
}

/// One event on the crate's own attempt; the version that it answers, 0 where it has none.
pub(super) fn own_event(attempt: &mut Attempt, event: &Event) -> Result<u32, u8> {
    plain(match event {
        Event::Datagram(datagram) => attempt.datagram(datagram),
        Event::Processed => attempt.packet_processed().map(|()| 0),
        Event::Outcome {
            in_use,
            information,
        } => attempt.outcome(*in_use, information.as_deref()),
    })
}

/// One attempt: the model's, the header's record and what that has to be, and the crate's own.
struct Attempts {
    model: model::Attempt,
    record: Record,
    expected: Record,
    attempt: Attempt,
}

impl Attempts {
    /// One event on each: the answer, and all that it leaves.
    fn event(&mut self, event: &Event) -> Compared {
        let (model, record, attempt) = (&mut self.model, &mut self.record, &mut self.attempt);
        let answer = model.event(event);
        put_changes(&mut self.expected, model);
        same("answer", raw_event(record, event), number(&answer))?;
        same("record", *record, self.expected)?;
        check_own_list(record, &model.own_list())?;
        check_journal(record, &model.history)?;
        let value = answer.map(|effect| match effect {
            model::Effect::Acted(version) | model::Effect::Completed(version) => version,
            model::Effect::Noted => 0,
        });
        same("answer of the crate", own_event(attempt, event), value)?;
        check_attempt(attempt, model)?;
        Ok(number(&answer))
    }
}

/// A start that is not refused, then the events: the answer and the whole record after each, the
/// own list, the journal, and at last the statement on the whole list. The numbers seen.
pub fn check_events(
    table: &[u32],
    pairs: &[(u32, u32)],
    barred: &[(u32, u32)],
    original: u32,
    destination: &[u8],
    source: &[u8],
    events: &[Event],
) -> Result<Vec<u32>, String> {
    let refused = |no| format!("the start is refused with {}", no);
    let started =
        model::start(table, pairs, barred, original, destination, source).map_err(refused)?;
    let (pairs, barred) = (paired(pairs), paired(barred));
    let own = own_start(table, &pairs, &barred, original, destination, source)?;
    let mut attempts = Attempts {
        model: started.clone(),
        record: raw::start(table, &pairs, &barred, original, destination, source).attempt,
        expected: record_of(&started),
        attempt: own.map_err(refused)?,
    };
    same("record of the start", attempts.record, attempts.expected)?;
    let mut numbers = Vec::new();
    for (place, event) in events.iter().enumerate() {
        let at = |difference| format!("event {}: {}", place, difference);
        numbers.push(attempts.event(event).map_err(at)?);
    }
    let completed = match attempts.attempt.end() {
        End::Completed(version) => Some(version),
        _ => None,
    };
    same(
        "completed after the list",
        completed,
        model::completed(&started, events),
    )?;
    Ok(numbers)
}
