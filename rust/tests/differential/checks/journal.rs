//! The journal of an attempt (document 02, C-20): what is read of any record, the events that fill it
//! from any beginning, and what it does not change.

use super::attempts::{own_event, put_changes, raw_event};
use super::damaged::is_record;
use super::{paired, same, Compared, Lent, FOUND};
use crate::model::{self, Event, History, JOURNAL_PLACES};
use crate::raw::{self, Journal, Record};
use quic_version::{Answers, Attempt, Refusal};

/// The journal that the header describes for a model's attempt.
pub(super) fn journal_of(history: &History) -> Journal {
    Journal {
        answers: history.places(),
        count: history.count(),
    }
}

/// What reading the journal of a record leaves in the lent places, and its answer. It is the same
/// twice, and the record stays.
fn check_read(
    record: &Record,
    due: Result<([u8; JOURNAL_PLACES], usize, u32), u8>,
) -> Result<(), String> {
    let held = *record;
    for found in FOUND {
        let before = (found.to_be_bytes(), usize::found(found), found);
        let [a, b, c, d] = before.0;
        let lent = [a, b, c, d, d, c, b, a];
        let (mut answers, mut used, mut count) = (lent, before.1, before.2);
        let answer = raw::read_journal(&held, &mut answers, &mut used, &mut count);
        same("journal's answer", answer, super::number(&due))?;
        let left = due.unwrap_or((lent, before.1, before.2));
        same("journal", (answers, used, count), left)?;
    }
    same("record that was read", held, *record)
}

/// The journal of any record value whatever: 255 exactly where it has to be, else the eight places as
/// the record has them, and how many of them are used.
pub fn check_any_journal(record: &Record) -> Compared {
    let Journal { answers, count } = record.journal;
    let due = match is_record(record) {
        true => Ok((answers, (count as usize).min(JOURNAL_PLACES), count)),
        false => Err(255),
    };
    check_read(record, due)?;
    Ok(super::number(&due))
}

/// The journal of an attempt's record is that of the model's answers.
pub(super) fn check_journal(record: &Record, history: &History) -> Result<(), String> {
    let used = history.last_eight().len();
    check_read(record, Ok((history.places(), used, history.count())))
}

/// The same of the crate's own attempt: its journal, from both ends, and what is shown of it.
pub(super) fn check_own_journal(attempt: &Attempt, history: &History) -> Result<(), String> {
    let journal = attempt.journal();
    same("count", journal.count(), history.count())?;
    let last = history.last_eight();
    same("len", journal.len(), last.len())?;
    same("is_empty", journal.is_empty(), last.is_empty())?;
    let answers = journal.iter();
    same("ExactSizeIterator", answers.len(), last.len())?;
    let numbers = |answers: Answers| answers.map(|answer| answer.number());
    same(
        "answers",
        numbers(answers.clone()).eq(last.iter().copied()),
        true,
    )?;
    let turned = numbers(answers).rev();
    same("from the end", turned.eq(last.iter().rev().copied()), true)?;
    for (answer, number) in journal.into_iter().zip(last) {
        let refusal = Refusal::from_number(*number);
        same("refusal", answer.refusal(), refusal)?;
    }
    let first = (history.answers.len() - last.len() + 1) as u32;
    let first = Some(first).filter(|_| !last.is_empty());
    same("first_event", journal.first_event(), first)
}

/// What noting an answer leaves of any journal, as the header has it: the answer goes to the first
/// unused place, or behind the others when the oldest is out. The count goes on up to the stop.
pub(super) fn noted(found: &Journal, answer: u32) -> Journal {
    let count = found.count as usize;
    let mut answers = found.answers.to_vec();
    if count < JOURNAL_PLACES {
        answers.remove(count);
        answers.insert(count, answer as u8);
    } else {
        answers.remove(0);
        answers.push(answer as u8);
    }
    let count = (u64::from(found.count) + 1).min(model::MAX_EVENTS) as u32;
    Journal {
        answers: [0, 1, 2, 3, 4, 5, 6, 7].map(|place: usize| answers[place]),
        count,
    }
}

/// A start that is not refused, as if so many events had been before it, with these answers to the
/// last eight; then the events. No test makes four thousand million of them: this is where the
/// count's stop is tested. All but the journal is as without them.
#[allow(clippy::too_many_arguments)]
pub fn check_events_after(
    table: &[u32],
    pairs: &[(u32, u32)],
    barred: &[(u32, u32)],
    original: u32,
    destination: &[u8],
    source: &[u8],
    count: u32,
    answers: &[u8],
    events: &[Event],
) -> Compared {
    let refused = |no| format!("the start is refused with {}", no);
    let mut model =
        model::start(table, pairs, barred, original, destination, source).map_err(refused)?;
    model.history = History::after(u64::from(count), answers);
    let (pairs, barred) = (paired(pairs), paired(barred));
    let started = raw::start(table, &pairs, &barred, original, destination, source);
    same("refusal", started.refusal, 0)?;
    let (mut plain, mut record) = (started.attempt, started.attempt);
    record.journal = journal_of(&model.history);
    check_journal(&record, &model.history)?;
    let mut expected = record;
    for (place, event) in events.iter().enumerate() {
        let at = |difference| format!("event {}: {}", place, difference);
        let answer = model.event(event);
        put_changes(&mut expected, &model);
        let number = super::number(&answer);
        same("answer", raw_event(&mut record, event), number).map_err(at)?;
        same("record", record, expected).map_err(at)?;
        check_journal(&record, &model.history).map_err(at)?;
        same("plain answer", raw_event(&mut plain, event), number).map_err(at)?;
        let without = Record {
            journal: plain.journal,
            ..record
        };
        same("all but the journal", without, plain).map_err(at)?;
    }
    Ok(0)
}

/// Without the model: the journal is that of the answers that the library gave, and starting again
/// empties it.
pub fn check_journal_laws(
    table: &[u32],
    original: u32,
    destination: &[u8],
    source: &[u8],
    events: &[Event],
) -> Compared {
    let start = || {
        let started = Attempt::start(table, &[], original, destination, source);
        started.map_err(|refusal| refusal.to_string())
    };
    let mut attempt = start()?;
    let mut given: Vec<u8> = Vec::new();
    for event in events {
        let before = attempt.clone();
        let answer = own_event(&mut attempt, event).err().unwrap_or(0);
        given.push(answer);
        let journal = attempt.journal();
        same("count", journal.count() as usize, given.len())?;
        let last = given.iter().rev().take(JOURNAL_PLACES);
        let kept = journal.iter().rev().map(|answer| answer.number());
        same("answers", kept.eq(last.copied()), true)?;
        // Even where nothing else is changed, the attempt is another one.
        same("noted", attempt != before, true)?;
        same("read again", attempt.journal(), journal)?;
    }
    let begun = start()?;
    same("a new one", begun.journal().is_empty(), true)?;
    attempt = begun.clone();
    same("in the same place", attempt.journal(), begun.journal())?;
    Ok(0)
}
