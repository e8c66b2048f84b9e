//! Records that no attempt has and kinds that no event has: 255, and all is left as found; and what
//! an event does to any record value.

use super::attempts::{check_own_list, raw_event};
use super::journal::{check_any_journal, noted};
use super::wire::check_writer;
use super::{number, paired, placed, same, Compared, Lent, FOUND};
use crate::model::{self, Event, MAX_ID, MAX_TABLE};
use crate::raw::{self, Record};

/// The damages of `check_damaged`.
pub const DAMAGES: usize = 10;

/// What is judged of a record: counts, flags and marks, and that the attempted version is in the
/// table. The journal is not: it may have any answers and any count.
pub(super) fn is_record(record: &Record) -> bool {
    let end_fits = match record.end_mark {
        0 => record.end_value == 0,
        1 => true,
        2 => record.end_value <= 255,
        _ => false,
    };
    record.table_len as usize <= MAX_TABLE
        && record.destination_len as usize <= MAX_ID
        && record.source_len as usize <= MAX_ID
        && record.acted <= 1
        && record.heard <= 1
        && end_fits
        && table_of(record).contains(&record.attempted)
}

/// The table of a record whose counts are within its arrays.
fn table_of(record: &Record) -> &[u32] {
    &record.table[..record.table_len as usize]
}

/// `record` with one field that no attempt has. The lowest `value` gives the first number that is
/// not allowed.
fn damage(record: &mut Record, field: usize, value: u32) {
    let over = |most: usize| value.max(most as u32 + 1);
    match field {
        0 => record.table_len = over(MAX_TABLE),
        1 => record.destination_len = over(MAX_ID),
        2 => record.source_len = over(MAX_ID),
        3 => record.acted = over(1),
        4 => record.heard = over(1),
        5 => record.end_mark = over(2),
        6 => {
            record.end_mark = 0;
            record.end_value = over(0);
        }
        7 => {
            record.end_mark = 2;
            record.end_value = over(255);
        }
        // The attempted version is not in the table.
        8 => {
            let outside = (value..=u32::MAX).find(|v| !table_of(record).contains(v));
            record.attempted = outside.unwrap_or(0);
        }
        // It is where the table has ended.
        _ => {
            let place = table_of(record).iter().position(|v| *v == record.attempted);
            record.table_len = place.unwrap() as u32;
        }
    }
}

/// The record after a start and some events.
fn record_after(table: &[u32], pairs: &[(u32, u32)], original: u32, events: &[Event]) -> Record {
    let mut record = raw::start(table, &paired(pairs), &[], original, &[], &[]).attempt;
    for event in events {
        raw_event(&mut record, event);
    }
    record
}

/// 255 from an event with any bytes, and the record is left as found.
fn check_not_valid(found: Record, kind: u32) -> Result<(), String> {
    let packet = [0x80, 0, 0, 0, 0, 0, 0, 0, 0, 0, 14];
    for bytes in [&packet[..], &[0, 0, 0, 14], &[]] {
        for value in [14, found.attempted] {
            let mut record = found;
            let answer = raw::event(&mut record, kind, value, bytes);
            same("event's answer", answer, 255)?;
            same("record", record, found)?;
        }
    }
    Ok(())
}

/// 255 from the own list, and the lent places are left as found.
fn check_no_own_list(record: &Record) -> Result<(), String> {
    for found in FOUND {
        let (mut versions, mut count) = ([found; MAX_TABLE], usize::found(found));
        same(
            "own list's answer",
            raw::own_list(record, &mut versions, &mut count),
            255,
        )?;
        same(
            "own list",
            (versions, count),
            ([found; MAX_TABLE], usize::found(found)),
        )?;
    }
    Ok(())
}

/// 255 from the writer of a client's information, with whatever else would be refused, and the lent
/// places are left as found.
fn check_no_information(record: &Record) -> Result<(), String> {
    let five = [(0x1a2a_3a4a, 0); 5];
    let calls = [(&[][..], 16), (&five, 0), (&five, 64), (&[(12, 700)], 40)];
    for (reserved, room) in calls {
        check_any_information(record, reserved, room)?;
    }
    Ok(())
}

/// 255 from the journal, and the lent places are left as found.
fn check_no_journal(record: &Record) -> Result<(), String> {
    same("journal's answer", check_any_journal(record)?, 255)
}

/// 255 from every call with this record, and all is left as found.
pub fn check_no_record(record: &Record) -> Result<(), String> {
    for kind in 0..4 {
        check_not_valid(*record, kind)?;
    }
    check_no_own_list(record)?;
    check_no_journal(record)?;
    check_no_information(record)
}

/// A record after a start and some events, then damaged in one field: 255 from an event, from the
/// own list, from the journal and from the writer of a client's information, and all is left as
/// found.
pub fn check_damaged(
    table: &[u32],
    pairs: &[(u32, u32)],
    original: u32,
    events: &[Event],
    field: usize,
    value: u32,
    kind: u32,
) -> Compared {
    let mut record = record_after(table, pairs, original, events);
    damage(&mut record, field, value);
    same("is_record", is_record(&record), false)?;
    check_not_valid(record, kind)?;
    check_no_own_list(&record)?;
    check_no_journal(&record)?;
    check_no_information(&record)?;
    Ok(255)
}

/// An event of an unknown kind on a good record: 255, and the record is left as found.
pub fn check_unknown_kind(
    table: &[u32],
    pairs: &[(u32, u32)],
    original: u32,
    events: &[Event],
    kind: u32,
) -> Compared {
    check_not_valid(record_after(table, pairs, original, events), kind)?;
    Ok(255)
}

/// An event on any record value whatever: 255 exactly where it has to be, and all is left as found;
/// else the record stays one, and is completed with a version of its table alone, and its journal,
/// whatever that was, is the one with the answer noted. The journal is read before and after.
pub fn check_any_record(found: &Record, kind: u32, value: u32, bytes: &[u8]) -> Compared {
    let mut record = *found;
    let answer = raw::event(&mut record, kind, value, bytes);
    if !is_record(found) {
        check_no_own_list(found)?;
    }
    check_any_journal(found)?;
    check_any_journal(&record)?;
    if !is_record(found) || kind > 3 {
        same("answer", answer, 255)?;
        same("record", record, *found)?;
        return Ok(255);
    }
    same("255", answer == 255, false)?;
    same("a record after the event", is_record(&record), true)?;
    let mut left = *found;
    left.journal = noted(&found.journal, answer);
    if found.end_mark == 0 {
        // All else that an event may change.
        left.attempted = record.attempted;
        left.acted = record.acted;
        left.heard = record.heard;
        left.end_mark = record.end_mark;
        left.end_value = record.end_value;
    }
    same("record", record, left)?;
    let ended = found.end_mark == 0 && record.end_mark != 0;
    if ended && record.end_mark == 1 {
        same("completed, answer and kind", (answer, kind >= 2), (0, true))?;
        same("completed with", record.end_value, value)?;
        same("in the table", table_of(found).contains(&value), true)?;
    } else if ended {
        same("closed with", record.end_value, answer)?;
    }
    check_own_list(&record, &own_list_of(&record))?;
    Ok(answer)
}

/// The writer of a client's information on any record value whatever: 255 exactly where it has to be,
/// else the model's answer for the record's attempted version and own list. The record stays.
pub fn check_any_information(found: &Record, reserved: &[(u32, u32)], room: usize) -> Compared {
    let model = match is_record(found) {
        true => model::client_information(found.attempted, &own_list_of(found), reserved, room),
        false => Err(255),
    };
    let (record, given) = (*found, placed(reserved));
    check_writer(room, &model, &|buffer, count| {
        raw::write_client_information(&record, &given, buffer, count)
    })?;
    same("record", record, *found)?;
    Ok(number(&model))
}

/// The own list of any record: the entries whose bits are set in the row of the attempted version's
/// first place.
fn own_list_of(record: &Record) -> Vec<u32> {
    let table = table_of(record);
    let place = table.iter().position(|v| *v == record.attempted).unwrap();
    let is_set = |at: &usize| record.rows[place] >> at & 1 == 1;
    (0..table.len())
        .filter(is_set)
        .map(|at| table[at])
        .collect()
}
