//! The laws of what is barred (document 02, C-17), on what the library answers alone.

use super::attempts::raw_event;
use super::{paired, same, Compared};
use crate::model::{Event, MAX_BARRED, MAX_PAIRS, MAX_TABLE};
use crate::raw;

/// A list in other orders.
fn reordered<T: Clone>(items: &[T]) -> [Vec<T>; 2] {
    let turned = items.iter().rev().cloned().collect();
    let (first, second) = items.split_at(items.len() / 2);
    [turned, [second, first].concat()]
}

/// Parts of a list: no item, one, a half, all but the first and all but the last.
fn parts<T>(items: &[T]) -> [&[T]; 5] {
    let (half, but_last) = (items.len() / 2, items.len().saturating_sub(1));
    [
        &[],
        &items[..items.len().min(1)],
        &items[half..],
        &items[items.len().min(1)..],
        &items[..but_last],
    ]
}

/// `items` and as many of the others as there is room for.
fn with<T: Clone>(items: &[T], others: &[T], most: usize) -> Vec<T> {
    let room = most.saturating_sub(items.len());
    [items, &others[..others.len().min(room)]].concat()
}

/// The pairs without the barred ones.
fn left_out(pairs: &[(u32, u32)], barred: &[(u32, u32)]) -> Vec<(u32, u32)> {
    let left = pairs.iter().filter(|pair| !barred.contains(pair));
    left.copied().collect()
}

/// Barred pairs have the pairs' rule, after 41 and before 44. Barring a pair is leaving it out of the
/// pairs. Order and repeats of barred pairs, and those that are not among the pairs, change nothing.
/// With more barred no row has another bit.
pub fn check_start_laws(
    table: &[u32],
    pairs: &[(u32, u32)],
    barred: &[(u32, u32)],
    original: u32,
) -> Compared {
    let start = |pairs: &[(u32, u32)], barred: &[(u32, u32)]| {
        raw::start(table, &paired(pairs), &paired(barred), original, &[], &[])
    };
    let started = start(pairs, barred);
    let refusal = match start(pairs, &[]).refusal {
        41 => 41,
        _ if raw::are_pairs(&paired(barred)) == 0 => 43,
        other => other,
    };
    same("refusal", started.refusal, refusal)?;
    if refusal != 0 {
        return Ok(refusal);
    }
    let left = start(&left_out(pairs, barred), &[]);
    same("left out of the pairs", left, started)?;
    for other in reordered(barred) {
        same("in another order", start(pairs, &other), started)?;
    }
    let repeated = with(barred, &[parts(barred)[1], barred].concat(), MAX_PAIRS);
    same("repeated", start(pairs, &repeated), started)?;
    let turned = pairs.iter().map(|(from, to)| (*to, *from));
    let unpaired: Vec<(u32, u32)> = turned.filter(|pair| !pairs.contains(pair)).collect();
    let more = with(barred, &unpaired, MAX_PAIRS);
    same("not among the pairs", start(pairs, &more), started)?;
    for fewer in parts(barred) {
        let rows = start(pairs, fewer).attempt.rows;
        let mut both = started.attempt.rows.iter().zip(&rows);
        let part = both.all(|(row, more)| row & !more == 0);
        same("a part of what fewer leave", part, true)?;
    }
    Ok(0)
}

/// Events answer the same, and leave the same, as with the barred pairs left out of the pairs. The
/// last answer.
pub fn check_event_laws(
    table: &[u32],
    pairs: &[(u32, u32)],
    barred: &[(u32, u32)],
    original: u32,
    events: &[Event],
) -> Compared {
    let run = |pairs: &[(u32, u32)], barred: &[(u32, u32)]| {
        let (pairs, barred) = (paired(pairs), paired(barred));
        let mut record = raw::start(table, &pairs, &barred, original, &[], &[]).attempt;
        let answers = events.iter().map(|event| raw_event(&mut record, event));
        let answers: Vec<u32> = answers.collect();
        let (mut own, mut count) = ([0; MAX_TABLE], 0);
        let answer = raw::own_list(&record, &mut own, &mut count);
        (answers, record, answer, own[..count].to_vec())
    };
    let barring = run(pairs, barred);
    let left = run(&left_out(pairs, barred), &[]);
    same("left out of the pairs", &left, &barring)?;
    Ok(barring.0.last().copied().unwrap_or(0))
}

/// What the server's choice answers: the refusal and the decision, 0 where there is none.
type Answer = (u32, u32);

/// A first flight, and the server's tables.
struct Flight<'a> {
    readable: &'a [u32],
    accepted: &'a [u32],
    version: u32,
    information: &'a [u8],
}

impl Flight<'_> {
    fn choice(&self, pairs: &[(u32, u32)], barred: &[u32], presence: u32) -> Answer {
        let (pairs, mut decision) = (paired(pairs), 0);
        let answer = raw::server_choice(
            self.readable,
            self.accepted,
            &pairs,
            barred,
            self.version,
            presence,
            self.information,
            &mut decision,
        );
        (answer, decision)
    }
}

/// Barring a version is leaving the pair from the flight's version to it out. Order and repeats of
/// barred versions, and those that are not accepted, 0 and the flight's version too, change nothing.
/// Up to 64 change no refusal, and nothing where information is missing. With more barred, what is
/// used is not preferred to what was, and stays where it is not barred.
pub fn check_server_laws(
    readable: &[u32],
    accepted: &[u32],
    pairs: &[(u32, u32)],
    barred: &[u32],
    version: u32,
    bytes: &[u8],
) -> Compared {
    let flight = Flight {
        readable,
        accepted,
        version,
        information: bytes,
    };
    let answer = flight.choice(pairs, barred, 1);
    let nothing = flight.choice(pairs, &[], 1);
    if barred.len() > MAX_BARRED {
        let is_41 = nothing.0 == 41;
        same("too many", answer, (if is_41 { 41 } else { 43 }, 0))?;
        return Ok(answer.0);
    }
    same("refusal", answer.0, nothing.0)?;
    let missing = flight.choice(pairs, barred, 0);
    same("missing information", missing, flight.choice(pairs, &[], 0))?;
    if answer.0 == 0 {
        check_same_choice(&flight, pairs, barred)?;
        for fewer in parts(barred) {
            let before = flight.choice(pairs, fewer, 1).1;
            check_later(&flight, barred, before, answer.1)?;
        }
    }
    Ok(answer.0)
}

/// What changes nothing of a choice that is not refused.
fn check_same_choice(
    flight: &Flight<'_>,
    pairs: &[(u32, u32)],
    barred: &[u32],
) -> Result<(), String> {
    let version = flight.version;
    let choice = |pairs: &[(u32, u32)], barred: &[u32]| flight.choice(pairs, barred, 1);
    let answer = choice(pairs, barred);
    let is_barred = |(from, to): &(u32, u32)| *from == version && barred.contains(to);
    let left = pairs.iter().copied().filter(|pair| !is_barred(pair));
    let left: Vec<(u32, u32)> = left.collect();
    same("left out of the pairs", choice(&left, &[]), answer)?;
    for other in reordered(barred) {
        same("in another order", choice(pairs, &other), answer)?;
    }
    let repeated = with(barred, &[parts(barred)[1], barred].concat(), MAX_BARRED);
    same("repeated", choice(pairs, &repeated), answer)?;
    let others = [version, 0, 0x1a2a_3a4a, !version, u32::MAX];
    let others = others
        .iter()
        .filter(|v| **v == version || !flight.accepted.contains(v));
    let others: Vec<u32> = others.copied().collect();
    let more = with(barred, &others, MAX_BARRED);
    same("Chosen, and not accepted", choice(pairs, &more), answer)
}

/// The decision with fewer barred, and with all of them. It is 0 where there is no version to use.
fn check_later(flight: &Flight<'_>, barred: &[u32], fewer: u32, all: u32) -> Result<(), String> {
    let (accepted, version) = (flight.accepted, flight.version);
    let place = |decision| {
        let place = accepted.iter().position(|v| *v == decision);
        place.unwrap_or(accepted.len())
    };
    same("a later one", place(fewer) <= place(all), true)?;
    if fewer == version || !barred.contains(&fewer) {
        same("not barred", all, fewer)?;
    }
    let used = all == version || !barred.contains(&all) || all == 0;
    same("barred and not used", used, true)
}
