//! The writer of a client's information (document 02, C-18), and what reserved numbers leave as it
//! is, on what the crate answers alone.

use super::attempts::{own_event, raw_event};
use super::wire::{check_own_writer, check_writer};
use super::{number, paired, placed, same, same_bytes, Compared};
use crate::model::{self, Event};
use crate::random::in_fours;
use crate::raw;
use quic_version::{self as library, Attempt, End, Refusal, Sender, WriteRefusal};
use quic_version::{Pair, MAX_INFORMATION, MAX_PACKET};

/// A start that is not refused, with empty connection IDs, and events, on the crate's own attempt.
fn attempt_after(
    table: &[u32],
    pairs: &[(u32, u32)],
    barred: &[(u32, u32)],
    original: u32,
    events: &[Event],
) -> Result<Attempt, String> {
    let (pairs, barred) = (paired(pairs), paired(barred));
    let started = Attempt::start_barring(table, &pairs, &barred, original, &[], &[]);
    let mut attempt = started.map_err(|refusal| refusal.to_string())?;
    for event in events {
        let _ = own_event(&mut attempt, event);
    }
    Ok(attempt)
}

/// After a start that is not refused and any events: answer, count and every byte, of the header's
/// call and of the crate's own. Neither changes its record.
#[allow(clippy::too_many_arguments)]
pub fn check_write_client_information(
    table: &[u32],
    pairs: &[(u32, u32)],
    barred: &[(u32, u32)],
    original: u32,
    destination: &[u8],
    source: &[u8],
    events: &[Event],
    reserved: &[(u32, u32)],
    room: usize,
) -> Compared {
    let refused = |no| format!("the start is refused with {}", no);
    let started = model::start(table, pairs, barred, original, destination, source);
    let mut model = started.map_err(refused)?;
    let (pairs, barred, given) = (paired(pairs), paired(barred), placed(reserved));
    let mut record = raw::start(table, &pairs, &barred, original, destination, source).attempt;
    let own = Attempt::start_barring(table, &pairs, &barred, original, destination, source);
    let mut attempt = own.map_err(|refusal| refused(refusal.number()))?;
    for event in events {
        let _ = (model.event(event), raw_event(&mut record, event));
        let _ = own_event(&mut attempt, event);
    }
    let answer = model.information(reserved, room);
    let (record_found, attempt_found) = (record, attempt.clone());
    check_writer(room, &answer, &|buffer, count| {
        raw::write_client_information(&record, &given, buffer, count)
    })?;
    check_own_writer(room, &answer, &|buffer| {
        attempt.write_information(&given, buffer)
    })?;
    same("record", record, record_found)?;
    same("attempt", &attempt, &attempt_found)?;
    Ok(number(&answer))
}

// What is sent.

/// The client's information, in a buffer that is never too short for what may be sent.
fn sent(attempt: &Attempt, reserved: &[(u32, u32)]) -> Result<Vec<u8>, WriteRefusal> {
    let mut buffer = [0; MAX_INFORMATION];
    let count = attempt.write_information(&placed(reserved), &mut buffer)?;
    Ok(buffer[..count].to_vec())
}

/// What the call writes is read as a client's. Each number stands at its place; without reserved
/// numbers the list is the own list. In which order the numbers are given has no weight.
pub fn check_sent_laws(
    table: &[u32],
    pairs: &[(u32, u32)],
    barred: &[(u32, u32)],
    original: u32,
    events: &[Event],
    reserved: &[(u32, u32)],
) -> Compared {
    let attempt = attempt_after(table, pairs, barred, original, events)?;
    let turned: Vec<(u32, u32)> = reserved.iter().rev().copied().collect();
    let answer = sent(&attempt, reserved);
    same("in another order", &sent(&attempt, &turned), &answer)?;
    let bytes = match answer {
        Ok(bytes) => bytes,
        Err(refusal) => return Ok(u32::from(refusal.number())),
    };
    let read = library::read_information(Sender::Client, &bytes);
    let read = read.map_err(|refusal| refusal.to_string())?;
    same("Chosen", read.chosen, attempt.attempted())?;
    let list: Vec<u32> = library::versions(read.available).collect();
    for (number, place) in reserved {
        let there = list.get(*place as usize).copied();
        same("at its place", there, Some(*number))?;
    }
    let mut plain = list;
    plain.retain(|v| !library::is_reserved(*v));
    same("without them", &plain[..], &attempt.own_list()[..])?;
    let written = library::write_information(
        Sender::Client,
        attempt.attempted(),
        &attempt.own_list(),
        &mut [0; MAX_INFORMATION],
    );
    let none = sent(&attempt, &[]).map(|bytes| bytes.len());
    same("as the other writer", none, written)?;
    Ok(0)
}

/// The server's choice is the same for the client's information with and without reserved numbers.
#[allow(clippy::too_many_arguments)]
pub fn check_server_takes_no_notice(
    table: &[u32],
    pairs: &[(u32, u32)],
    barred: &[(u32, u32)],
    original: u32,
    events: &[Event],
    reserved: &[(u32, u32)],
    readable: &[u32],
    accepted: &[u32],
    server_pairs: &[(u32, u32)],
    server_barred: &[u32],
    version: u32,
) -> Compared {
    let attempt = attempt_after(table, pairs, barred, original, events)?;
    let (with, without) = match (sent(&attempt, reserved), sent(&attempt, &[])) {
        (Ok(with), Ok(without)) => (with, without),
        (Err(refusal), _) | (_, Err(refusal)) => return Ok(u32::from(refusal.number())),
    };
    let (pairs, barred): (Vec<Pair>, &[u32]) = (paired(server_pairs), server_barred);
    let choice = |bytes: &[u8]| {
        library::server_choice_barring(readable, accepted, &pairs, barred, version, Some(bytes))
    };
    let answer = choice(&without);
    same("choice", choice(&with), answer)?;
    Ok(answer.map_or_else(|refusal| u32::from(refusal.number()), |_| 0))
}

// What is answered.

/// A packet ends with the reserved numbers, in their order, and is else as without them. Every event
/// gives the same answer for both, and leaves the same attempt.
#[allow(clippy::too_many_arguments)]
pub fn check_client_takes_no_notice(
    table: &[u32],
    pairs: &[(u32, u32)],
    barred: &[(u32, u32)],
    original: u32,
    events: &[Event],
    received: &[u8],
    offered: &[u32],
    reserved: &[u32],
    unused_bits: u8,
) -> Compared {
    let packet = |reserved: &[u32]| {
        let mut packet = [0; MAX_PACKET];
        let count = library::write_version_negotiation_with_reserved(
            received,
            offered,
            reserved,
            unused_bits,
            &mut packet,
        );
        count.map(|count| packet[..count].to_vec())
    };
    let (with, without) = match (packet(reserved), packet(&[])) {
        (Ok(with), Ok(without)) => (with, without),
        (Err(refusal), _) | (_, Err(refusal)) => return Ok(u32::from(refusal.number())),
    };
    let joined = [&without[..], &in_fours(reserved)].concat();
    same_bytes("packet", &with, &joined)?;
    let mut one = attempt_after(table, pairs, barred, original, events)?;
    let mut other = one.clone();
    let answer = one.datagram(&with);
    same("answer", answer, other.datagram(&without))?;
    same("attempt", &one, &other)?;
    Ok(answer.map_or_else(|refusal| u32::from(refusal.number()), |_| 0))
}

/// A reserved Chosen in an outcome is a 72, whether it was sent or not, and closes with 0x11. On an
/// attempt that has ended it is a 62.
pub fn check_reserved_chosen(
    table: &[u32],
    pairs: &[(u32, u32)],
    barred: &[(u32, u32)],
    original: u32,
    events: &[Event],
    outcome: &[Event],
) -> Compared {
    let mut attempt = attempt_after(table, pairs, barred, original, events)?;
    let found = attempt.clone();
    let (due, end) = match attempt.end() {
        End::Open => (72, End::Closed(Refusal::ChosenNotOurs)),
        ended => (62, ended),
    };
    for event in outcome {
        same("answer", own_event(&mut attempt, event), Err(due))?;
    }
    same("end", attempt.end(), end)?;
    same("attempted", attempt.attempted(), found.attempted())?;
    same("own list", attempt.own_list(), found.own_list())?;
    same("code", Refusal::ChosenNotOurs.close_code(), Some(0x11))?;
    Ok(u32::from(due))
}
