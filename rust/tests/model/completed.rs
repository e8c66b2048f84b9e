//! The model's statement on a whole list of events: what an attempt has
//! completed with, without its record.

use super::attempts::{Attempt, Event, Negotiation};
use super::choices::choose;
use super::wire::{chosen_and_available, Sender};

/// The version that an attempt has completed with after `events`, read from
/// the start and the events alone: "one statement on the whole list, not a law
/// per event". `started` is what `start` handed back.
pub fn completed(started: &Attempt, events: &[Event]) -> Option<u32> {
    // "The client acted when the first datagram that fits comes before any
    // heard or outcome and lists a table entry."
    let first_fit = events
        .iter()
        .map_while(|e| match e {
            Event::Datagram(datagram) => Some(Negotiation::read(datagram)),
            _ => None,
        })
        .flatten()
        .find(|packet| fits(started, packet));
    // The choice from its list; nothing in common ends the attempt.
    let choice = match first_fit {
        None => None,
        Some(packet) => Some(choose(&started.table, &packet.list).ok()?),
    };
    let attempted = choice.unwrap_or(started.original);

    let (in_use, information) = first_outcome(events)?;
    let (chosen, available) = match (information, choice) {
        (Some(bytes), _) => chosen_and_available(Sender::Server, bytes).ok()?,
        (None, Some(1)) => (1, vec![1]),
        (None, Some(_)) => return None,
        (None, None) => (attempted, Vec::new()),
    };

    let joined = [available.as_slice(), &[in_use]].concat();
    let not_downgraded = choice.is_none()
        || (!available.is_empty() && choose(&started.table, &joined) == Ok(attempted));
    if in_our_list(started, attempted, chosen) && chosen == in_use && not_downgraded {
        Some(in_use)
    } else {
        None
    }
}

/// The version in use and the information of the first outcome.
fn first_outcome(events: &[Event]) -> Option<(u32, Option<&[u8]>)> {
    events.iter().find_map(|e| match e {
        Event::Outcome {
            in_use,
            information,
        } => Some((*in_use, information.as_deref())),
        _ => None,
    })
}

/// Demand 3's "in our list", of the own list for the version we attempted. It reads
/// "the shorter list", which "leaves barred ones out" (document 02, C-17).
fn in_our_list(started: &Attempt, attempted: u32, version: u32) -> bool {
    let pair = (attempted, version);
    let paired = started.pairs.contains(&pair) && !started.barred.contains(&pair);
    started.table.contains(&version) && (version == attempted || paired)
}

/// "A datagram fits when none of 61, 63 and 64 applies."
fn fits(started: &Attempt, packet: &Negotiation<'_>) -> bool {
    packet.answers(&started.destination, &started.source)
        && !packet.list.contains(&started.original)
}
