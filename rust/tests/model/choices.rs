//! The model of tables, pairs and choices: from a list, and the server's after a
//! first flight.

use super::wire::{chosen_and_available, Sender};
use super::{MAX_BARRED, MAX_LIST, MAX_PAIRS, MAX_TABLE};
use std::collections::BTreeSet;

/// "A version is reserved when the low half of each of its four bytes is 10."
pub fn is_reserved(v: u32) -> bool {
    v.to_be_bytes().iter().all(|byte| byte % 16 == 10)
}

fn is_plain(v: u32) -> bool {
    v != 0 && !is_reserved(v)
}

/// "A table of versions has 1 to 16 entries, none 0, none reserved, none twice", now to 64 (C-14).
pub fn is_table(t: &[u32]) -> bool {
    (1..=MAX_TABLE).contains(&t.len()) && t.iter().copied().all(is_plain) && set(t).len() == t.len()
}

/// "0 to 64 pairs" (now 1,024, C-14), "no member 0 or reserved, no pair of equal members; a
/// repeated pair is harmless."
pub fn are_pairs(p: &[(u32, u32)]) -> bool {
    p.len() <= MAX_PAIRS
        && p.iter()
            .all(|&(from, to)| is_plain(from) && is_plain(to) && from != to)
}

/// All that a version is paired to: "Pairs are neither turned round nor
/// chained." Barred pairs are read the same way.
pub(super) fn paired_from(pairs: &[(u32, u32)], version: u32) -> BTreeSet<u32> {
    pairs
        .iter()
        .filter(|(from, _)| *from == version)
        .map(|(_, to)| *to)
        .collect()
}

/// The version itself and all that it is paired to, but for the barred ones. A
/// version is not barred for itself. Document 02, C-17: "the attempted version's
/// own entry can't be barred" of the client, "Chosen among them has no effect" of
/// the server.
pub(super) fn itself_or_paired_from(
    pairs: &[(u32, u32)],
    barred: &BTreeSet<u32>,
    version: u32,
) -> BTreeSet<u32> {
    let mut versions = &paired_from(pairs, version) - barred;
    versions.insert(version);
    versions
}

pub(super) fn set(versions: &[u32]) -> BTreeSet<u32> {
    versions.iter().copied().collect()
}

/// "The first entry of the table that occurs in the list." 40, 41, 42.
pub fn choose(table: &[u32], list: &[u32]) -> Result<u32, u8> {
    if list.len() > MAX_LIST {
        return Err(40);
    }
    if !is_table(table) {
        return Err(41);
    }
    first_in(table, &set(list)).ok_or(42)
}

fn first_in(table: &[u32], wanted: &BTreeSet<u32>) -> Option<u32> {
    table.iter().copied().find(|v| wanted.contains(v))
}

#[derive(Debug, Clone, Copy, PartialEq, Eq)]
pub enum Decision {
    Negotiate,
    Use(u32),
}

/// 41 and 43 "before all else", then in the paper's own order: not readable,
/// missing, 31 to 36, 51, the choice. Document 02, C-17: the server "likewise
/// takes up to 64 barred versions, of any value, for the flight at hand (more:
/// 43)".
pub fn server_choice(
    readable: &[u32],
    accepted: &[u32],
    pairs: &[(u32, u32)],
    barred: &[u32],
    version: u32,
    information: Option<&[u8]>,
) -> Result<Decision, u8> {
    if !(is_table(readable) && is_table(accepted)) {
        return Err(41);
    }
    if !are_pairs(pairs) || barred.len() > MAX_BARRED {
        return Err(43);
    }
    // "If the version of the first flight is not readable: answer
    // "negotiate"."
    if !readable.contains(&version) {
        return Ok(Decision::Negotiate);
    }
    let answer = match information {
        // "If Version Information is missing: that version if accepted, else
        // "negotiate"."
        None => accepted.iter().copied().find(|v| *v == version),
        Some(bytes) => {
            let (chosen, available) = chosen_and_available(Sender::Client, bytes)?;
            if chosen != version {
                return Err(51);
            }
            // "the first accepted version that is in the client's Available
            // list and either is Chosen or is paired from Chosen", and not barred
            let compatible = itself_or_paired_from(pairs, &set(barred), chosen);
            let wanted = set(&available).intersection(&compatible).copied().collect();
            first_in(accepted, &wanted)
        }
    };
    Ok(answer.map_or(Decision::Negotiate, Decision::Use))
}
