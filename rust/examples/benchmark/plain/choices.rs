//! Tables, pairs and the choice from a list.

use super::lists;
use super::wire::read_information;
use quic_version::{Decision, Pair, MAX_BARRED, MAX_LIST, MAX_PAIRS, MAX_TABLE};

pub fn is_reserved(version: u32) -> bool {
    version & 0x0f0f_0f0f == 0x0a0a_0a0a
}

/// Not 0 and not reserved.
fn is_good(version: u32) -> bool {
    version != 0 && !is_reserved(version)
}

pub fn is_table(table: &[u32]) -> bool {
    if table.is_empty() || table.len() > MAX_TABLE {
        return false;
    }
    for (place, version) in table.iter().enumerate() {
        if !is_good(*version) || table[..place].contains(version) {
            return false;
        }
    }
    true
}

pub fn are_pairs(pairs: &[Pair]) -> bool {
    pairs.len() <= MAX_PAIRS
        && pairs
            .iter()
            .all(|p| is_good(p.from) && is_good(p.to) && p.from != p.to)
}

#[inline(never)]
pub fn choose(table: &[u32], list: &[u32]) -> Result<u32, u8> {
    if list.len() > MAX_LIST {
        return Err(40);
    }
    if !is_table(table) {
        return Err(41);
    }
    for version in table {
        for entry in list {
            if entry == version {
                return Ok(*version);
            }
        }
    }
    Err(42)
}

#[inline(never)]
pub fn choose_from_bytes(table: &[u32], bytes: &[u8]) -> Result<u32, u8> {
    if bytes.len() / 4 > MAX_LIST {
        return Err(40);
    }
    if !is_table(table) {
        return Err(41);
    }
    for version in table {
        if lists(bytes, *version) {
            return Ok(*version);
        }
    }
    Err(42)
}

#[inline]
pub fn server_choice(
    readable: &[u32],
    accepted: &[u32],
    pairs: &[Pair],
    version: u32,
    information: Option<&[u8]>,
) -> Result<Decision, u8> {
    server_choice_barring(readable, accepted, pairs, &[], version, information)
}

#[inline(never)]
pub fn server_choice_barring(
    readable: &[u32],
    accepted: &[u32],
    pairs: &[Pair],
    barred: &[u32],
    version: u32,
    information: Option<&[u8]>,
) -> Result<Decision, u8> {
    if !is_table(readable) || !is_table(accepted) {
        return Err(41);
    }
    if !are_pairs(pairs) || barred.len() > MAX_BARRED {
        return Err(43);
    }
    if !readable.contains(&version) {
        return Ok(Decision::Negotiate);
    }
    let (chosen, available) = match information {
        Some(bytes) => read_information(true, bytes)?,
        None if accepted.contains(&version) => return Ok(Decision::Use(version)),
        None => return Ok(Decision::Negotiate),
    };
    if chosen != version {
        return Err(51);
    }
    // Over the pairs once, as the library does.
    let place = |version| accepted.iter().position(|v| *v == version);
    let mut usable: u64 = 0;
    for pair in pairs {
        if pair.from == chosen {
            if let Some(place) = place(pair.to) {
                usable |= 1 << place;
            }
        }
    }
    for version in barred {
        if let Some(place) = place(*version) {
            usable &= !(1 << place);
        }
    }
    // Last, so that Chosen among the barred versions has no effect.
    if let Some(place) = place(chosen) {
        usable |= 1 << place;
    }
    for (place, version) in accepted.iter().enumerate() {
        if usable >> place & 1 == 1 && lists(available, *version) {
            return Ok(Decision::Use(*version));
        }
    }
    Ok(Decision::Negotiate)
}
