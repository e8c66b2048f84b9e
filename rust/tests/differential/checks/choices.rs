//! The rules of tables and pairs, and the choices.

use super::{check_number, number, paired, plain, same, Compared};
use crate::{model, raw};
use quic_version::{self as library, Decision};

pub fn check_is_reserved(version: u32) -> Compared {
    let model = model::is_reserved(version);
    same("answer", raw::is_reserved(version), u32::from(model))?;
    same("is_reserved", library::is_reserved(version), model)?;
    Ok(0)
}

pub fn check_is_table(table: &[u32]) -> Compared {
    let model = model::is_table(table);
    same("answer", raw::is_table(table), u32::from(model))?;
    same("is_table", library::is_table(table), model)?;
    Ok(0)
}

pub fn check_are_pairs(pairs: &[(u32, u32)]) -> Compared {
    let model = model::are_pairs(pairs);
    let pairs = paired(pairs);
    same("answer", raw::are_pairs(&pairs), u32::from(model))?;
    same("are_pairs", library::are_pairs(&pairs), model)?;
    Ok(0)
}

pub fn check_choose(table: &[u32], list: &[u32]) -> Compared {
    let model = model::choose(table, list);
    check_number(&model, &|version| raw::choose(table, list, version))?;
    same("choose", plain(library::choose(table, list)), model)?;
    Ok(number(&model))
}

pub fn check_choose_from_bytes(table: &[u32], bytes: &[u8]) -> Compared {
    let model = model::choose(table, &model::list_on_the_wire(bytes));
    check_number(&model, &|version| {
        raw::choose_from_bytes(table, bytes, version)
    })?;
    same(
        "choose_from_bytes",
        plain(library::choose_from_bytes(table, bytes)),
        model,
    )?;
    Ok(number(&model))
}

/// `presence` is 0 for missing information, 1 for given; else 255 is due.
pub fn check_server_choice(
    readable: &[u32],
    accepted: &[u32],
    pairs: &[(u32, u32)],
    barred: &[u32],
    version: u32,
    presence: u32,
    bytes: &[u8],
) -> Compared {
    let information = if presence == 1 { Some(bytes) } else { None };
    let model = match presence {
        0 | 1 => model::server_choice(readable, accepted, pairs, barred, version, information),
        _ => Err(255),
    };
    let pairs = paired(pairs);
    let left = model.map(|decision| match decision {
        model::Decision::Negotiate => 0,
        model::Decision::Use(version) => version,
    });
    check_number(&left, &|decision| {
        raw::server_choice(
            readable, accepted, &pairs, barred, version, presence, bytes, decision,
        )
    })?;
    if presence < 2 {
        let barring = library::server_choice_barring;
        let answer = barring(readable, accepted, &pairs, barred, version, information);
        if barred.is_empty() {
            let short = library::server_choice(readable, accepted, &pairs, version, information);
            same("server_choice and server_choice_barring", short, answer)?;
        }
        let answer = answer.map(|decision| match decision {
            Decision::Negotiate => 0,
            Decision::Use(version) => version,
        });
        same("server_choice_barring", plain(answer), left)?;
    }
    Ok(number(&model))
}
