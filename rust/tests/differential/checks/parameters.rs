//! Variable-length integers, and the sequence of transport parameters with Version Information in
//! it: each call, and the laws of what is written and read.

use super::wire::{check_own_writer, check_writer};
use super::{number, plain, same, same_bytes, Compared, Lent, FOUND};
use crate::{model, raw};
use quic_version::transport_parameters as library;
use quic_version::{Refusal, WriteRefusal};
use std::ops::Range;

/// The close code of what the crate's reader refuses.
fn check_code<T>(answer: &Result<T, Refusal>) -> Result<(), String> {
    match answer {
        Ok(_) => Ok(()),
        Err(refusal) => {
            let code = model::close_code(u32::from(refusal.number()), false);
            same("close code", refusal.close_code(), code)
        }
    }
}

pub fn check_read_integer(bytes: &[u8]) -> Compared {
    let model = model::read_integer(bytes);
    for found in FOUND {
        let before = (u64::found(found), usize::found(found));
        let (mut value, mut width) = before;
        let answer = raw::read_integer(bytes, &mut value, &mut width);
        same("answer", answer, number(&model))?;
        same("value, width", (value, width), model.unwrap_or(before))?;
    }
    let answer = library::read_integer(bytes).map(|read| (read.value, read.width));
    check_code(&answer)?;
    same("read_integer", plain(answer), model)?;
    Ok(number(&model))
}

pub fn check_write_integer(value: u64, room: usize) -> Compared {
    let model = model::write_integer(value, room);
    check_writer(room, &model, &|buffer, count| {
        raw::write_integer(value, buffer, count)
    })?;
    check_own_writer(room, &model, &|buffer| {
        library::write_integer(value, buffer)
    })?;
    Ok(number(&model))
}

/// What the reader of a sequence leaves: whether our value was found, its start and its end.
fn places_of(ours: &Option<Range<usize>>) -> (u32, usize, usize) {
    match ours {
        Some(value) => (1, value.start, value.end),
        None => (0, 0, 0),
    }
}

/// Where a part of the bytes lies in them.
fn place_in(bytes: &[u8], part: &[u8]) -> Range<usize> {
    let start = part.as_ptr() as usize - bytes.as_ptr() as usize;
    start..start + part.len()
}

pub fn check_read_parameters(sequence: &[u8]) -> Compared {
    let model = model::read_parameters(sequence);
    for found in FOUND {
        let before = (found, usize::found(found), usize::found(found));
        let (mut is_found, mut start, mut end) = before;
        let answer = raw::read_parameters(sequence, &mut is_found, &mut start, &mut end);
        let left = model.as_ref().map_or(before, places_of);
        same("answer", answer, number(&model))?;
        same("found, start, end", (is_found, start, end), left)?;
    }
    let answer = library::find_version_information(sequence);
    check_code(&answer)?;
    let place = answer.map(|ours| ours.map(|value| place_in(sequence, value)));
    same("find_version_information", &plain(place), &model)?;
    Ok(number(&model))
}

pub fn check_write_parameters(old: &[u8], value: &[u8], room: usize) -> Compared {
    let model = model::write_parameters(old, value, room);
    check_writer(room, &model, &|buffer, count| {
        raw::write_parameters(old, value, buffer, count)
    })?;
    check_own_writer(room, &model, &|buffer| {
        library::write_version_information(old, value, buffer)
    })?;
    Ok(number(&model))
}

// The laws, on what the library answers alone.

/// The identifiers and values of a sequence that can be read, by the library's reader of integers.
fn parameters(sequence: &[u8]) -> Result<Vec<(u64, &[u8])>, Refusal> {
    let mut parameters = Vec::new();
    let mut rest = sequence;
    while !rest.is_empty() {
        let identifier = library::read_integer(rest)?;
        let length = library::read_integer(&rest[identifier.width..])?;
        let after = &rest[identifier.width + length.width..];
        let (value, after) = after.split_at(length.value as usize);
        parameters.push((identifier.value, value));
        rest = after;
    }
    Ok(parameters)
}

/// The shortest form of a sequence of these, by the library's writer of integers.
fn shortest(parameters: &[(u64, &[u8])]) -> Result<Vec<u8>, WriteRefusal> {
    let mut sequence = Vec::new();
    for (identifier, value) in parameters {
        for integer in [*identifier, value.len() as u64] {
            let mut buffer = [0; 8];
            let count = library::write_integer(integer, &mut buffer)?;
            sequence.extend(&buffer[..count]);
        }
        sequence.extend(*value);
    }
    Ok(sequence)
}

/// What the writer writes, in a buffer that is long enough.
fn written(old: &[u8], value: &[u8]) -> Result<Vec<u8>, WriteRefusal> {
    let mut buffer = vec![0x77; model::MAX_SEQUENCE];
    let count = library::write_version_information(old, value, &mut buffer)?;
    buffer.truncate(count);
    Ok(buffer)
}

/// An answer that a law leaves no room to refuse.
fn given<T, E: std::fmt::Display>(what: &str, answer: Result<T, E>) -> Result<T, String> {
    answer.map_err(|refusal| format!("{}: refused, {}", what, refusal))
}

/// What is written is read, and our value is found with the same bytes; the other parameters keep
/// values and order; the same value written once more gives the same bytes. What is read, written
/// again with the value that was found, gives the shortest form of the same sequence.
pub fn check_laws(old: &[u8], value: &[u8]) -> Compared {
    check_rewritten(old)?;
    let new = match written(old, value) {
        Ok(new) => new,
        Err(refusal) => return Ok(u32::from(refusal.number())),
    };
    let found = given("what was written", library::find_version_information(&new))?;
    same_bytes("found in what was written", found.unwrap_or(&[]), value)?;
    same("whether it was found", found.is_some(), true)?;

    let mut kept = given("the old sequence", parameters(old))?;
    let ours = kept
        .iter_mut()
        .find(|(id, _)| *id == model::VERSION_INFORMATION);
    match ours {
        Some(ours) => ours.1 = value,
        None => kept.push((model::VERSION_INFORMATION, value)),
    }
    let now = given("the new sequence", parameters(&new))?;
    same("parameters in their order", &now, &kept)?;

    let again = given("the same value once more", written(&new, value))?;
    same_bytes("the same value once more", &again, &new)?;
    check_rewritten(&new)?;
    Ok(0)
}

/// A sequence written again with the value that was found in it, if there is one.
fn check_rewritten(sequence: &[u8]) -> Result<(), String> {
    let value = match library::find_version_information(sequence) {
        Ok(Some(value)) => value,
        _ => return Ok(()),
    };
    let again = given("written again", written(sequence, value))?;
    let parameters = given("the sequence", parameters(sequence))?;
    let shortest = given("its shortest form", shortest(&parameters))?;
    same_bytes("written again", &again, &shortest)?;
    if shortest == sequence {
        same_bytes(
            "written again, where it was in shortest form",
            &again,
            sequence,
        )?;
    }
    Ok(())
}
