//! Readers and writers: headers, Version Negotiation packets and Version Information.

use super::{number, plain, same, same_bytes, Compared, Lent, FOUND};
use crate::model::{self, Header};
use crate::raw;
use quic_version::{self as library, Sender, WriteRefusal};

/// What the reader leaves for a header: form, version and places.
fn places_of(header: &Header) -> (u32, u32, [usize; 6]) {
    match header.clone() {
        Header::Long {
            version,
            destination: d,
            source: s,
            rest: r,
        } => (1, version, [d.start, d.end, s.start, s.end, r.start, r.end]),
        Header::Short {
            destination: d,
            rest: r,
        } => (2, 0, [d.start, d.end, 0, 0, r.start, r.end]),
        Header::VersionNegotiation {
            destination: d,
            source: s,
            list: l,
        } => (3, 0, [d.start, d.end, s.start, s.end, l.start, l.end]),
    }
}

/// The crate's own form of a header.
fn slices_of<'a>(datagram: &'a [u8], header: &Header) -> library::Header<'a> {
    match header.clone() {
        Header::Long {
            version,
            destination,
            source,
            rest,
        } => library::Header::Long {
            version,
            destination: &datagram[destination],
            source: &datagram[source],
            rest: &datagram[rest],
        },
        Header::Short { destination, rest } => library::Header::Short {
            destination: &datagram[destination],
            rest: &datagram[rest],
        },
        Header::VersionNegotiation {
            destination,
            source,
            list,
        } => library::Header::VersionNegotiation {
            destination: &datagram[destination],
            source: &datagram[source],
            list: &datagram[list],
        },
    }
}

pub fn check_read_header(datagram: &[u8], told: usize) -> Compared {
    let model = model::read_header(datagram, told);
    for found in FOUND {
        let before = (found, found, [usize::found(found); 6]);
        let (mut form, mut version, mut places) = before;
        let answer = raw::read_header(datagram, told, &mut form, &mut version, &mut places);
        let left = model.as_ref().map_or(before, places_of);
        same("answer", answer, number(&model))?;
        same("form, version, places", (form, version, places), left)?;
    }
    let answer = plain(library::read_header(datagram, told));
    let slices = model.as_ref().map(|header| slices_of(datagram, header));
    same("read_header", answer, slices.map_err(|no| *no))?;
    Ok(number(&model))
}

/// Bytes past the lent buffer, which nobody may write.
const GUARD: usize = 16;

/// A writer's calls on a buffer of `room` bytes: answer, count, and every byte of the buffer and
/// past it.
pub(super) fn check_writer(
    room: usize,
    model: &Result<Vec<u8>, u8>,
    write: &dyn Fn(&mut [u8], &mut usize) -> u32,
) -> Result<(), String> {
    for found in FOUND {
        let mut buffer: Vec<u8> = (0..room + GUARD)
            .map(|place| (place as u8).wrapping_mul(31) ^ found as u8)
            .collect();
        let mut left = buffer.clone();
        let (mut count, mut counted) = (usize::found(found), usize::found(found));
        if let Ok(bytes) = model {
            left[..bytes.len()].copy_from_slice(bytes);
            counted = bytes.len();
        }
        let answer = write(&mut buffer[..room], &mut count);
        same("answer", answer, number(model))?;
        same("count", count, counted)?;
        same_bytes("buffer", &buffer, &left)?;
    }
    Ok(())
}

/// The same writer of the crate's own interface: answer, count and every byte of the buffer.
pub(super) fn check_own_writer(
    room: usize,
    model: &Result<Vec<u8>, u8>,
    write: &dyn Fn(&mut [u8]) -> Result<usize, WriteRefusal>,
) -> Result<(), String> {
    let counted = model.as_ref().map(Vec::len).map_err(|no| *no);
    let mut buffer = vec![0x77; room];
    let answer = write(&mut buffer).map_err(WriteRefusal::number);
    same("answer of the crate", answer, counted)?;
    let mut left = vec![0x77; room];
    if let Ok(bytes) = model {
        left[..bytes.len()].copy_from_slice(bytes);
    }
    same_bytes("buffer of the crate", &buffer, &left)
}

/// The crate's own writers. With no reserved number the short one does the same.
pub fn check_write_version_negotiation(
    received: &[u8],
    offered: &[u32],
    reserved: &[u32],
    unused_bits: u8,
    room: usize,
) -> Compared {
    let model = model::version_negotiation(received, offered, reserved, unused_bits, room);
    check_writer(room, &model, &|buffer, count| {
        raw::write_version_negotiation(received, offered, reserved, unused_bits, buffer, count)
    })?;
    check_own_writer(room, &model, &|buffer| {
        library::write_version_negotiation_with_reserved(
            received,
            offered,
            reserved,
            unused_bits,
            buffer,
        )
    })?;
    if reserved.is_empty() {
        check_own_writer(room, &model, &|buffer| {
            library::write_version_negotiation(received, offered, unused_bits, buffer)
        })?;
    }
    Ok(number(&model))
}

// Version Information.

fn sender_of(sender: u32) -> Option<(model::Sender, Sender)> {
    match sender {
        0 => Some((model::Sender::Client, Sender::Client)),
        1 => Some((model::Sender::Server, Sender::Server)),
        _ => None,
    }
}

pub fn check_read_information(sender: u32, bytes: &[u8]) -> Compared {
    let known = sender_of(sender);
    let model = match known {
        Some((sender, _)) => model::read_information(sender, bytes),
        None => Err(255),
    };
    for found in FOUND {
        let before = (found, usize::found(found), usize::found(found));
        let (mut chosen, mut start, mut end) = before;
        let answer = raw::read_information(sender, bytes, &mut chosen, &mut start, &mut end);
        let left = match &model {
            Ok((chosen, list)) => (*chosen, list.start, list.end),
            Err(_) => before,
        };
        same("answer", answer, number(&model))?;
        same("chosen, start, end", (chosen, start, end), left)?;
    }
    if let Some((_, sender)) = known {
        let answer = library::read_information(sender, bytes)
            .map(|read| (read.chosen, library::versions(read.available).collect()));
        let entries = model
            .clone()
            .map(|(chosen, list)| (chosen, model::list_on_the_wire(&bytes[list])));
        same("read_information", plain(answer), entries)?;
    }
    Ok(number(&model))
}

pub fn check_write_information(
    sender: u32,
    chosen: u32,
    available: &[u32],
    room: usize,
) -> Compared {
    let known = sender_of(sender);
    let model = match known {
        Some((sender, _)) => model::information(sender, chosen, available, room),
        None => Err(255),
    };
    check_writer(room, &model, &|buffer, count| {
        raw::write_information(sender, chosen, available, buffer, count)
    })?;
    if let Some((_, sender)) = known {
        check_own_writer(room, &model, &|buffer| {
            library::write_information(sender, chosen, available, buffer)
        })?;
    }
    Ok(number(&model))
}

/// 0 is answered for every place; "seen" counts it as no refusal.
pub fn check_entry(list: &[u8], place: usize) -> Compared {
    let entries = model::list_on_the_wire(list);
    let entry = entries.get(place);
    for found in FOUND {
        let mut version = found;
        let answer = raw::entry(list, place, &mut version);
        same("answer", answer, u32::from(entry.is_some()))?;
        same("version", version, *entry.unwrap_or(&found))?;
    }
    let versions = library::versions(list);
    same("length of versions", versions.len(), entries.len())?;
    same("versions", versions.collect(), entries)?;
    Ok(0)
}
