//! Variable-length integers and sequences of transport parameters.

use quic_version::transport_parameters::{
    MAX_INTEGER, MAX_PARAMETERS, MAX_SEQUENCE, VERSION_INFORMATION,
};

/// Value and width.
#[inline(never)]
pub fn read_integer(bytes: &[u8]) -> Result<(u64, usize), u8> {
    integer(bytes)
}

fn integer(bytes: &[u8]) -> Result<(u64, usize), u8> {
    let first = *bytes.first().ok_or(81)?;
    let width = 1 << (first / 64);
    let mut value = u64::from(first % 64);
    for byte in bytes.get(1..width).ok_or(81)? {
        value = value * 256 + u64::from(*byte);
    }
    Ok((value, width))
}

/// The shortest width.
fn width(value: u64) -> usize {
    if value < 1 << 6 {
        1
    } else if value < 1 << 14 {
        2
    } else if value < 1 << 30 {
        4
    } else {
        8
    }
}

#[inline(never)]
pub fn write_integer(value: u64, buffer: &mut [u8]) -> Result<usize, u8> {
    if value > MAX_INTEGER {
        return Err(83);
    }
    if buffer.len() < width(value) {
        return Err(84);
    }
    Ok(put(value, buffer))
}

/// Writes an integer for which there is room.
fn put(value: u64, buffer: &mut [u8]) -> usize {
    let width = width(value);
    match width {
        1 => buffer[0] = value as u8,
        2 => buffer[..2].copy_from_slice(&(value as u16 | 1 << 14).to_be_bytes()),
        4 => buffer[..4].copy_from_slice(&(value as u32 | 2 << 30).to_be_bytes()),
        _ => buffer[..8].copy_from_slice(&(value | 3 << 62).to_be_bytes()),
    }
    width
}

/// The parameter at a place: identifier, value, and where the next one begins.
fn parameter(sequence: &[u8], at: usize) -> Result<(u64, &[u8], usize), u8> {
    let (identifier, width) = integer(&sequence[at..])?;
    let at = at + width;
    let (length, width) = integer(&sequence[at..])?;
    let at = at + width;
    if ((sequence.len() - at) as u64) < length {
        return Err(81);
    }
    let end = at + length as usize;
    Ok((identifier, &sequence[at..end], end))
}

/// Only steps over the parameters, and counts them. Of an identifier it looks at the width alone:
/// with its value this takes a third to half as long again.
#[inline(never)]
pub fn step_over(sequence: &[u8]) -> Result<usize, u8> {
    let (mut at, mut count) = (0, 0);
    while at < sequence.len() {
        at += 1 << (sequence[at] / 64);
        let (length, width) = integer(sequence.get(at..).ok_or(81)?)?;
        at += width;
        if ((sequence.len() - at) as u64) < length {
            return Err(81);
        }
        at += length as usize;
        count += 1;
    }
    Ok(count)
}

/// Each identifier is compared with those before it. Where there are more than there may be, they
/// are sorted.
#[inline(never)]
pub fn find_version_information(sequence: &[u8]) -> Result<Option<&[u8]>, u8> {
    if sequence.len() > MAX_SEQUENCE {
        return Err(80);
    }
    let mut identifiers = [0; MAX_PARAMETERS];
    let (mut at, mut count) = (0, 0);
    let (mut found, mut is_repeated) = (None, false);
    while at < sequence.len() {
        let (identifier, value, next) = parameter(sequence, at)?;
        if count == MAX_PARAMETERS {
            return Err(too_many(sequence)?);
        }
        if identifiers[..count].contains(&identifier) {
            is_repeated = true;
        }
        if identifier == VERSION_INFORMATION {
            found = Some(value);
        }
        identifiers[count] = identifier;
        at = next;
        count += 1;
    }
    if is_repeated {
        return Err(82);
    }
    Ok(found)
}

/// The number for over 64 parameters: 81, 82 or 85.
fn too_many(sequence: &[u8]) -> Result<u8, u8> {
    let mut identifiers = Vec::new();
    let mut at = 0;
    while at < sequence.len() {
        let (identifier, _, next) = parameter(sequence, at)?;
        identifiers.push(identifier);
        at = next;
    }
    identifiers.sort_unstable();
    let is_repeated = identifiers.windows(2).any(|two| two[0] == two[1]);
    Ok(if is_repeated { 82 } else { 85 })
}

/// The bytes of a parameter in its shortest form.
fn size(identifier: u64, value: &[u8]) -> usize {
    width(identifier) + width(value.len() as u64) + value.len()
}

#[inline(never)]
pub fn write_version_information(old: &[u8], value: &[u8], buffer: &mut [u8]) -> Result<usize, u8> {
    let is_missing = find_version_information(old)?.is_none();
    let (mut at, mut parameters, mut length) = (0, 0, 0);
    while at < old.len() {
        let (identifier, kept, next) = parameter(old, at)?;
        length += if identifier == VERSION_INFORMATION {
            size(identifier, value)
        } else {
            size(identifier, kept)
        };
        at = next;
        parameters += 1;
    }
    if is_missing {
        length += size(VERSION_INFORMATION, value);
        parameters += 1;
    }
    if length > MAX_SEQUENCE {
        return Err(80);
    }
    if buffer.len() < length {
        return Err(84);
    }
    if parameters > MAX_PARAMETERS {
        return Err(85);
    }
    let (mut at, mut count) = (0, 0);
    while at < old.len() {
        let (identifier, kept, next) = parameter(old, at)?;
        count += if identifier == VERSION_INFORMATION {
            put_parameter(identifier, value, &mut buffer[count..])
        } else {
            put_parameter(identifier, kept, &mut buffer[count..])
        };
        at = next;
    }
    if is_missing {
        count += put_parameter(VERSION_INFORMATION, value, &mut buffer[count..]);
    }
    Ok(count)
}

/// Writes a parameter for which there is room.
fn put_parameter(identifier: u64, value: &[u8], buffer: &mut [u8]) -> usize {
    let mut count = put(identifier, buffer);
    count += put(value.len() as u64, &mut buffer[count..]);
    buffer[count..count + value.len()].copy_from_slice(value);
    count + value.len()
}
