//! The model of variable-length integers, and of the sequence of transport parameters with Version
//! Information in it (document 02, C-11).
//!
//! Integers are multiplied and divided, the parameters of a sequence are a list, and their
//! identifiers a set. Quotes are C-11's, or RFC 9000's where they say so.

use super::wire::cut;
use super::{MAX_INTEGER, MAX_PARAMETERS, MAX_SEQUENCE, VERSION_INFORMATION};
use std::collections::HashSet;
use std::ops::Range;

/// RFC 9000 section 16, table 4: the two most significant bits, the length in bytes, the usable
/// bits.
const WIDTHS: [(u8, usize, u32); 4] = [(0, 1, 6), (1, 2, 14), (2, 4, 30), (3, 8, 62)];

/// The integer at the front of the bytes, and the length that it was written in: "The reader takes
/// any of the four widths". 81.
pub fn read_integer(bytes: &[u8]) -> Result<(u64, usize), u8> {
    let first = *bytes.first().ok_or(81)?;
    // RFC 9000 section 16: "the two most significant bits of the first byte" are the "base-2
    // logarithm of the integer encoding length in bytes"
    let (_, width, bits) = WIDTHS[usize::from(first / 64)];
    let (field, _) = cut(bytes, width).ok_or(81)?;
    // "The integer value is encoded on the remaining bits, in network byte order."
    let all = field.iter().fold(0, |n, byte| n * 256 + u64::from(*byte));
    Ok((all % 2_u64.pow(bits), width))
}

/// "the writer uses the shortest form that holds it". 83, 84. `room` is the length of the lent
/// buffer; the answer's length is the byte count.
pub fn write_integer(value: u64, room: usize) -> Result<Vec<u8>, u8> {
    if value > MAX_INTEGER {
        return Err(83);
    }
    let bytes = shortest(value);
    if room < bytes.len() {
        return Err(84);
    }
    Ok(bytes)
}

/// The shortest form of an integer that one of the widths holds.
fn shortest(value: u64) -> Vec<u8> {
    let holds = |width: &&(u8, usize, u32)| value < 2_u64.pow(width.2);
    let (top, width, _) = WIDTHS.iter().find(holds).unwrap();
    let byte = |place| (value / 256_u64.pow(place as u32) % 256) as u8;
    let mut bytes: Vec<u8> = (0..*width).rev().map(byte).collect();
    bytes[0] += top * 64;
    bytes
}

/// "identifier, length, value". Where the value lies is counted from the sequence's first byte.
struct Parameter {
    identifier: u64,
    value: Range<usize>,
}

/// The parameters of a sequence. 81: "a field runs past the end".
fn fields(sequence: &[u8]) -> Result<Vec<Parameter>, u8> {
    let mut parameters = Vec::new();
    let mut rest = sequence;
    while !rest.is_empty() {
        let (identifier, width) = read_integer(rest)?;
        let after = &rest[width..];
        let (length, width) = read_integer(after)?;
        let after = &after[width..];
        let length = usize::try_from(length).or(Err(81))?;
        let (value, after) = cut(after, length).ok_or(81)?;
        let end = sequence.len() - after.len();
        parameters.push(Parameter {
            identifier,
            value: end - value.len()..end,
        });
        rest = after;
    }
    Ok(parameters)
}

/// The parameters of a sequence, judged as a whole for each number, "lowest first": 80, 81, 82, 85.
fn parameters(sequence: &[u8]) -> Result<Vec<Parameter>, u8> {
    if sequence.len() > MAX_SEQUENCE {
        return Err(80);
    }
    let parameters = fields(sequence)?;
    // "an identifier occurs twice"
    let identifiers: HashSet<u64> = parameters.iter().map(|p| p.identifier).collect();
    if identifiers.len() < parameters.len() {
        return Err(82);
    }
    if parameters.len() > MAX_PARAMETERS {
        return Err(85);
    }
    Ok(parameters)
}

/// "The reader answers where our value lies, or that it is missing, and doesn't judge it; unknown
/// ones are stepped over." 80, 81, 82, 85.
pub fn read_parameters(sequence: &[u8]) -> Result<Option<Range<usize>>, u8> {
    let mut parameters = parameters(sequence)?.into_iter();
    let ours = parameters.find(|p| p.identifier == VERSION_INFORMATION);
    Ok(ours.map(|p| p.value))
}

/// "The writer takes the old sequence and our value's bytes". For the old sequence 80, 81, 82, 85,
/// "then for the new": 80, 84, 85. `room` is the length of the lent buffer; the answer's length is
/// the byte count.
pub fn write_parameters(old: &[u8], value: &[u8], room: usize) -> Result<Vec<u8>, u8> {
    let kept = parameters(old)?.into_iter();
    let mut new: Vec<(u64, &[u8])> = kept.map(|p| (p.identifier, &old[p.value])).collect();
    // "the other values and the order stay, and ours replaces the old one or goes last"
    match new.iter_mut().find(|(id, _)| *id == VERSION_INFORMATION) {
        Some(ours) => ours.1 = value,
        None => new.push((VERSION_INFORMATION, value)),
    }
    let mut bytes = Vec::new();
    for (id, value) in &new {
        bytes.extend(shortest(*id));
        bytes.extend(shortest(value.len() as u64));
        bytes.extend(*value);
    }
    if bytes.len() > MAX_SEQUENCE {
        Err(80)
    } else if room < bytes.len() {
        Err(84)
    } else if new.len() > MAX_PARAMETERS {
        Err(85)
    } else {
        Ok(bytes)
    }
}
