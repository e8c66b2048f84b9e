//! Bytes as they lie on the wire, put together as asked, well formed or not.

/// A long form; an ID's length byte holds its length modulo 256.
pub fn long_packet(
    first: u8,
    version: u32,
    destination: &[u8],
    source: &[u8],
    rest: &[u8],
) -> Vec<u8> {
    let mut packet = vec![first | 128];
    packet.extend(version.to_be_bytes());
    packet.push(destination.len() as u8);
    packet.extend(destination);
    packet.push(source.len() as u8);
    packet.extend(source);
    packet.extend(rest);
    packet
}

pub fn in_fours(versions: &[u32]) -> Vec<u8> {
    versions.iter().flat_map(|v| v.to_be_bytes()).collect()
}

/// Version Information: Chosen, then the Available Versions.
pub fn information(chosen: u32, available: &[u32]) -> Vec<u8> {
    [in_fours(&[chosen]), in_fours(available)].concat()
}

/// The widths of a variable-length integer.
pub const WIDTHS: [usize; 4] = [1, 2, 4, 8];

/// The bits of an integer in a width: all but the two that tell the width.
pub fn bits_of(width: usize) -> u32 {
    8 * width as u32 - 2
}

/// The least width that holds an integer below 2^62; 8 for others.
pub fn least_width(value: u64) -> usize {
    let holds = |width: &&usize| value >> bits_of(**width) == 0;
    *WIDTHS.iter().find(holds).unwrap_or(&8)
}

/// A variable-length integer in this width, which holds it.
pub fn integer_in(value: u64, width: usize) -> Vec<u8> {
    let width_bits = u64::from(width.trailing_zeros()) << bits_of(width);
    (width_bits | value).to_be_bytes()[8 - width..].to_vec()
}

/// A transport parameter, with the widths of its identifier and of its length.
#[derive(Debug, Clone, PartialEq, Eq)]
pub struct Parameter {
    pub identifier: u64,
    pub value: Vec<u8>,
    pub widths: (usize, usize),
}

impl Parameter {
    /// Both integers in their least widths.
    pub fn shortest(identifier: u64, value: Vec<u8>) -> Self {
        Parameter {
            identifier,
            widths: (least_width(identifier), least_width(value.len() as u64)),
            value,
        }
    }
}

/// A sequence of transport parameters.
pub fn in_sequence(parameters: &[Parameter]) -> Vec<u8> {
    let mut sequence = Vec::new();
    for p in parameters {
        sequence.extend(integer_in(p.identifier, p.widths.0));
        sequence.extend(integer_in(p.value.len() as u64, p.widths.1));
        sequence.extend(&p.value);
    }
    sequence
}
