//! The model of bytes: datagram headers, Version Negotiation packets and
//! Version Information.

use super::choices::{is_table, set};
use super::reserved::may_be_sent;
use super::{MAX_AVAILABLE, MAX_DATAGRAM, MAX_INFORMATION};
use super::{MAX_UNUSED_BITS, MAX_WIRE_ID, MIN_ANSWERED};
use std::ops::Range;

/// "Numbers are big endian."
fn number(four: &[u8]) -> u32 {
    four.iter().fold(0, |n, byte| n * 256 + u32::from(*byte))
}

/// The versions that lie in whole fours of `bytes`; up to three bytes at the
/// end count for nothing.
pub fn list_on_the_wire(bytes: &[u8]) -> Vec<u32> {
    bytes.chunks_exact(4).map(number).collect()
}

pub(super) fn written(versions: &[u32]) -> Vec<u8> {
    versions.iter().flat_map(|v| v.to_be_bytes()).collect()
}

/// `bytes` in two parts, the first of `count` bytes; `None` when the field
/// "runs past the end".
pub(super) fn cut(bytes: &[u8], count: usize) -> Option<(&[u8], &[u8])> {
    if count <= bytes.len() {
        Some(bytes.split_at(count))
    } else {
        None
    }
}

/// A field with its length in one byte before it, and what follows.
fn cut_counted(bytes: &[u8]) -> Option<(&[u8], &[u8])> {
    let (count, after) = bytes.split_first()?;
    cut(after, usize::from(*count))
}

struct LongForm<'a> {
    version: u32,
    destination: &'a [u8],
    source: &'a [u8],
    rest: &'a [u8],
}

/// "Then 4 bytes of version, 1 byte destination ID length, that ID, 1 byte
/// source ID length, that ID, the rest."
fn long_form(after_first: &[u8]) -> Option<LongForm<'_>> {
    let (version, after) = cut(after_first, 4)?;
    let (destination, after) = cut_counted(after)?;
    let (source, rest) = cut_counted(after)?;
    Some(LongForm {
        version: number(version),
        destination,
        source,
        rest,
    })
}

// Datagram headers.

/// "The reader answers the form, the version and where each ID and the rest
/// lie." Ranges count from the datagram's first byte.
#[derive(Debug, Clone, PartialEq, Eq)]
pub enum Header {
    Long {
        version: u32,
        destination: Range<usize>,
        source: Range<usize>,
        rest: Range<usize>,
    },
    Short {
        destination: Range<usize>,
        rest: Range<usize>,
    },
    VersionNegotiation {
        destination: Range<usize>,
        source: Range<usize>,
        list: Range<usize>,
    },
}

/// 11, 12, 13. `told` is the destination ID's length in a short form; a long
/// form takes no notice of it.
pub fn read_header(datagram: &[u8], told: usize) -> Result<Header, u8> {
    let end = datagram.len();
    if end > MAX_DATAGRAM {
        return Err(11);
    }
    let (first, after_first) = datagram.split_first().ok_or(12)?;

    // "First byte below 128: short form. The destination ID follows at once."
    if *first < 128 {
        if told > MAX_WIRE_ID {
            return Err(12);
        }
        let (_, rest) = cut(after_first, told).ok_or(12)?;
        let rest = end - rest.len()..end;
        return Ok(Header::Short {
            destination: 1..rest.start,
            rest,
        });
    }

    // Places are counted back from the end, one field after the other.
    let long = long_form(after_first).ok_or(12)?;
    let rest = end - long.rest.len()..end;
    let source = rest.start - long.source.len()..rest.start;
    let source_length = source.start - 1;
    let destination = source_length - long.destination.len()..source_length;

    // "Long form with version 0: Version Negotiation. The rest is one or more
    // versions of 4 bytes, nothing over."
    if long.version == 0 {
        let entries = long.rest.chunks_exact(4);
        if long.rest.is_empty() || !entries.remainder().is_empty() {
            return Err(13);
        }
        return Ok(Header::VersionNegotiation {
            destination,
            source,
            list: rest,
        });
    }
    Ok(Header::Long {
        version: long.version,
        destination,
        source,
        rest,
    })
}

/// The packet the server sends back: 11, 12, 20 to 26, 28. `room` is the length
/// of the lent buffer; the answer's length is the byte count.
pub fn version_negotiation(
    received: &[u8],
    offered: &[u32],
    reserved: &[u32],
    unused_bits: u8,
    room: usize,
) -> Result<Vec<u8>, u8> {
    if received.len() > MAX_DATAGRAM {
        return Err(11);
    }
    let (first, after_first) = received.split_first().ok_or(12)?;
    // "packet to answer has the short form (12 is then judged for emptiness
    // only)"
    let long = match *first {
        0..=127 => None,
        _ => Some(long_form(after_first).ok_or(12)?),
    };
    // Document 02, C-13: "refuses with 20 when the received datagram is under
    // 1,200 bytes, judged after 11 and 12 and before 21"
    if received.len() < MIN_ANSWERED {
        return Err(20);
    }
    let long = long.ok_or(21)?;
    if long.version == 0 {
        return Err(22);
    }
    if !is_table(offered) {
        return Err(23);
    }
    if offered.contains(&long.version) {
        return Err(24);
    }
    if unused_bits > MAX_UNUSED_BITS {
        return Err(25);
    }
    // "first byte 128 plus that number, version 0, the received source ID as
    // destination, the received destination ID as source (each with its
    // length), then the offered table in its order". Document 02, C-18: "the
    // box's packet may end with up to four, in the order given".
    let packet = [
        vec![128 + unused_bits],
        written(&[0]),
        counted(long.source),
        counted(long.destination),
        written(offered),
        written(reserved),
    ]
    .concat();
    // Document 02, C-18: "26 and 37 count all given".
    if room < packet.len() {
        return Err(26);
    }
    // "Where a number is not reserved, is the version received (packet),
    // repeated, or there are over four"
    if !may_be_sent(reserved) || reserved.contains(&long.version) {
        return Err(28);
    }
    Ok(packet)
}

/// An ID of at most 255 bytes with its length before it.
fn counted(id: &[u8]) -> Vec<u8> {
    std::iter::once(id.len() as u8)
        .chain(id.iter().copied())
        .collect()
}

// Version Information.

#[derive(Debug, Clone, Copy, PartialEq, Eq)]
pub enum Sender {
    Client,
    Server,
}

/// 31 to 36. The answer is Chosen and where the Available list lies.
pub fn read_information(sender: Sender, bytes: &[u8]) -> Result<(u32, Range<usize>), u8> {
    let (chosen, available) = cut(bytes, 4).ok_or(31)?;
    if !bytes.chunks_exact(4).remainder().is_empty() {
        return Err(32);
    }
    if bytes.len() > MAX_INFORMATION {
        return Err(33);
    }
    let chosen = number(chosen);
    entries_allowed(sender, chosen, &list_on_the_wire(available))?;
    Ok((chosen, bytes.len() - available.len()..bytes.len()))
}

/// As `read_information`, with the Available Versions themselves.
pub(super) fn chosen_and_available(sender: Sender, bytes: &[u8]) -> Result<(u32, Vec<u32>), u8> {
    let (chosen, list) = read_information(sender, bytes)?;
    Ok((chosen, list_on_the_wire(&bytes[list])))
}

/// 34, 35, 36: "From a client, Chosen must be among Available. From a server
/// it need not be, and Available may be empty."
fn entries_allowed(sender: Sender, chosen: u32, available: &[u32]) -> Result<(), u8> {
    let available = set(available);
    if chosen == 0 {
        Err(34)
    } else if available.contains(&0) {
        Err(35)
    } else if sender == Sender::Client && !available.contains(&chosen) {
        Err(36)
    } else {
        Ok(())
    }
}

/// The writer: 33 to 37. `room` is the length of the lent buffer.
pub fn information(
    sender: Sender,
    chosen: u32,
    available: &[u32],
    room: usize,
) -> Result<Vec<u8>, u8> {
    if available.len() > MAX_AVAILABLE {
        return Err(33);
    }
    entries_allowed(sender, chosen, available)?;
    let bytes = [written(&[chosen]), written(available)].concat();
    if room < bytes.len() {
        return Err(37);
    }
    Ok(bytes)
}
