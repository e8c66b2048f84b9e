//! Headers, Version Negotiation packets and Version Information.

use super::choices::{is_reserved, is_table};
use super::{lists, number};
use quic_version::{
    MAX_AVAILABLE, MAX_CONNECTION_ID, MAX_DATAGRAM, MAX_INFORMATION, MAX_RESERVED, MAX_UNUSED_BITS,
    MIN_ANSWERED_DATAGRAM,
};

#[derive(Clone, Copy)]
pub struct Header<'a> {
    /// None in a short form.
    pub version: Option<u32>,
    pub destination: &'a [u8],
    pub source: &'a [u8],
    pub rest: &'a [u8],
}

/// A long form, whatever its version.
fn long_form(datagram: &[u8]) -> Result<(u32, Header<'_>), u8> {
    let version = number(datagram.get(1..5).ok_or(12)?);
    let length = usize::from(*datagram.get(5).ok_or(12)?);
    let destination = datagram.get(6..6 + length).ok_or(12)?;
    let at = 6 + length;
    let length = usize::from(*datagram.get(at).ok_or(12)?);
    let source = datagram.get(at + 1..at + 1 + length).ok_or(12)?;
    let header = Header {
        version: Some(version),
        destination,
        source,
        rest: &datagram[at + 1 + length..],
    };
    Ok((version, header))
}

#[inline(never)]
pub fn read_header(datagram: &[u8], told: usize) -> Result<Header<'_>, u8> {
    if datagram.len() > MAX_DATAGRAM {
        return Err(11);
    }
    let first = *datagram.first().ok_or(12)?;
    if first < 128 {
        if told > MAX_CONNECTION_ID || datagram.len() < 1 + told {
            return Err(12);
        }
        return Ok(Header {
            version: None,
            destination: &datagram[1..1 + told],
            source: &[],
            rest: &datagram[1 + told..],
        });
    }
    let (version, header) = long_form(datagram)?;
    if version == 0 && (header.rest.is_empty() || header.rest.len() % 4 != 0) {
        return Err(13);
    }
    Ok(header)
}

#[inline]
pub fn write_version_negotiation(
    received: &[u8],
    offered: &[u32],
    unused_bits: u8,
    buffer: &mut [u8],
) -> Result<usize, u8> {
    write_version_negotiation_with_reserved(received, offered, &[], unused_bits, buffer)
}

/// Whether these numbers may end a packet that answers one of this version.
fn may_end(reserved: &[u32], version: u32) -> bool {
    if reserved.len() > MAX_RESERVED {
        return false;
    }
    for (place, number) in reserved.iter().enumerate() {
        let is_known = *number == version || reserved[..place].contains(number);
        if is_known || !is_reserved(*number) {
            return false;
        }
    }
    true
}

#[inline(never)]
pub fn write_version_negotiation_with_reserved(
    received: &[u8],
    offered: &[u32],
    reserved: &[u32],
    unused_bits: u8,
    buffer: &mut [u8],
) -> Result<usize, u8> {
    if received.len() > MAX_DATAGRAM {
        return Err(11);
    }
    let is_short = *received.first().ok_or(12)? < 128;
    if received.len() < MIN_ANSWERED_DATAGRAM {
        if !is_short {
            long_form(received)?;
        }
        return Err(20);
    }
    if is_short {
        return Err(21);
    }
    let (version, header) = long_form(received)?;
    if version == 0 {
        return Err(22);
    }
    if !is_table(offered) {
        return Err(23);
    }
    if offered.contains(&version) {
        return Err(24);
    }
    if unused_bits > MAX_UNUSED_BITS {
        return Err(25);
    }
    // The received IDs swapped.
    let (to, from) = (header.source, header.destination);
    let count = 7 + to.len() + from.len() + 4 * (offered.len() + reserved.len());
    if buffer.len() < count {
        return Err(26);
    }
    if !may_end(reserved, version) {
        return Err(28);
    }
    buffer[0] = 128 + unused_bits;
    buffer[1..5].copy_from_slice(&[0; 4]);
    buffer[5] = to.len() as u8;
    buffer[6..6 + to.len()].copy_from_slice(to);
    let at = 6 + to.len();
    buffer[at] = from.len() as u8;
    buffer[at + 1..at + 1 + from.len()].copy_from_slice(from);
    let at = at + 1 + from.len();
    in_fours(offered, &mut buffer[at..]);
    in_fours(reserved, &mut buffer[at + 4 * offered.len()..]);
    Ok(count)
}

fn in_fours(versions: &[u32], buffer: &mut [u8]) {
    for (place, version) in buffer.chunks_exact_mut(4).zip(versions) {
        place.copy_from_slice(&version.to_be_bytes());
    }
}

#[inline(never)]
pub fn read_information(client: bool, bytes: &[u8]) -> Result<(u32, &[u8]), u8> {
    if bytes.len() < 4 {
        return Err(31);
    }
    if bytes.len() % 4 != 0 {
        return Err(32);
    }
    if bytes.len() > MAX_INFORMATION {
        return Err(33);
    }
    let (chosen, available) = (number(bytes), &bytes[4..]);
    if chosen == 0 {
        return Err(34);
    }
    if lists(available, 0) {
        return Err(35);
    }
    if client && !lists(available, chosen) {
        return Err(36);
    }
    Ok((chosen, available))
}

#[inline(never)]
pub fn write_information(
    client: bool,
    chosen: u32,
    available: &[u32],
    buffer: &mut [u8],
) -> Result<usize, u8> {
    if available.len() > MAX_AVAILABLE {
        return Err(33);
    }
    if chosen == 0 {
        return Err(34);
    }
    if available.contains(&0) {
        return Err(35);
    }
    if client && !available.contains(&chosen) {
        return Err(36);
    }
    let count = 4 + 4 * available.len();
    if buffer.len() < count {
        return Err(37);
    }
    buffer[..4].copy_from_slice(&chosen.to_be_bytes());
    in_fours(available, &mut buffer[4..]);
    Ok(count)
}
