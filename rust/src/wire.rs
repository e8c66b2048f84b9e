//! Datagram headers, Version Negotiation packets and Version Information.

use crate::ffi;
use crate::refusal::{answer, written};
use crate::shown::{OnTheWire, Version};
use crate::{Refusal, WriteRefusal};
use std::fmt;
use std::iter::FusedIterator;

/// The parts of a datagram that RFC 8999 fixes for every version.
#[derive(Clone, Copy, PartialEq, Eq)]
pub enum Header<'a> {
    /// A long form with a version other than 0.
    Long {
        /// The version.
        version: u32,
        /// The destination connection ID.
        destination: &'a [u8],
        /// The source connection ID.
        source: &'a [u8],
        /// What follows.
        rest: &'a [u8],
    },
    /// A short form.
    Short {
        /// The destination connection ID, of the told length.
        destination: &'a [u8],
        /// What follows.
        rest: &'a [u8],
    },
    /// A Version Negotiation packet.
    VersionNegotiation {
        /// The destination connection ID.
        destination: &'a [u8],
        /// The source connection ID.
        source: &'a [u8],
        /// The versions as they lie on the wire; [`versions`] reads them.
        list: &'a [u8],
    },
}

impl fmt::Debug for Header<'_> {
    fn fmt(&self, f: &mut fmt::Formatter<'_>) -> fmt::Result {
        match self {
            Header::Long {
                version,
                destination,
                source,
                rest,
            } => f
                .debug_struct("Long")
                .field("version", &Version(*version))
                .field("destination", destination)
                .field("source", source)
                .field("rest", rest)
                .finish(),
            Header::Short { destination, rest } => f
                .debug_struct("Short")
                .field("destination", destination)
                .field("rest", rest)
                .finish(),
            Header::VersionNegotiation {
                destination,
                source,
                list,
            } => f
                .debug_struct("VersionNegotiation")
                .field("destination", destination)
                .field("source", source)
                .field("list", &OnTheWire(list))
                .finish(),
        }
    }
}

/// `QV_LONG` and `QV_SHORT`; the third form is Version Negotiation.
const LONG: u32 = 1;
const SHORT: u32 = 2;

/// Reads the header of a datagram. `told` is the length of a short form's destination ID; a long
/// form ignores it.
///
/// # Errors
///
/// In this order:
/// - [`DatagramTooLong`](Refusal::DatagramTooLong) (11): over 65,535 bytes;
/// - [`Truncated`](Refusal::Truncated) (12): empty, a field runs past the end, or a short form's
///   told length is over 255;
/// - [`ListNotWhole`](Refusal::ListNotWhole) (13): a Version Negotiation list is empty, or bytes
///   are left over.
#[inline]
pub fn read_header(datagram: &[u8], told: usize) -> Result<Header<'_>, Refusal> {
    let (mut form, mut version, mut places) = (0, 0, [0; 6]);
    let number = ffi::read_header(datagram, told, &mut form, &mut version, &mut places);
    if number != 0 {
        return Err(Refusal::answered(number));
    }
    let [from, to, source_from, source_to, rest_from, rest_to] = places;
    let destination = &datagram[from..to];
    let rest = &datagram[rest_from..rest_to];
    if form == SHORT {
        return Ok(Header::Short { destination, rest });
    }
    let source = &datagram[source_from..source_to];
    if form == LONG {
        return Ok(Header::Long {
            version,
            destination,
            source,
            rest,
        });
    }
    Ok(Header::VersionNegotiation {
        destination,
        source,
        list: rest,
    })
}

/// The versions of a list as it lies on the wire. [`versions`] makes it.
#[derive(Clone)]
pub struct Versions<'a> {
    list: &'a [u8],
    place: usize,
}

/// The versions of a list as it lies on the wire: four bytes for each, big endian. One to three
/// bytes left over are no entry.
pub fn versions(list: &[u8]) -> Versions<'_> {
    Versions { list, place: 0 }
}

impl Iterator for Versions<'_> {
    type Item = u32;

    fn next(&mut self) -> Option<u32> {
        let mut version = 0;
        if ffi::entry(self.list, self.place, &mut version) == 0 {
            return None;
        }
        self.place += 1;
        Some(version)
    }

    fn size_hint(&self) -> (usize, Option<usize>) {
        let left = self.list.len() / 4 - self.place;
        (left, Some(left))
    }
}

impl ExactSizeIterator for Versions<'_> {}
impl FusedIterator for Versions<'_> {}

impl fmt::Debug for Versions<'_> {
    /// Those that are still to come.
    fn fmt(&self, f: &mut fmt::Formatter<'_>) -> fmt::Result {
        let left = &self.list[4 * self.place..];
        f.debug_tuple("Versions").field(&OnTheWire(left)).finish()
    }
}

/// Writes the Version Negotiation packet that answers a received datagram: the received IDs
/// swapped, then the offered table in its order. The answer is the count of bytes written, at most
/// [`MAX_PACKET`](crate::MAX_PACKET) and never more than were received; bytes of the buffer past it
/// keep their values. [`write_version_negotiation_with_reserved`] puts reserved numbers at its end.
///
/// `received` is the whole datagram as it came, not one packet of it: its length is judged.
///
/// # Errors
///
/// They leave the buffer as found, and close nothing. In this order:
/// - [`DatagramTooLong`](WriteRefusal::DatagramTooLong) (11): over 65,535 bytes were received;
/// - [`Truncated`](WriteRefusal::Truncated) (12): the datagram is empty, or a field of a long form
///   runs past its end;
/// - [`DatagramTooSmall`](WriteRefusal::DatagramTooSmall) (20): it has under 1,200 bytes
///   ([`MIN_ANSWERED_DATAGRAM`](crate::MIN_ANSWERED_DATAGRAM)), whatever its form;
/// - [`ShortForm`](WriteRefusal::ShortForm) (21): it has the short form;
/// - [`VersionNegotiationReceived`](WriteRefusal::VersionNegotiationReceived) (22): it has version
///   0;
/// - [`BadOfferedTable`](WriteRefusal::BadOfferedTable) (23): the offered table breaks its rule;
/// - [`ReceivedVersionOffered`](WriteRefusal::ReceivedVersionOffered) (24): the received version is
///   offered;
/// - [`UnusedBitsTooLarge`](WriteRefusal::UnusedBitsTooLarge) (25): `unused_bits` is over 127;
/// - [`NoRoomForPacket`](WriteRefusal::NoRoomForPacket) (26): the buffer is shorter than the
///   packet.
pub fn write_version_negotiation(
    received: &[u8],
    offered: &[u32],
    unused_bits: u8,
    buffer: &mut [u8],
) -> Result<usize, WriteRefusal> {
    write_version_negotiation_with_reserved(received, offered, &[], unused_bits, buffer)
}

/// As [`write_version_negotiation`], with reserved numbers after the offered table, in the order
/// given: they test that a client ignores versions that it does not know (RFC 9000 section 6.3).
/// There are up to [`MAX_RESERVED`](crate::MAX_RESERVED) of them, none twice, none the version
/// received.
///
/// ```
/// # use quic_version::{versions, write_version_negotiation_with_reserved, MAX_PACKET};
/// // A first flight in version 12, from connection ID cc to aa bb.
/// let mut received = vec![0xc0, 0, 0, 0, 12, 2, 0xaa, 0xbb, 1, 0xcc, 0xff];
/// received.resize(1_200, 0);
/// let (offered, reserved) = ([14, 13], [0x1a2a_3a4a]);
/// let mut packet = [0; MAX_PACKET];
/// let count =
///     write_version_negotiation_with_reserved(&received, &offered, &reserved, 64, &mut packet)?;
/// assert!(versions(&packet[10..count]).eq([14, 13, 0x1a2a_3a4a]));
/// # Ok::<(), quic_version::WriteRefusal>(())
/// ```
///
/// # Errors
///
/// They leave the buffer as found, and close nothing. In this order:
/// - 11, 12 and 20 to 25, as [`write_version_negotiation`];
/// - [`NoRoomForPacket`](WriteRefusal::NoRoomForPacket) (26): the buffer is shorter than the
///   packet, with all numbers given, however many;
/// - [`BadReservedInPacket`](WriteRefusal::BadReservedInPacket) (28): a number is not reserved, is
///   the version received or is repeated, or over four are given.
pub fn write_version_negotiation_with_reserved(
    received: &[u8],
    offered: &[u32],
    reserved: &[u32],
    unused_bits: u8,
    buffer: &mut [u8],
) -> Result<usize, WriteRefusal> {
    let mut count = 0;
    let number = ffi::write_version_negotiation(
        received,
        offered,
        reserved,
        unused_bits,
        buffer,
        &mut count,
    );
    written(number, count)
}

/// Who sends Version Information. From a client, Chosen must be among Available; from a server it
/// need not be, and Available may be empty.
#[derive(Clone, Copy, Debug, PartialEq, Eq, Hash)]
pub enum Sender {
    /// A client.
    Client,
    /// A server.
    Server,
}

impl Sender {
    fn number(self) -> u32 {
        match self {
            Sender::Client => 0,
            Sender::Server => 1,
        }
    }
}

/// Version Information (RFC 9368 section 3) that was read.
#[derive(Clone, Copy, PartialEq, Eq)]
pub struct Information<'a> {
    /// The Chosen Version.
    pub chosen: u32,
    /// The Available Versions as they lie on the wire; [`versions`] reads them.
    pub available: &'a [u8],
}

impl fmt::Debug for Information<'_> {
    fn fmt(&self, f: &mut fmt::Formatter<'_>) -> fmt::Result {
        f.debug_struct("Information")
            .field("chosen", &Version(self.chosen))
            .field("available", &OnTheWire(self.available))
            .finish()
    }
}

/// Reads Version Information.
///
/// # Errors
///
/// In this order:
/// - [`InformationTooShort`](Refusal::InformationTooShort) (31): under 4 bytes;
/// - [`InformationNotInFours`](Refusal::InformationNotInFours) (32): the length is not a multiple
///   of four;
/// - [`InformationTooLong`](Refusal::InformationTooLong) (33): over 1,024 bytes;
/// - [`ChosenIsZero`](Refusal::ChosenIsZero) (34): Chosen is 0;
/// - [`AvailableHoldsZero`](Refusal::AvailableHoldsZero) (35): an Available Version is 0;
/// - [`ChosenNotAvailable`](Refusal::ChosenNotAvailable) (36), from a client only: Chosen is not
///   among Available.
pub fn read_information(sender: Sender, bytes: &[u8]) -> Result<Information<'_>, Refusal> {
    let (mut chosen, mut start, mut end) = (0, 0, 0);
    let number = ffi::read_information(sender.number(), bytes, &mut chosen, &mut start, &mut end);
    answer(number, || Information {
        chosen,
        available: &bytes[start..end],
    })
}

/// Writes Version Information. The answer is the count of bytes written, at most
/// [`MAX_INFORMATION`](crate::MAX_INFORMATION); bytes of the buffer past it keep their values.
///
/// # Errors
///
/// They leave the buffer as found, and close nothing. In this order:
/// - [`InformationTooLong`](WriteRefusal::InformationTooLong) (33): over 255 Available Versions;
/// - [`ChosenIsZero`](WriteRefusal::ChosenIsZero) (34): Chosen is 0;
/// - [`AvailableHoldsZero`](WriteRefusal::AvailableHoldsZero) (35): an Available Version is 0;
/// - [`ChosenNotAvailable`](WriteRefusal::ChosenNotAvailable) (36), from a client only: Chosen is
///   not among Available;
/// - [`NoRoomForInformation`](WriteRefusal::NoRoomForInformation) (37): the buffer is too short.
pub fn write_information(
    sender: Sender,
    chosen: u32,
    available: &[u32],
    buffer: &mut [u8],
) -> Result<usize, WriteRefusal> {
    let mut count = 0;
    let number = ffi::write_information(sender.number(), chosen, available, buffer, &mut count);
    written(number, count)
}
