//! Version Information in the handshake: the sequence of transport parameters (RFC 9000 section
//! 18), and the variable-length integers that it is made of (RFC 9000 section 16).
//!
//! A sequence is what the QUIC transport parameters extension of TLS carries: for each parameter
//! its identifier, the length of its value, and the value. This module finds and puts one of them,
//! Version Information, which has the identifier [`VERSION_INFORMATION`]. It does not judge its
//! value: that is for [`read_information`](crate::read_information), an
//! [outcome](crate::Attempt::outcome) and [`server_choice`](crate::server_choice). The values of
//! all other parameters are stepped over when a sequence is read, and copied when one is written.
//!
//! ```
//! use quic_version::transport_parameters::{find_version_information, write_version_information};
//! use quic_version::{read_information, write_information, Sender, MAX_INFORMATION};
//! use quic_version::{VERSION_1, VERSION_2};
//!
//! // What the stack has: max_idle_timeout, 10000 ms, and an empty initial_source_connection_id.
//! let own = [0x01, 0x02, 0x67, 0x10, 0x0f, 0x00];
//! assert_eq!(find_version_information(&own)?, None);
//!
//! // A client puts its Version Information behind them.
//! let mut information = [0; MAX_INFORMATION];
//! let versions = [VERSION_2, VERSION_1];
//! let count = write_information(Sender::Client, VERSION_1, &versions, &mut information)?;
//! let information = &information[..count];
//! let mut sequence = [0; 256];
//! let count = write_version_information(&own, information, &mut sequence)?;
//! let sequence = &sequence[..count];
//! assert_eq!(sequence[..8], [0x01, 0x02, 0x67, 0x10, 0x0f, 0x00, 0x11, 12]);
//!
//! // A server finds it there, and reads it.
//! let found = find_version_information(sequence)?.expect("it was written");
//! assert_eq!(found, information);
//! assert_eq!(read_information(Sender::Client, found)?.chosen, VERSION_1);
//! # Ok::<(), Box<dyn std::error::Error>>(())
//! ```

use crate::ffi;
use crate::refusal::{answer, written};
use crate::{Refusal, WriteRefusal};

/// The most bytes of a sequence of transport parameters.
pub const MAX_SEQUENCE: usize = 16_384;
/// The most parameters of a sequence.
pub const MAX_PARAMETERS: usize = 64;
/// The largest variable-length integer: 2^62 - 1.
pub const MAX_INTEGER: u64 = (1 << 62) - 1;
/// The identifier of Version Information (RFC 9368 section 10.1).
pub const VERSION_INFORMATION: u64 = 0x11;

/// A variable-length integer that was read.
#[derive(Clone, Copy, Debug, PartialEq, Eq, Hash)]
pub struct Integer {
    /// The integer, at most [`MAX_INTEGER`].
    pub value: u64,
    /// The bytes that it takes: 1, 2, 4 or 8.
    pub width: usize,
}

/// Reads the variable-length integer at the front of the bytes, in any of the four widths. What
/// follows it is not looked at.
///
/// ```
/// use quic_version::transport_parameters::{read_integer, Integer};
///
/// assert_eq!(read_integer(&[0x25])?, Integer { value: 37, width: 1 });
/// assert_eq!(read_integer(&[0x40, 0x25])?, Integer { value: 37, width: 2 });
/// assert_eq!(read_integer(&[0x7b, 0xbd, 0xff])?, Integer { value: 15_293, width: 2 });
/// # Ok::<(), quic_version::Refusal>(())
/// ```
///
/// # Errors
///
/// - [`RunsPastTheEnd`](Refusal::RunsPastTheEnd) (81): there are fewer bytes than its width, or
///   none.
#[inline]
pub fn read_integer(bytes: &[u8]) -> Result<Integer, Refusal> {
    let (mut value, mut width) = (0, 0);
    let number = ffi::read_integer(bytes, &mut value, &mut width);
    answer(number, || Integer { value, width })
}

/// Writes a variable-length integer in the shortest width that holds it. The answer is the count of
/// bytes written, 1, 2, 4 or 8; bytes of the buffer past it keep their values.
///
/// ```
/// use quic_version::transport_parameters::write_integer;
///
/// let mut buffer = [0xff; 3];
/// assert_eq!(write_integer(37, &mut buffer)?, 1);
/// assert_eq!(buffer, [0x25, 0xff, 0xff]);
/// assert_eq!(write_integer(15_293, &mut buffer)?, 2);
/// assert_eq!(buffer, [0x7b, 0xbd, 0xff]);
/// # Ok::<(), quic_version::WriteRefusal>(())
/// ```
///
/// # Errors
///
/// They leave the buffer as found, and close nothing. In this order:
/// - [`IntegerTooLarge`](WriteRefusal::IntegerTooLarge) (83): it is over [`MAX_INTEGER`];
/// - [`NoRoomToWrite`](WriteRefusal::NoRoomToWrite) (84): the buffer is shorter than its width.
#[inline]
pub fn write_integer(value: u64, buffer: &mut [u8]) -> Result<usize, WriteRefusal> {
    let mut count = 0;
    let number = ffi::write_integer(value, buffer, &mut count);
    written(number, count)
}

/// The value of Version Information in a sequence of transport parameters, or `None` where it is
/// missing. The value is not judged.
///
/// An identifier is a number: `05` and `40 05` are the same. An empty sequence is one in which
/// Version Information is missing.
///
/// # Errors
///
/// Each closes with 0x08, TRANSPORT_PARAMETER_ERROR. The whole sequence is judged for each before
/// the next, in this order:
/// - [`SequenceTooLong`](Refusal::SequenceTooLong) (80): over 16,384 bytes ([`MAX_SEQUENCE`]);
/// - [`RunsPastTheEnd`](Refusal::RunsPastTheEnd) (81): an identifier, a length or a value runs past
///   the end;
/// - [`IdentifierRepeated`](Refusal::IdentifierRepeated) (82): an identifier occurs twice;
/// - [`TooManyParameters`](Refusal::TooManyParameters) (85): over 64 parameters
///   ([`MAX_PARAMETERS`]).
#[inline]
pub fn find_version_information(sequence: &[u8]) -> Result<Option<&[u8]>, Refusal> {
    let (mut found, mut start, mut end) = (0, 0, 0);
    let number = ffi::read_parameters(sequence, &mut found, &mut start, &mut end);
    answer(number, || match found {
        0 => None,
        _ => Some(&sequence[start..end]),
    })
}

/// Writes a sequence of transport parameters anew, with `value` as its Version Information: in the
/// place of the old one, or last where that is missing. The other parameters keep their values and
/// their order. Every identifier and every length is written in the shortest width, so the new
/// sequence can be shorter than the old one. `value` is not judged.
///
/// The answer is the count of bytes written, at most [`MAX_SEQUENCE`]; bytes of the buffer past it
/// keep their values.
///
/// ```
/// use quic_version::transport_parameters::{find_version_information, write_version_information};
///
/// // Three parameters, the middle one ours, with widths that are not the shortest.
/// let old = [0x40, 0x05, 0x01, 0xa1, 0x11, 0x40, 0x01, 0xb1, 0x0f, 0x00];
/// let mut buffer = [0xff; 12];
/// let count = write_version_information(&old, &[0xc1, 0xc2], &mut buffer)?;
/// assert_eq!(buffer[..count], [0x05, 0x01, 0xa1, 0x11, 0x02, 0xc1, 0xc2, 0x0f, 0x00]);
/// assert_eq!(buffer[count..], [0xff; 3]);
/// assert_eq!(find_version_information(&buffer[..count])?, Some(&[0xc1, 0xc2][..]));
/// # Ok::<(), Box<dyn std::error::Error>>(())
/// ```
///
/// # Errors
///
/// They leave the buffer as found, and close nothing. Of the old sequence, in this order:
/// - [`SequenceTooLong`](WriteRefusal::SequenceTooLong) (80): over 16,384 bytes ([`MAX_SEQUENCE`]);
/// - [`RunsPastTheEnd`](WriteRefusal::RunsPastTheEnd) (81): an identifier, a length or a value runs
///   past the end;
/// - [`IdentifierRepeated`](WriteRefusal::IdentifierRepeated) (82): an identifier occurs twice;
/// - [`TooManyParameters`](WriteRefusal::TooManyParameters) (85): over 64 parameters
///   ([`MAX_PARAMETERS`]).
///
/// Then of the new one, in this order:
/// - [`SequenceTooLong`](WriteRefusal::SequenceTooLong) (80): over 16,384 bytes;
/// - [`NoRoomToWrite`](WriteRefusal::NoRoomToWrite) (84): the buffer is shorter than it;
/// - [`TooManyParameters`](WriteRefusal::TooManyParameters) (85): it would have 65 parameters.
#[inline]
pub fn write_version_information(
    old: &[u8],
    value: &[u8],
    buffer: &mut [u8],
) -> Result<usize, WriteRefusal> {
    let mut count = 0;
    let number = ffi::write_parameters(old, value, buffer, &mut count);
    written(number, count)
}
