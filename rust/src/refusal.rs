//! Refusals: the numbers of document 01's table, which document 02's join, each with its one cause.
//!
//! Two types, since a close code belongs to the number and the call: 33 to 36, 80 to 82 and 85 close
//! with 0x08 when a reader gives them, and close nothing when a writer does. The test of a server's
//! configuration, which closes nothing either, has a third.

use crate::ffi;
use std::error::Error;
use std::fmt;

/// The words of a number. They stand here alone: documentation and `Display` take them from here,
/// and tests/words.rs compares the C header's with them.
#[rustfmt::skip]
macro_rules! words {
    (11) => { "the datagram has over 65,535 bytes" };
    (12) => { "the datagram is empty, a field runs past its end, or a told length is over 255" };
    (13) => { "the Version Negotiation list is empty, or bytes are left over" };
    (20) => { "the datagram to answer has under 1,200 bytes" };
    (21) => { "the packet to answer has the short form" };
    (22) => { "the packet to answer has version 0" };
    (23) => { "the offered table breaks its rule" };
    (24) => { "the received version is in the offered table" };
    (25) => { "the unused bits are over 127" };
    (26) => { "the buffer is shorter than the packet" };
    (28) => { "a number after the offered table is not reserved, is repeated or is the version received, or over four are given" };
    (31) => { "the Version Information has under 4 bytes" };
    (32) => { "the length of the Version Information is not a multiple of four" };
    (33) => { "the Version Information has over 1,024 bytes, or over 255 Available Versions" };
    (34) => { "the Chosen Version is 0" };
    (35) => { "an Available Version is 0" };
    (36) => { "a client's Chosen Version is not among its Available Versions" };
    (37) => { "the buffer is shorter than the Version Information" };
    (40) => { "the list to choose from has over 16,382 entries" };
    (41) => { "a table of versions breaks its rule" };
    (42) => { "nothing of the table is in the list" };
    (43) => { "the compatible or barred pairs break their rule, or over 64 versions are barred" };
    (44) => { "the Original Version is not in the table" };
    (45) => { "a connection ID has over 20 bytes" };
    (47) => { "a number for the own list is not reserved or is repeated, a place is taken twice or is past the end, or over four are given" };
    (51) => { "the Chosen Version is not the version of the first flight" };
    (61) => { "the datagram is no readable Version Negotiation packet" };
    (62) => { "the attempt has ended, or acted or heard before this Version Negotiation packet" };
    (63) => { "the connection IDs of the packet are not ours, swapped" };
    (64) => { "the packet lists the Original Version" };
    (65) => { "the packet lists no version of ours; the attempt has ended" };
    (71) => { "Version Information is missing after Version Negotiation, and version 1 is not attempted" };
    (72) => { "the Chosen Version is not in our own list" };
    (73) => { "the Chosen Version, or the attempted one where it is missing, is not the version in use" };
    (74) => { "the server's Available Versions are empty after Version Negotiation" };
    (75) => { "the server's Available Versions lead to another choice than the attempted version" };
    (80) => { "the sequence of transport parameters has over 16,384 bytes" };
    (81) => { "a field of the transport parameters, or an integer, runs past the end" };
    (82) => { "an identifier occurs twice among the transport parameters" };
    (83) => { "the integer to write is over 2^62 - 1" };
    (84) => { "the buffer is shorter than the integer or the transport parameters to write" };
    (85) => { "there are over 64 transport parameters" };
    (255) => { "an unknown kind, or a record that could not be an attempt's" };
}

/// A type of refusals: its numbers, each under a name for its cause.
macro_rules! refusals {
    ($(#[$about:meta])* $type:ident { $($number:tt $name:ident,)* }) => {
        $(#[$about])*
        #[derive(Clone, Copy, Debug, PartialEq, Eq, PartialOrd, Ord, Hash)]
        #[non_exhaustive]
        #[repr(u8)]
        pub enum $type {
            $(#[doc = concat!(stringify!($number), ": ", words!($number), ".")] $name = $number,)*
        }

        impl $type {
            /// The refusal with this number, `None` where this type has none.
            pub fn from_number(number: u8) -> Option<$type> {
                match number {
                    $($number => Some($type::$name),)*
                    _ => None,
                }
            }

            /// Document 01's number, as the C header has it.
            pub fn number(self) -> u8 {
                self as u8
            }

            pub(crate) fn in_words(self) -> &'static str {
                match self {
                    $($type::$name => words!($number),)*
                }
            }

            /// The refusal that the library answered. A number that this type does not have counts
            /// as `NotValid`; the library answers none such.
            pub(crate) fn answered(number: u32) -> $type {
                let known = u8::try_from(number).ok().and_then($type::from_number);
                debug_assert!(known.is_some(), "no refusal here has the number {}", number);
                known.unwrap_or($type::NotValid)
            }
        }

        impl fmt::Display for $type {
            /// The cause in words, and the number.
            fn fmt(&self, f: &mut fmt::Formatter<'_>) -> fmt::Result {
                write!(f, "{} ({})", self.in_words(), self.number())
            }
        }

        impl Error for $type {}
    };
}

refusals! {
    /// Why an answer is no: the number in document 01's table under a name for its cause. Writers
    /// have a type of their own, [`WriteRefusal`].
    ///
    /// [`NotValid`](Refusal::NotValid) is the one number outside document 01's table. This crate
    /// hands over no unknown kind and no record but an attempt's, so it does not occur.
    Refusal {
        11 DatagramTooLong,
        12 Truncated,
        13 ListNotWhole,
        31 InformationTooShort,
        32 InformationNotInFours,
        33 InformationTooLong,
        34 ChosenIsZero,
        35 AvailableHoldsZero,
        36 ChosenNotAvailable,
        40 ListTooLong,
        41 BadTable,
        42 NothingInCommon,
        43 BadPairs,
        44 OriginalNotInTable,
        45 ConnectionIdTooLong,
        51 ChosenNotReceived,
        61 NotVersionNegotiation,
        62 TooLate,
        63 OtherConnection,
        64 ListsOriginal,
        65 NoVersionLeft,
        71 InformationMissing,
        72 ChosenNotOurs,
        73 ChosenNotInUse,
        74 AvailableEmpty,
        75 Downgraded,
        80 SequenceTooLong,
        81 RunsPastTheEnd,
        82 IdentifierRepeated,
        85 TooManyParameters,
        255 NotValid,
    }
}

refusals! {
    /// Why a writer wrote nothing: the number in document 01's table under a name for its cause.
    ///
    /// It closes nothing: it is about what the caller wants to send, or says that a received
    /// datagram gets no Version Negotiation packet. So it has no close code, and does not turn into
    /// a [`Refusal`], which may have one:
    ///
    /// ```
    /// # use quic_version::{write_information, Sender};
    /// let mut buffer = [0; 8];
    /// let refusal = write_information(Sender::Client, 1, &[2], &mut buffer).unwrap_err();
    /// assert_eq!(refusal.number(), 36);
    /// ```
    ///
    /// ```compile_fail,E0599
    /// # use quic_version::{write_information, Sender};
    /// let mut buffer = [0; 8];
    /// let refusal = write_information(Sender::Client, 1, &[2], &mut buffer).unwrap_err();
    /// assert_eq!(refusal.close_code(), None);
    /// ```
    ///
    /// ```compile_fail,E0277
    /// # use quic_version::{write_information, Refusal, Sender};
    /// # fn written() -> Result<usize, Refusal> {
    /// let mut buffer = [0; 8];
    /// let count = write_information(Sender::Client, 1, &[2], &mut buffer)?;
    /// # Ok(count)
    /// # }
    /// ```
    ///
    /// [`NotValid`](WriteRefusal::NotValid) is the one number outside document 01's table. This
    /// crate hands over no unknown sender and no record but an attempt's, so it does not occur.
    WriteRefusal {
        11 DatagramTooLong,
        12 Truncated,
        20 DatagramTooSmall,
        21 ShortForm,
        22 VersionNegotiationReceived,
        23 BadOfferedTable,
        24 ReceivedVersionOffered,
        25 UnusedBitsTooLarge,
        26 NoRoomForPacket,
        28 BadReservedInPacket,
        33 InformationTooLong,
        34 ChosenIsZero,
        35 AvailableHoldsZero,
        36 ChosenNotAvailable,
        37 NoRoomForInformation,
        47 BadReservedInList,
        80 SequenceTooLong,
        81 RunsPastTheEnd,
        82 IdentifierRepeated,
        83 IntegerTooLarge,
        84 NoRoomToWrite,
        85 TooManyParameters,
        255 NotValid,
    }
}

refusals! {
    /// Why a server's configuration was not judged (see
    /// [`ServerConfiguration`](crate::ServerConfiguration)): the number in document 01's table under
    /// a name for its cause. It is about this side alone, so it has no close code.
    ///
    /// [`NotValid`](ConfigurationRefusal::NotValid) does not occur, as with [`Refusal`].
    ConfigurationRefusal {
        23 BadOfferedTable,
        33 InformationTooLong,
        41 BadTable,
        43 BadPairs,
        255 NotValid,
    }
}

/// `QV_CALL_READING`: a reader, the server's choice or an event.
const READING: u32 = 0;

impl Refusal {
    /// The code to close the connection with: 0x08, TRANSPORT_PARAMETER_ERROR (RFC 9000 section
    /// 20.1), for 31 to 36, 80 to 82 and 85; 0x11, VERSION_NEGOTIATION_ERROR (RFC 9368 section
    /// 10.2), for 51 and 71 to 75; `None` for all others.
    pub fn close_code(self) -> Option<u64> {
        match ffi::close_code(u32::from(self.number()), READING) {
            0 => None,
            code => Some(code),
        }
    }
}

/// The answer of a call: 0 is no refusal, and then `value` is what it left.
pub(crate) fn answer<T>(number: u32, value: impl FnOnce() -> T) -> Result<T, Refusal> {
    if number == 0 {
        Ok(value())
    } else {
        Err(Refusal::answered(number))
    }
}

/// The answer of a writer: 0 is no refusal, and then `count` is what it left.
pub(crate) fn written(number: u32, count: usize) -> Result<usize, WriteRefusal> {
    if number == 0 {
        Ok(count)
    } else {
        Err(WriteRefusal::answered(number))
    }
}
