//! The QUIC version layer (RFC 8999, RFC 9368), proved.
//!
//! Both ends get a reader of datagram headers, a reader and a writer of Version Information, a reader
//! and a writer of the [`transport_parameters`] that carry it, the choice of a version from a list,
//! and lists as words ([`list_word`]). A server gets a writer of Version Negotiation packets, the
//! choice after a first flight, and a test of its configuration ([`ServerConfiguration`]). A client
//! gets an [`Attempt`], from its first version to its end, and what happened to it on the way
//! ([`Attempt::journal`]).
//! Where not every flight converts, though the versions are compatible, [`Attempt::start_barring`]
//! and [`server_choice_barring`] take what is barred (RFC 9368 section 2.2). Reserved numbers, to
//! test that the peer ignores them (RFC 9000 section 6.3), go out by [`Attempt::write_information`]
//! and [`write_version_negotiation_with_reserved`].
//!
//! The work is done by the static library of include/quic_version.h. Every function answers for
//! every input. A [`Refusal`] is one number of document 01's table, and so is a writer's
//! [`WriteRefusal`]; it carries no other value and leaves lent buffers as found.
//!
//! ```
//! use quic_version::{
//!     server_choice, write_information, write_version_negotiation, Attempt, Decision, End, Sender,
//!     MAX_INFORMATION, MAX_PACKET, MIN_ANSWERED_DATAGRAM, VERSION_1, VERSION_2,
//! };
//!
//! // A client that prefers version 2, and whose first flight goes out in it.
//! let versions = [VERSION_2, VERSION_1];
//! let mut attempt = Attempt::start(&versions, &[], VERSION_2, &[0xd1, 0xd2], &[0x51])?;
//! let mut first_flight = vec![0xc0, 0x6b, 0x33, 0x43, 0xcf, 2, 0xd1, 0xd2, 1, 0x51];
//! first_flight.resize(MIN_ANSWERED_DATAGRAM, 0); // Its protected rest, with padding.
//!
//! // A server that reads and accepts version 1 alone answers with Version Negotiation.
//! let table = [VERSION_1];
//! let decision = server_choice(&table, &table, &[], VERSION_2, None)?;
//! assert_eq!(decision, Decision::Negotiate);
//! let mut packet = [0; MAX_PACKET];
//! let count = write_version_negotiation(&first_flight, &table, 64, &mut packet)?;
//!
//! // The client acts on the packet: a new first flight, in version 1.
//! assert_eq!(attempt.datagram(&packet[..count])?, VERSION_1);
//! assert!(attempt.acted());
//! assert_eq!(*attempt.own_list(), [VERSION_1]);
//!
//! // The handshake, in version 1, authenticates the server's Version Information.
//! let mut information = [0; MAX_INFORMATION];
//! let count = write_information(Sender::Server, VERSION_1, &table, &mut information)?;
//! assert_eq!(attempt.outcome(VERSION_1, Some(&information[..count]))?, VERSION_1);
//! assert_eq!(attempt.end(), End::Completed(VERSION_1));
//! # Ok::<(), Box<dyn std::error::Error>>(())
//! ```

#![deny(missing_docs)]
#![deny(unsafe_code)]
#![deny(unsafe_op_in_unsafe_fn)]

mod attempt;
mod choice;
mod configuration;
#[allow(unsafe_code)]
mod ffi;
mod journal;
mod refusal;
mod shown;
pub mod transport_parameters;
mod wire;
mod words;

pub use attempt::{Attempt, End, OwnList, Reserved};
pub use choice::{
    are_pairs, choose, choose_from_bytes, is_reserved, is_table, server_choice,
    server_choice_barring, Decision, Pair,
};
pub use configuration::{ConfigurationFault, ServerConfiguration};
pub use journal::{Answer, Answers, Journal};
pub use refusal::{ConfigurationRefusal, Refusal, WriteRefusal};
pub use wire::{
    read_header, read_information, versions, write_information, write_version_negotiation,
    write_version_negotiation_with_reserved, Header, Information, Sender, Versions,
};
pub use words::{
    choose_by_word, choose_by_word_from_bytes, choose_from_word, count_held, count_held_from_bytes,
    list_word, list_word_from_bytes,
};

/// The walk-throughs of docs/INTEGRATION.md, so that they compile.
#[cfg(doctest)]
#[doc = include_str!("../../docs/INTEGRATION.md")]
mod walk_throughs {}

/// Version 1 (RFC 9000).
pub const VERSION_1: u32 = 0x0000_0001;
/// Version 2 (RFC 9369).
pub const VERSION_2: u32 = 0x6b33_43cf;

/// The release: this crate's version, and that of the library with it.
pub const RELEASE: &str = env!("CARGO_PKG_VERSION");
/// The interface that this crate is written for. With a library of another one it does not link.
pub const INTERFACE_VERSION: u32 = 9;
/// The most entries of a table of versions.
pub const MAX_TABLE: usize = ffi::MAX_TABLE;
/// The most pairs of a table of compatible pairs, and the most barred pairs.
pub const MAX_PAIRS: usize = 1_024;
/// The most barred versions of a server's choice.
pub const MAX_BARRED: usize = 64;
/// The most reserved numbers of a Version Negotiation packet, and of a client's list.
pub const MAX_RESERVED: usize = 4;
/// The most entries of a list to choose from.
pub const MAX_LIST: usize = 16_382;
/// The most bytes of an attempt's connection ID.
pub const MAX_ID: usize = ffi::MAX_ID;
/// The answers that a journal keeps.
pub const JOURNAL_PLACES: usize = ffi::JOURNAL_PLACES;
/// The most events that a journal counts.
pub const MAX_EVENTS: u32 = 4_294_967_295;
/// The most bytes of a datagram.
pub const MAX_DATAGRAM: usize = 65_535;
/// The most bytes of a connection ID on the wire (RFC 8999).
pub const MAX_CONNECTION_ID: usize = 255;
/// The fewest bytes of a datagram that is answered with a Version Negotiation packet (RFC 9000
/// section 14.1).
pub const MIN_ANSWERED_DATAGRAM: usize = 1_200;
/// The highest number for the unused bits of a Version Negotiation packet.
pub const MAX_UNUSED_BITS: u8 = 127;
/// The most bytes of Version Information.
pub const MAX_INFORMATION: usize = 1_024;
/// The most Available Versions.
pub const MAX_AVAILABLE: usize = 255;
/// The most bytes of a Version Negotiation packet that is written; a buffer of this size is never
/// too short.
pub const MAX_PACKET: usize = 7 + 2 * MAX_CONNECTION_ID + 4 * (MAX_TABLE + MAX_RESERVED);

/// The version of the library's interface: [`INTERFACE_VERSION`].
pub fn interface_version() -> u32 {
    ffi::interface_version()
}
