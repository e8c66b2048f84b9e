//! The test of a server's configuration.

use crate::ffi;
use crate::shown::{List, Version};
use crate::{ConfigurationRefusal, Pair};
use std::error::Error;
use std::fmt;

/// The lists that a server is configured with. [`ServerConfiguration::check`] tests them.
///
/// The safe rule: accepted, offered and Available hold the same versions, and each of them is
/// readable. Readable may hold more. The order of a list does not matter, nor do repeats in
/// `available`. What is barred is told with each flight, see
/// [`server_choice_barring`](crate::server_choice_barring), and is no part of it.
///
/// What the rule is good for, as long as the configuration does not change:
/// - a client that uses this library, and that nobody attacks, completes, or gets 65 because there
///   is nothing in common;
/// - whatever Version Negotiation packet a client acted on, forged or not: if it completes with
///   this server's Version Information, it attempted what it chooses from all that is offered.
///
/// ```
/// use quic_version::{ConfigurationFault, Pair, ServerConfiguration, VERSION_1, VERSION_2};
///
/// let table = [VERSION_2, VERSION_1];
/// let server = ServerConfiguration {
///     readable: &table,
///     accepted: &table,
///     offered: &table,
///     available: &table,
///     pairs: &[Pair { from: VERSION_1, to: VERSION_2 }],
/// };
/// assert_eq!(server.check(), Ok(()));
///
/// // Version 2 is accepted through the pair, but is not offered.
/// let server = ServerConfiguration {
///     offered: &[VERSION_1],
///     available: &[VERSION_1],
///     ..server
/// };
/// let fault = server.check().unwrap_err();
/// assert_eq!(fault, ConfigurationFault::AcceptedNotOffered(VERSION_2));
/// assert_eq!(fault.to_string(), "an accepted version is not offered: 0x6b3343cf");
/// ```
#[derive(Clone, Copy, PartialEq, Eq)]
pub struct ServerConfiguration<'a> {
    /// The versions whose first flights the server can read.
    pub readable: &'a [u32],
    /// Those that it accepts, best first.
    pub accepted: &'a [u32],
    /// Those that it offers in Version Negotiation packets.
    pub offered: &'a [u32],
    /// Those that it lists as Available Versions: at most [`MAX_AVAILABLE`](crate::MAX_AVAILABLE).
    pub available: &'a [u32],
    /// Its compatible pairs.
    pub pairs: &'a [Pair],
}

impl ServerConfiguration<'_> {
    /// Tests the configuration. A server asks once, before it serves anybody, and serves nobody
    /// where it is not safe.
    ///
    /// # Errors
    ///
    /// First [`ConfigurationFault::Refused`], where a list breaks a rule of its own. In this order:
    /// - [`BadOfferedTable`](ConfigurationRefusal::BadOfferedTable) (23): the offered table breaks its rule;
    /// - [`InformationTooLong`](ConfigurationRefusal::InformationTooLong) (33): over 255 Available Versions;
    /// - [`BadTable`](ConfigurationRefusal::BadTable) (41): the table of readable or of accepted versions
    ///   breaks its rule;
    /// - [`BadPairs`](ConfigurationRefusal::BadPairs) (43): the pairs break theirs.
    ///
    /// Then the first part of the safe rule that is broken, in the order of [`ConfigurationFault`],
    /// with the first version that breaks it, in the order of the list that the part names first.
    pub fn check(&self) -> Result<(), ConfigurationFault> {
        let (mut part, mut version) = (0, 0);
        let number = ffi::judge_configuration(
            self.readable,
            self.accepted,
            self.offered,
            self.available,
            self.pairs,
            &mut part,
            &mut version,
        );
        if number != 0 {
            return Err(ConfigurationFault::Refused(ConfigurationRefusal::answered(
                number,
            )));
        }
        match part {
            0 => Ok(()),
            1 => Err(ConfigurationFault::AcceptedNotOffered(version)),
            2 => Err(ConfigurationFault::OfferedNotAccepted(version)),
            3 => Err(ConfigurationFault::OfferedNotReadable(version)),
            4 => Err(ConfigurationFault::AvailableNotOffered(version)),
            5 => Err(ConfigurationFault::OfferedNotAvailable(version)),
            // The library answers no other part; none that is unknown is safe.
            _ => Err(ConfigurationFault::Refused(ConfigurationRefusal::NotValid)),
        }
    }
}

impl fmt::Debug for ServerConfiguration<'_> {
    fn fmt(&self, f: &mut fmt::Formatter<'_>) -> fmt::Result {
        f.debug_struct("ServerConfiguration")
            .field("readable", &List(self.readable))
            .field("accepted", &List(self.accepted))
            .field("offered", &List(self.offered))
            .field("available", &List(self.available))
            .field("pairs", &self.pairs)
            .finish()
    }
}

/// Why a server's configuration is not safe: a list breaks a rule of its own, or a part of the safe
/// rule is broken, by a version. It is a fault on this side, so it has no close code.
#[derive(Clone, Copy, PartialEq, Eq, Hash)]
pub enum ConfigurationFault {
    /// A list breaks a rule of its own, and the safe rule was not looked at.
    Refused(ConfigurationRefusal),
    /// An accepted version is not offered.
    AcceptedNotOffered(u32),
    /// An offered version is not accepted.
    OfferedNotAccepted(u32),
    /// An offered version is not readable.
    OfferedNotReadable(u32),
    /// An Available Version is not offered. It can be 0 or a reserved number.
    AvailableNotOffered(u32),
    /// An offered version is not among the Available Versions.
    OfferedNotAvailable(u32),
}

impl ConfigurationFault {
    /// The name of the fault, and of a broken part its words, which tests/words.rs compares the C
    /// header's with, and the version.
    fn shown(&self) -> Result<(&'static str, &'static str, u32), ConfigurationRefusal> {
        Ok(match *self {
            ConfigurationFault::Refused(refusal) => return Err(refusal),
            ConfigurationFault::AcceptedNotOffered(version) => (
                "AcceptedNotOffered",
                "an accepted version is not offered",
                version,
            ),
            ConfigurationFault::OfferedNotAccepted(version) => (
                "OfferedNotAccepted",
                "an offered version is not accepted",
                version,
            ),
            ConfigurationFault::OfferedNotReadable(version) => (
                "OfferedNotReadable",
                "an offered version is not readable",
                version,
            ),
            ConfigurationFault::AvailableNotOffered(version) => (
                "AvailableNotOffered",
                "an Available Version is not offered",
                version,
            ),
            ConfigurationFault::OfferedNotAvailable(version) => (
                "OfferedNotAvailable",
                "an offered version is not among the Available Versions",
                version,
            ),
        })
    }
}

impl fmt::Debug for ConfigurationFault {
    fn fmt(&self, f: &mut fmt::Formatter<'_>) -> fmt::Result {
        match self.shown() {
            Ok((name, _, version)) => f.debug_tuple(name).field(&Version(version)).finish(),
            Err(refusal) => f.debug_tuple("Refused").field(&refusal).finish(),
        }
    }
}

impl fmt::Display for ConfigurationFault {
    /// The part that is broken, in words, and the version in hexadecimal; or the refusal.
    fn fmt(&self, f: &mut fmt::Formatter<'_>) -> fmt::Result {
        match self.shown() {
            Ok((_, words, version)) => write!(f, "{}: {:?}", words, Version(version)),
            Err(refusal) => refusal.fmt(f),
        }
    }
}

impl Error for ConfigurationFault {}
