//! Tables, pairs and choices.

use crate::ffi;
use crate::refusal::answer;
use crate::shown::Version;
use crate::Refusal;
use std::fmt;

/// A pair of compatible versions: a first flight in `from` can be converted to `to`. Or a pair that
/// is barred for the flights of one attempt, see [`Attempt::start_barring`]. Pairs are neither
/// turned round nor chained.
///
/// [`Attempt::start_barring`]: crate::Attempt::start_barring
#[repr(C)]
#[derive(Clone, Copy, PartialEq, Eq, Hash)]
pub struct Pair {
    /// The version of the first flight.
    pub from: u32,
    /// The version that it can be converted to, or cannot if the pair is barred.
    pub to: u32,
}

impl From<(u32, u32)> for Pair {
    fn from((from, to): (u32, u32)) -> Pair {
        Pair { from, to }
    }
}

impl fmt::Debug for Pair {
    fn fmt(&self, f: &mut fmt::Formatter<'_>) -> fmt::Result {
        f.debug_struct("Pair")
            .field("from", &Version(self.from))
            .field("to", &Version(self.to))
            .finish()
    }
}

/// Whether a version is reserved: 0x?a?a?a?a (RFC 9000 section 15).
#[inline]
pub fn is_reserved(version: u32) -> bool {
    ffi::is_reserved(version) == 1
}

/// Whether a table of versions keeps its rule: 1 to [`MAX_TABLE`](crate::MAX_TABLE) entries, none 0,
/// none reserved, none twice. Its order is preference, best first.
pub fn is_table(table: &[u32]) -> bool {
    ffi::is_table(table) == 1
}

/// Whether compatible pairs keep their rule: 0 to [`MAX_PAIRS`](crate::MAX_PAIRS) of them, no member
/// 0 or reserved, no pair of equal members. A repeated pair is harmless. Barred pairs have the same
/// rule.
pub fn are_pairs(pairs: &[Pair]) -> bool {
    ffi::are_pairs(pairs) == 1
}

/// The first entry of the table that occurs in the list.
///
/// # Errors
///
/// In this order:
/// - [`ListTooLong`](Refusal::ListTooLong) (40): the list has over 16,382 entries;
/// - [`BadTable`](Refusal::BadTable) (41): the table breaks its rule;
/// - [`NothingInCommon`](Refusal::NothingInCommon) (42): nothing of the table is in the list.
pub fn choose(table: &[u32], list: &[u32]) -> Result<u32, Refusal> {
    let mut version = 0;
    let number = ffi::choose(table, list, &mut version);
    answer(number, || version)
}

/// As [`choose`], from a list as it lies on the wire: four bytes for each version, big endian. One
/// to three bytes left over are no entry.
///
/// # Errors
///
/// Those of [`choose`], in the same order.
pub fn choose_from_bytes(table: &[u32], bytes: &[u8]) -> Result<u32, Refusal> {
    let mut version = 0;
    let number = ffi::choose_from_bytes(table, bytes, &mut version);
    answer(number, || version)
}

/// What a server does after a first flight.
#[derive(Clone, Copy, PartialEq, Eq, Hash)]
pub enum Decision {
    /// Send a Version Negotiation packet.
    Negotiate,
    /// Go on with this version.
    Use(u32),
}

impl fmt::Debug for Decision {
    fn fmt(&self, f: &mut fmt::Formatter<'_>) -> fmt::Result {
        match self {
            Decision::Negotiate => f.write_str("Negotiate"),
            Decision::Use(version) => f.debug_tuple("Use").field(&Version(*version)).finish(),
        }
    }
}

const MISSING: u32 = 0;
const GIVEN: u32 = 1;

/// The server's choice after a first flight in `version`. `readable` are the versions whose first
/// flights the server can read, `accepted` those that it accepts, best first. `information` is the
/// client's Version Information, `None` where it is missing.
///
/// The answer, after the refusals named first below:
/// - `version` is not readable: [`Decision::Negotiate`], and the information is not looked at;
/// - information is missing: `version` if it is accepted, else [`Decision::Negotiate`];
/// - else the first accepted version that is among the client's Available Versions and is Chosen
///   or is paired from Chosen; if there is none, [`Decision::Negotiate`].
///
/// # Errors
///
/// In this order:
/// - [`BadTable`](Refusal::BadTable) (41): one of the tables breaks its rule;
/// - [`BadPairs`](Refusal::BadPairs) (43): the pairs break theirs;
/// - 31 to 36, if `version` is readable and information is given: see
///   [`read_information`](crate::read_information);
/// - [`ChosenNotReceived`](Refusal::ChosenNotReceived) (51): Chosen is not `version`.
pub fn server_choice(
    readable: &[u32],
    accepted: &[u32],
    pairs: &[Pair],
    version: u32,
    information: Option<&[u8]>,
) -> Result<Decision, Refusal> {
    server_choice_barring(readable, accepted, pairs, &[], version, information)
}

/// As [`server_choice`], with versions that are barred for the flight at hand: its conversion to
/// them is not well defined, though they may be paired from `version` (RFC 9368 section 2.2). There
/// are up to [`MAX_BARRED`](crate::MAX_BARRED) of them, of any value: 0, reserved and repeated ones
/// are allowed, and those of no table.
///
/// The answer, after the refusals named first below:
/// - `version` is not readable: [`Decision::Negotiate`], and the information is not looked at;
/// - information is missing: `version` if it is accepted, else [`Decision::Negotiate`]. What is
///   barred has no effect;
/// - else the first accepted version that is among the client's Available Versions and either is
///   Chosen, or is paired from Chosen and not barred; if there is none, [`Decision::Negotiate`].
///   Chosen among the barred versions has no effect.
///
/// ```
/// # use quic_version::{server_choice, server_choice_barring, Decision, Pair};
/// // A client's Chosen Version 3, Available Versions 3 and 4. The server would rather use 4.
/// let information = Some(&[0, 0, 0, 3, 0, 0, 0, 3, 0, 0, 0, 4][..]);
/// let pairs = [Pair { from: 3, to: 4 }];
/// let decision = server_choice(&[3], &[4, 3], &pairs, 3, information)?;
/// assert_eq!(decision, Decision::Use(4));
/// // But this flight does not convert.
/// let decision = server_choice_barring(&[3], &[4, 3], &pairs, &[4], 3, information)?;
/// assert_eq!(decision, Decision::Use(3));
/// # Ok::<(), quic_version::Refusal>(())
/// ```
///
/// # Errors
///
/// In this order:
/// - [`BadTable`](Refusal::BadTable) (41): one of the tables breaks its rule;
/// - [`BadPairs`](Refusal::BadPairs) (43): the pairs break theirs, or over 64 versions are barred;
/// - 31 to 36, if `version` is readable and information is given: see
///   [`read_information`](crate::read_information);
/// - [`ChosenNotReceived`](Refusal::ChosenNotReceived) (51): Chosen is not `version`.
pub fn server_choice_barring(
    readable: &[u32],
    accepted: &[u32],
    pairs: &[Pair],
    barred: &[u32],
    version: u32,
    information: Option<&[u8]>,
) -> Result<Decision, Refusal> {
    let (presence, bytes) = match information {
        Some(bytes) => (GIVEN, bytes),
        None => (MISSING, &[][..]),
    };
    let mut decision = 0;
    let number = ffi::server_choice(
        readable,
        accepted,
        pairs,
        barred,
        version,
        presence,
        bytes,
        &mut decision,
    );
    answer(number, || match decision {
        0 => Decision::Negotiate,
        version => Decision::Use(version),
    })
}
