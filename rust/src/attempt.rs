//! The client's attempt, from its first version to its end.

use crate::ffi::{self, Record, JOURNAL_PLACES, MAX_TABLE};
use crate::refusal::{answer, written};
use crate::shown::{List, Version};
use crate::{Journal, Pair, Refusal, WriteRefusal};
use std::fmt;
use std::ops::Deref;

/// The kinds of an event.
const DATAGRAM: u32 = 0;
const PACKET_PROCESSED: u32 = 1;
const OUTCOME: u32 = 2;
const OUTCOME_WITHOUT_INFORMATION: u32 = 3;

/// The end marks of a record; any other mark than these is an open attempt's.
const COMPLETED: u32 = 1;
const CLOSED: u32 = 2;

/// How an attempt stands.
#[derive(Clone, Copy, PartialEq, Eq, Hash)]
pub enum End {
    /// It has not ended.
    Open,
    /// It has completed with this version in use.
    Completed(u32),
    /// It has closed for this reason.
    Closed(Refusal),
}

impl fmt::Debug for End {
    fn fmt(&self, f: &mut fmt::Formatter<'_>) -> fmt::Result {
        match self {
            End::Open => f.write_str("Open"),
            End::Completed(version) => f
                .debug_tuple("Completed")
                .field(&Version(*version))
                .finish(),
            End::Closed(refusal) => f.debug_tuple("Closed").field(refusal).finish(),
        }
    }
}

/// A reserved number for the list that a client sends, and its place there, counted from 0. See
/// [`Attempt::write_information`].
#[repr(C)]
#[derive(Clone, Copy, PartialEq, Eq, Hash)]
pub struct Reserved {
    /// The number: 0x?a?a?a?a (RFC 9000 section 15).
    pub number: u32,
    /// Its place in the list as it is sent.
    pub place: u32,
}

impl fmt::Debug for Reserved {
    fn fmt(&self, f: &mut fmt::Formatter<'_>) -> fmt::Result {
        f.debug_struct("Reserved")
            .field("number", &Version(self.number))
            .field("place", &self.place)
            .finish()
    }
}

/// One attempt of a client: its table, pairs, barred pairs, Original Version and connection IDs,
/// the version that it attempts now, its end, and its journal.
///
/// Only [`Attempt::start`] and [`Attempt::start_barring`] make one and only its events change it,
/// so that every attempt is what the proofs are about. It holds no pointer and no lock; one thread
/// at a time may change it.
///
/// Every event notes its answer in the [`Attempt::journal`], a refused one too. So an event that
/// "changes the journal alone" leaves all else as found, and two attempts are equal only where
/// their journals are.
#[derive(Clone, PartialEq, Eq)]
pub struct Attempt {
    // What a start handed back, changed since by events alone.
    record: Record,
}

impl Attempt {
    /// Starts an attempt. `table` is best first; `original` is the version of the first flight;
    /// `destination` and `source` are the connection IDs that the first flight goes out with (0 to
    /// 20 bytes each; empty or equal ones are allowed).
    ///
    /// The attempt is open and attempts `original`. Its journal is empty: what happened to an
    /// earlier attempt goes with that.
    ///
    /// # Errors
    ///
    /// There is then no attempt. In this order:
    /// - [`BadTable`](Refusal::BadTable) (41): the table breaks its rule;
    /// - [`BadPairs`](Refusal::BadPairs) (43): the pairs break theirs;
    /// - [`OriginalNotInTable`](Refusal::OriginalNotInTable) (44);
    /// - [`ConnectionIdTooLong`](Refusal::ConnectionIdTooLong) (45): an ID has over 20 bytes.
    pub fn start(
        table: &[u32],
        pairs: &[Pair],
        original: u32,
        destination: &[u8],
        source: &[u8],
    ) -> Result<Attempt, Refusal> {
        Attempt::start_barring(table, pairs, &[], original, destination, source)
    }

    /// As [`Attempt::start`], with pairs that are barred for this attempt's flights: versions may
    /// be compatible, and yet the conversion of a flight not be well defined (RFC 9368 section
    /// 2.2). [`Attempt::own_list`] leaves out what they bar, and an outcome's
    /// [`ChosenNotOurs`](Refusal::ChosenNotOurs) (72) is judged by that shorter list.
    ///
    /// Barred pairs have the pairs' rule, see [`are_pairs`](crate::are_pairs). Like pairs they are
    /// neither turned round nor chained, and are read for the version that is attempted at the
    /// time, which need not be the Original Version. One that is not among the pairs has no effect.
    ///
    /// ```
    /// # use quic_version::{Attempt, Pair};
    /// let pairs = [Pair { from: 1, to: 2 }, Pair { from: 1, to: 3 }];
    /// let attempt = Attempt::start(&[3, 2, 1], &pairs, 1, &[0xd1], &[0x51])?;
    /// assert_eq!(*attempt.own_list(), [3, 2, 1]);
    /// let barred = [Pair { from: 1, to: 3 }];
    /// let attempt = Attempt::start_barring(&[3, 2, 1], &pairs, &barred, 1, &[0xd1], &[0x51])?;
    /// assert_eq!(*attempt.own_list(), [2, 1]);
    /// # Ok::<(), quic_version::Refusal>(())
    /// ```
    ///
    /// # Errors
    ///
    /// There is then no attempt. In this order:
    /// - [`BadTable`](Refusal::BadTable) (41): the table breaks its rule;
    /// - [`BadPairs`](Refusal::BadPairs) (43): the pairs or the barred pairs break theirs;
    /// - [`OriginalNotInTable`](Refusal::OriginalNotInTable) (44);
    /// - [`ConnectionIdTooLong`](Refusal::ConnectionIdTooLong) (45): an ID has over 20 bytes.
    pub fn start_barring(
        table: &[u32],
        pairs: &[Pair],
        barred: &[Pair],
        original: u32,
        destination: &[u8],
        source: &[u8],
    ) -> Result<Attempt, Refusal> {
        let started = ffi::start(table, pairs, barred, original, destination, source);
        answer(started.refusal, || Attempt {
            record: started.attempt,
        })
    }

    /// A datagram came. The answer is the version to attempt now: start a new first flight in it,
    /// with [`Attempt::own_list`] as Available Versions.
    ///
    /// # Errors
    ///
    /// The first four change the journal alone. In this order:
    /// - [`NotVersionNegotiation`](Refusal::NotVersionNegotiation) (61): any other packet. Hand it
    ///   on to packet protection if it has the short form, or a version of the own list;
    /// - [`TooLate`](Refusal::TooLate) (62): the attempt has ended, or acted or heard before;
    /// - [`OtherConnection`](Refusal::OtherConnection) (63): the packet's IDs are not ours, swapped;
    /// - [`ListsOriginal`](Refusal::ListsOriginal) (64): the packet lists the Original Version;
    /// - [`NoVersionLeft`](Refusal::NoVersionLeft) (65), which ends the attempt: nothing in common.
    pub fn datagram(&mut self, datagram: &[u8]) -> Result<u32, Refusal> {
        let number = ffi::event(&mut self.record, DATAGRAM, 0, datagram);
        answer(number, || self.record.attempted)
    }

    /// A genuine packet other than Version Negotiation was processed (document 01's "heard"). Later
    /// Version Negotiation packets are ignored (RFC 9000 section 6.2). Only the caller can vouch
    /// that the packet is genuine.
    ///
    /// # Errors
    ///
    /// [`TooLate`](Refusal::TooLate) (62), which changes the journal alone: the attempt has ended.
    /// Twice on an open attempt is no refusal.
    pub fn packet_processed(&mut self) -> Result<(), Refusal> {
        let number = ffi::event(&mut self.record, PACKET_PROCESSED, 0, &[]);
        answer(number, || ())
    }

    /// The handshake ended with the version `in_use` and the server's Version Information, `None`
    /// where it is missing. The answer is the version in use: the attempt has completed. Only the
    /// caller can vouch that the handshake authenticated the information.
    ///
    /// # Errors
    ///
    /// The first changes the journal alone, all others end the attempt: close the connection with
    /// [`Refusal::close_code`]. In this order:
    /// - [`TooLate`](Refusal::TooLate) (62): it has ended before;
    /// - 31 to 35: the information is malformed, see [`read_information`](crate::read_information);
    /// - [`InformationMissing`](Refusal::InformationMissing) (71): acted, and information is
    ///   missing; not for attempted version 1, which reads Chosen 1, Available 1 in its place
    ///   (RFC 9368 section 8);
    /// - [`ChosenNotOurs`](Refusal::ChosenNotOurs) (72): Chosen is not in the own list;
    /// - [`ChosenNotInUse`](Refusal::ChosenNotInUse) (73): Chosen is not `in_use`; if information
    ///   is missing and the attempt never acted, the attempted version is not `in_use`;
    /// - [`AvailableEmpty`](Refusal::AvailableEmpty) (74): acted, and Available is empty;
    /// - [`Downgraded`](Refusal::Downgraded) (75): acted, and the choice from Available plus
    ///   `in_use` is not the attempted version.
    pub fn outcome(&mut self, in_use: u32, information: Option<&[u8]>) -> Result<u32, Refusal> {
        let (kind, bytes) = match information {
            Some(bytes) => (OUTCOME, bytes),
            None => (OUTCOME_WITHOUT_INFORMATION, &[][..]),
        };
        let number = ffi::event(&mut self.record, kind, in_use, bytes);
        answer(number, || self.record.end_value)
    }

    /// The version that is attempted now: the Original Version, or what the attempt chose from a
    /// Version Negotiation packet.
    pub fn attempted(&self) -> u32 {
        self.record.attempted
    }

    /// The Original Version: the version of the first flight that the attempt started with.
    pub fn original(&self) -> u32 {
        self.record.original
    }

    /// The table of versions, best first: 1 to [`MAX_TABLE`](crate::MAX_TABLE) of them.
    pub fn table(&self) -> &[u32] {
        &self.record.table[..self.record.table_len as usize]
    }

    /// Whether the attempt acted on a Version Negotiation packet (document 01's "acted"). The
    /// attempted version is then its choice from that packet's list.
    pub fn acted(&self) -> bool {
        self.record.acted == 1
    }

    /// Whether a genuine packet other than Version Negotiation was processed (document 01's
    /// "heard"), see [`Attempt::packet_processed`].
    pub fn heard(&self) -> bool {
        self.record.heard == 1
    }

    /// How the attempt stands.
    pub fn end(&self) -> End {
        match self.record.end_mark {
            COMPLETED => End::Completed(self.record.end_value),
            CLOSED => End::Closed(Refusal::answered(self.record.end_value)),
            _ => End::Open,
        }
    }

    /// The own list, as may be answered: every table entry that is the attempted version, or is
    /// paired from it by a pair that is not barred, in table order. It goes into the client's
    /// Version Information as Available Versions: [`Attempt::write_information`] writes it there,
    /// as sent, which may be with reserved numbers.
    pub fn own_list(&self) -> OwnList {
        let mut own = OwnList {
            versions: [0; MAX_TABLE],
            count: 0,
        };
        // No refusal: every attempt is a record that an attempt has.
        let number = ffi::own_list(&self.record, &mut own.versions, &mut own.count);
        debug_assert_eq!(number, 0);
        own
    }

    /// What happened to the attempt: the answers of its last [`JOURNAL_PLACES`](crate::JOURNAL_PLACES)
    /// events, oldest first, and the count of all events. Every event is noted, those that were
    /// refused with 61 to 64 and those after the end too.
    ///
    /// This is no event: the attempt stays as it is, and may have ended. The journal is for the log.
    /// How the attempt stands is told by [`Attempt::end`], and whatever came with an unprotected
    /// datagram may be anybody's.
    ///
    /// ```
    /// # use quic_version::{Attempt, Refusal};
    /// let mut attempt = Attempt::start(&[14, 12], &[], 12, &[0xd1], &[0x51])?;
    /// assert!(attempt.journal().is_empty());
    /// attempt.datagram(&[]).unwrap_err();
    /// attempt.outcome(12, None)?;
    /// attempt.packet_processed().unwrap_err();
    ///
    /// let journal = attempt.journal();
    /// assert_eq!(journal.count(), 3);
    /// assert!(journal.iter().map(|answer| answer.number()).eq([61, 0, 62]));
    /// println!("{}", journal);
    /// // event 1: 61 the datagram is no readable Version Negotiation packet
    /// // event 2: 0 no refusal
    /// // event 3: 62 the attempt has ended, or acted or heard before this Version Negotiation packet
    /// # Ok::<(), Refusal>(())
    /// ```
    pub fn journal(&self) -> Journal {
        let mut journal = Journal {
            answers: [0; JOURNAL_PLACES],
            used: 0,
            count: 0,
        };
        let (answers, used) = (&mut journal.answers, &mut journal.used);
        // No refusal: every attempt is a record that an attempt has.
        let number = ffi::read_journal(&self.record, answers, used, &mut journal.count);
        debug_assert_eq!(number, 0);
        journal
    }

    /// Writes the client's Version Information: the attempted version as Chosen, then the own list
    /// as sent. Each reserved number stands at its place; the entries of the own list, in their
    /// order, fill the other places. Reserved numbers test that a server ignores versions that it
    /// does not know (RFC 9000 section 6.3). The answer is the count of bytes written, at most
    /// [`MAX_INFORMATION`](crate::MAX_INFORMATION); bytes of the buffer past it keep their values.
    ///
    /// There are up to [`MAX_RESERVED`](crate::MAX_RESERVED) reserved numbers, none twice. Places
    /// are counted from 0, and are below the number of entries of both kinds; none is taken twice.
    /// This is no event: the attempt stays as it is, and may have ended.
    ///
    /// ```
    /// # use quic_version::{read_information, versions, Attempt, Pair, Reserved, Sender};
    /// let pairs = [Pair { from: 1, to: 2 }, Pair { from: 1, to: 3 }];
    /// let attempt = Attempt::start(&[3, 2, 1], &pairs, 1, &[0xd1], &[0x51])?;
    /// let reserved = [Reserved { number: 0x1a2a_3a4a, place: 2 }];
    /// let mut buffer = [0; 64];
    /// let count = attempt.write_information(&reserved, &mut buffer)?;
    /// let sent = read_information(Sender::Client, &buffer[..count])?;
    /// assert_eq!(sent.chosen, 1);
    /// assert!(versions(sent.available).eq([3, 2, 0x1a2a_3a4a, 1]));
    /// # Ok::<(), Box<dyn std::error::Error>>(())
    /// ```
    ///
    /// # Errors
    ///
    /// They leave the buffer as found, and close nothing. In this order:
    /// - [`NoRoomForInformation`](WriteRefusal::NoRoomForInformation) (37): the buffer is shorter
    ///   than the information, with all numbers given, however many;
    /// - [`BadReservedInList`](WriteRefusal::BadReservedInList) (47): a number is not reserved or
    ///   is repeated, a place is taken twice or is past the end, or over four are given.
    pub fn write_information(
        &self,
        reserved: &[Reserved],
        buffer: &mut [u8],
    ) -> Result<usize, WriteRefusal> {
        let mut count = 0;
        let number = ffi::write_client_information(&self.record, reserved, buffer, &mut count);
        written(number, count)
    }
}

impl fmt::Debug for Attempt {
    fn fmt(&self, f: &mut fmt::Formatter<'_>) -> fmt::Result {
        f.debug_struct("Attempt")
            .field("table", &List(self.table()))
            .field("original", &Version(self.original()))
            .field("attempted", &Version(self.attempted()))
            .field("own_list", &self.own_list())
            .field("acted", &self.acted())
            .field("heard", &self.heard())
            .field("end", &self.end())
            .field("journal", &self.journal())
            .finish_non_exhaustive()
    }
}

/// The own list of an attempt; a slice of 1 to [`MAX_TABLE`](crate::MAX_TABLE) versions.
#[derive(Clone, Copy)]
pub struct OwnList {
    versions: [u32; MAX_TABLE],
    count: usize,
}

impl Deref for OwnList {
    type Target = [u32];

    fn deref(&self) -> &[u32] {
        &self.versions[..self.count]
    }
}

impl AsRef<[u32]> for OwnList {
    fn as_ref(&self) -> &[u32] {
        self
    }
}

impl PartialEq for OwnList {
    fn eq(&self, other: &OwnList) -> bool {
        **self == **other
    }
}

impl Eq for OwnList {}

impl fmt::Debug for OwnList {
    fn fmt(&self, f: &mut fmt::Formatter<'_>) -> fmt::Result {
        List(self).fmt(f)
    }
}
