//! The model of the client's attempt, event by event.

use super::choices::{are_pairs, choose, is_table, itself_or_paired_from, paired_from};
use super::wire::{chosen_and_available, list_on_the_wire, read_header, Header, Sender};
use super::{History, MAX_ID};

#[derive(Debug, Clone, PartialEq, Eq)]
pub enum Event {
    /// "A datagram."
    Datagram(Vec<u8>),
    /// "Heard. A genuine packet other than Version Negotiation was processed."
    Processed,
    /// "The handshake layer hands the version in use and Version Information,
    /// or says that it is missing."
    Outcome {
        in_use: u32,
        information: Option<Vec<u8>>,
    },
}

/// "The attempt ends, completed or closed."
#[derive(Debug, Clone, Copy, PartialEq, Eq)]
pub enum End {
    Open,
    Completed(u32),
    Closed(u8),
}

/// What an event that was not refused did.
#[derive(Debug, Clone, Copy, PartialEq, Eq)]
pub enum Effect {
    Acted(u32),
    Noted,
    Completed(u32),
}

#[derive(Debug, Clone, PartialEq, Eq)]
pub struct Attempt {
    pub table: Vec<u32>,
    pub pairs: Vec<(u32, u32)>,
    /// Document 02, C-17: "pairs barred for this attempt's flights".
    pub barred: Vec<(u32, u32)>,
    pub original: u32,
    pub destination: Vec<u8>,
    pub source: Vec<u8>,
    /// The Original Version until the attempt acts.
    pub attempted: u32,
    pub acted: bool,
    pub heard: bool,
    pub end: End,
    /// Document 02, C-20: "what happened to this attempt".
    pub history: History,
}

/// "An attempt starts with a table, pairs, an Original Version and its two
/// connection IDs, destination and source." 41, 43, 44, 45. Document 02, C-17: "A
/// start takes, beside the pairs, a list of pairs barred for this attempt's
/// flights, under the pairs' rule, else 43".
pub fn start(
    table: &[u32],
    pairs: &[(u32, u32)],
    barred: &[(u32, u32)],
    original: u32,
    destination: &[u8],
    source: &[u8],
) -> Result<Attempt, u8> {
    if !is_table(table) {
        return Err(41);
    }
    if !(are_pairs(pairs) && are_pairs(barred)) {
        return Err(43);
    }
    if !table.contains(&original) {
        return Err(44);
    }
    if [destination, source].iter().any(|id| id.len() > MAX_ID) {
        return Err(45);
    }
    Ok(Attempt {
        table: table.to_vec(),
        pairs: pairs.to_vec(),
        barred: barred.to_vec(),
        original,
        destination: destination.to_vec(),
        source: source.to_vec(),
        attempted: original,
        acted: false,
        heard: false,
        end: End::Open,
        history: History::empty(),
    })
}

impl Attempt {
    /// "Its own list is every table entry, in table order, that is the
    /// attempted version or is paired from it." Document 02, C-17: "The own list
    /// leaves barred ones out". Of C-18's two it is the one "as may be answered".
    pub fn own_list(&self) -> Vec<u32> {
        let barred = paired_from(&self.barred, self.attempted);
        let own = itself_or_paired_from(&self.pairs, &barred, self.attempted);
        let entries = self.table.iter().copied();
        entries.filter(|v| own.contains(v)).collect()
    }

    /// One event, and its answer in the journal. Of the rest of the record a
    /// refusal by 61 to 64 changes nothing; 65, 71 to 75, and 31 to 35 on an open
    /// attempt set its end mark alone: "So "unchanged" and "alone" in document 01
    /// leave this journal out" (document 02, C-20).
    pub fn event(&mut self, e: &Event) -> Result<Effect, u8> {
        let answer = match e {
            Event::Datagram(datagram) => self.datagram(datagram),
            Event::Processed => self.processed(),
            Event::Outcome {
                in_use,
                information,
            } => self.outcome(*in_use, information.as_deref()),
        };
        self.history.add(&answer);
        answer
    }

    fn is_open(&self) -> bool {
        self.end == End::Open
    }

    /// "Unchanged state with 61 to 64; or ended with 65; or it acts."
    fn datagram(&mut self, datagram: &[u8]) -> Result<Effect, u8> {
        let packet = Negotiation::read(datagram).ok_or(61)?;
        // "attempt ended (any event); or, for Version Negotiation, acted or
        // heard before"
        if !self.is_open() || self.acted || self.heard {
            return Err(62);
        }
        if !packet.answers(&self.destination, &self.source) {
            return Err(63);
        }
        if packet.list.contains(&self.original) {
            return Err(64);
        }
        match choose(&self.table, &packet.list) {
            Ok(choice) => {
                self.attempted = choice;
                self.acted = true;
                Ok(Effect::Acted(choice))
            }
            Err(_) => {
                self.end = End::Closed(65);
                Err(65)
            }
        }
    }

    fn processed(&mut self) -> Result<Effect, u8> {
        if !self.is_open() {
            return Err(62);
        }
        self.heard = true;
        Ok(Effect::Noted)
    }

    fn outcome(&mut self, in_use: u32, information: Option<&[u8]>) -> Result<Effect, u8> {
        if !self.is_open() {
            return Err(62);
        }
        // "The attempt ends, completed or closed."
        match self.judge(in_use, information) {
            Ok(()) => {
                self.end = End::Completed(in_use);
                Ok(Effect::Completed(in_use))
            }
            Err(no) => {
                self.end = End::Closed(no);
                Err(no)
            }
        }
    }

    /// 31 to 35, then 71 to 75, on an open attempt.
    fn judge(&self, in_use: u32, information: Option<&[u8]>) -> Result<(), u8> {
        let (chosen, available) = match (information, self.acted) {
            (Some(bytes), _) => chosen_and_available(Sender::Server, bytes)?,
            // "a client that acted with attempted version 1 reads Chosen 1,
            // Available 1 in its place"
            (None, true) if self.attempted == 1 => (1, vec![1]),
            // "one that acted with another gets 71"
            (None, true) => return Err(71),
            // "one that never acted completes if the version in use is the
            // attempted one, else 73"
            (None, false) if in_use == self.attempted => return Ok(()),
            (None, false) => return Err(73),
        };
        // Rule 72 reads "the shorter list" (document 02, C-17), as may be
        // answered: "so a reserved Chosen falls under 72" (C-18).
        if !self.own_list().contains(&chosen) {
            return Err(72);
        }
        if chosen != in_use {
            return Err(73);
        }
        if self.acted {
            if available.is_empty() {
                return Err(74);
            }
            // "choice from Available plus the version in use is not the
            // attempted version"
            let joined = [available.as_slice(), &[in_use]].concat();
            if choose(&self.table, &joined) != Ok(self.attempted) {
                return Err(75);
            }
        }
        Ok(())
    }
}

/// A readable Version Negotiation packet.
pub(super) struct Negotiation<'a> {
    destination: &'a [u8],
    source: &'a [u8],
    pub(super) list: Vec<u32>,
}

impl<'a> Negotiation<'a> {
    pub(super) fn read(datagram: &'a [u8]) -> Option<Self> {
        // The told length is of no weight: a short form is no Version
        // Negotiation, readable or not.
        match read_header(datagram, 0) {
            Ok(Header::VersionNegotiation {
                destination,
                source,
                list,
            }) => Some(Negotiation {
                destination: &datagram[destination],
                source: &datagram[source],
                list: list_on_the_wire(&datagram[list]),
            }),
            _ => None,
        }
    }

    /// Not 63: its destination ID is our source ID and its source ID is our
    /// destination ID.
    pub(super) fn answers(&self, our_destination: &[u8], our_source: &[u8]) -> bool {
        (self.destination, self.source) == (our_source, our_destination)
    }
}
