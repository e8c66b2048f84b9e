//! The client's attempt, in a record of the library's size that is changed where it lies.

use super::choices::{are_pairs, is_reserved, is_table};
use super::lists;
use super::wire::{read_header, read_information};
use quic_version::{Attempt, Pair, Reserved, JOURNAL_PLACES, MAX_ID, MAX_RESERVED, MAX_TABLE};
use std::mem::size_of;

#[derive(Clone, Copy)]
pub struct PlainAttempt {
    rows: [u64; MAX_TABLE],
    table: [u32; MAX_TABLE],
    table_len: u32,
    destination: [u8; MAX_ID],
    destination_len: u32,
    source: [u8; MAX_ID],
    source_len: u32,
    original: u32,
    pub attempted: u32,
    acted: bool,
    heard: bool,
    ended: Option<Result<u32, u8>>,
    journal: PlainJournal,
}

// Both sides copy as many bytes.
const _: () = assert!(size_of::<PlainAttempt>() == size_of::<Attempt>());

/// What the events were answered with, as the record has it.
#[derive(Clone, Copy)]
struct PlainJournal {
    answers: [u8; JOURNAL_PLACES],
    count: u32,
}

/// A journal that was read: the answers, how many of them are used, and the count of all events.
pub struct Answered {
    answers: [u8; JOURNAL_PLACES],
    used: usize,
    pub count: u32,
}

impl std::ops::Deref for Answered {
    type Target = [u8];

    fn deref(&self) -> &[u8] {
        &self.answers[..self.used]
    }
}

pub struct OwnList([u32; MAX_TABLE], usize);

impl std::ops::Deref for OwnList {
    type Target = [u32];

    fn deref(&self) -> &[u32] {
        &self.0[..self.1]
    }
}

/// Whether these numbers may be sent in a list of so many entries.
fn may_be_sent(reserved: &[Reserved], entries: usize) -> bool {
    if reserved.len() > MAX_RESERVED {
        return false;
    }
    for (at, given) in reserved.iter().enumerate() {
        let same = |other: &Reserved| other.number == given.number || other.place == given.place;
        let is_past = given.place as usize >= entries;
        if is_past || !is_reserved(given.number) || reserved[..at].iter().any(same) {
            return false;
        }
    }
    true
}

impl PlainAttempt {
    #[inline]
    pub fn start(
        table: &[u32],
        pairs: &[Pair],
        original: u32,
        destination: &[u8],
        source: &[u8],
    ) -> Result<PlainAttempt, u8> {
        PlainAttempt::start_barring(table, pairs, &[], original, destination, source)
    }

    #[inline(never)]
    pub fn start_barring(
        table: &[u32],
        pairs: &[Pair],
        barred: &[Pair],
        original: u32,
        destination: &[u8],
        source: &[u8],
    ) -> Result<PlainAttempt, u8> {
        if !is_table(table) {
            return Err(41);
        }
        if !are_pairs(pairs) || !are_pairs(barred) {
            return Err(43);
        }
        if !table.contains(&original) {
            return Err(44);
        }
        if destination.len() > MAX_ID || source.len() > MAX_ID {
            return Err(45);
        }
        let mut attempt = PlainAttempt {
            rows: [0; MAX_TABLE],
            table: [0; MAX_TABLE],
            table_len: table.len() as u32,
            destination: [0; MAX_ID],
            destination_len: destination.len() as u32,
            source: [0; MAX_ID],
            source_len: source.len() as u32,
            original,
            attempted: original,
            acted: false,
            heard: false,
            ended: None,
            journal: PlainJournal {
                answers: [0; JOURNAL_PLACES],
                count: 0,
            },
        };
        attempt.table[..table.len()].copy_from_slice(table);
        attempt.destination[..destination.len()].copy_from_slice(destination);
        attempt.source[..source.len()].copy_from_slice(source);
        for place in 0..table.len() {
            attempt.rows[place] = 1 << place;
        }
        // Pair by pair, as the library does.
        let place = |version| table.iter().position(|v| *v == version);
        for pair in pairs {
            if let Some(from) = place(pair.from) {
                if let Some(to) = place(pair.to) {
                    attempt.rows[from] |= 1 << to;
                }
            }
        }
        // The members of a barred pair differ, so no entry loses its own bit.
        for pair in barred {
            if let Some(from) = place(pair.from) {
                if let Some(to) = place(pair.to) {
                    attempt.rows[from] &= !(1 << to);
                }
            }
        }
        Ok(attempt)
    }

    fn table(&self) -> &[u32] {
        &self.table[..self.table_len as usize]
    }

    fn is_own(&self, version: u32) -> bool {
        let place = |version| self.table().iter().position(|v| *v == version);
        match (place(self.attempted), place(version)) {
            (Some(from), Some(to)) => self.rows[from] >> to & 1 == 1,
            _ => false,
        }
    }

    #[inline(never)]
    pub fn own_list(&self) -> OwnList {
        let mut own = OwnList([0; MAX_TABLE], 0);
        if let Some(at) = self.table().iter().position(|v| *v == self.attempted) {
            for (place, version) in self.table().iter().enumerate() {
                if self.rows[at] >> place & 1 == 1 {
                    own.0[own.1] = *version;
                    own.1 += 1;
                }
            }
        }
        own
    }

    #[inline(never)]
    pub fn write_information(&self, reserved: &[Reserved], buffer: &mut [u8]) -> Result<usize, u8> {
        let own = self.own_list();
        let entries = own.len() + reserved.len();
        let count = 4 + 4 * entries;
        if buffer.len() < count {
            return Err(37);
        }
        if !may_be_sent(reserved, entries) {
            return Err(47);
        }
        buffer[..4].copy_from_slice(&self.attempted.to_be_bytes());
        let mut own = own.iter();
        for (place, four) in buffer[4..count].chunks_exact_mut(4).enumerate() {
            let version = match reserved.iter().find(|given| given.place as usize == place) {
                Some(given) => given.number,
                None => own.next().copied().unwrap_or(0),
            };
            four.copy_from_slice(&version.to_be_bytes());
        }
        Ok(count)
    }

    #[inline(never)]
    pub fn journal(&self) -> Answered {
        let PlainJournal { answers, count } = self.journal;
        let used = answers.len().min(count as usize);
        Answered {
            answers,
            used,
            count,
        }
    }

    /// Notes the answer of an event.
    fn noted<T>(&mut self, answer: Result<T, u8>) -> Result<T, u8> {
        let number = match &answer {
            Ok(_) => 0,
            Err(no) => *no,
        };
        let PlainJournal { answers, count } = &mut self.journal;
        match answers.get_mut(*count as usize) {
            Some(place) => *place = number,
            None => {
                answers.copy_within(1.., 0);
                answers[JOURNAL_PLACES - 1] = number;
            }
        }
        *count = count.saturating_add(1);
        answer
    }

    /// An event by its number in the C header, 255 for an unknown kind, which is not noted.
    #[inline(never)]
    pub fn event(&mut self, kind: u32, value: u32, bytes: &[u8]) -> u32 {
        let answer = match kind {
            0 => self.datagram(bytes).map(|_| ()),
            1 => self.packet_processed(),
            2 => self.outcome(value, Some(bytes)).map(|_| ()),
            3 => self.outcome(value, None).map(|_| ()),
            _ => Err(255),
        };
        answer.map_or_else(u32::from, |()| 0)
    }

    #[inline(never)]
    pub fn datagram(&mut self, datagram: &[u8]) -> Result<u32, u8> {
        let answer = self.take_datagram(datagram);
        self.noted(answer)
    }

    fn take_datagram(&mut self, datagram: &[u8]) -> Result<u32, u8> {
        let header = match read_header(datagram, 0) {
            Ok(header) if header.version == Some(0) => header,
            _ => return Err(61),
        };
        if self.ended.is_some() || self.acted || self.heard {
            return Err(62);
        }
        if *header.destination != self.source[..self.source_len as usize]
            || *header.source != self.destination[..self.destination_len as usize]
        {
            return Err(63);
        }
        if lists(header.rest, self.original) {
            return Err(64);
        }
        let listed = |version: &u32| lists(header.rest, *version);
        match self.table().iter().copied().find(listed) {
            Some(version) => {
                self.attempted = version;
                self.acted = true;
                Ok(version)
            }
            None => self.close(65),
        }
    }

    fn close(&mut self, no: u8) -> Result<u32, u8> {
        self.ended = Some(Err(no));
        Err(no)
    }

    #[inline(never)]
    pub fn packet_processed(&mut self) -> Result<(), u8> {
        if self.ended.is_some() {
            return self.noted(Err(62));
        }
        self.heard = true;
        self.noted(Ok(()))
    }

    #[inline(never)]
    pub fn outcome(&mut self, in_use: u32, information: Option<&[u8]>) -> Result<u32, u8> {
        let answer = self.take_outcome(in_use, information);
        self.noted(answer)
    }

    // Inlined, its loops over the list took twice as long.
    #[inline(never)]
    fn take_outcome(&mut self, in_use: u32, information: Option<&[u8]>) -> Result<u32, u8> {
        if self.ended.is_some() {
            return Err(62);
        }
        match self.judge(in_use, information) {
            Ok(()) => {
                self.ended = Some(Ok(in_use));
                Ok(in_use)
            }
            Err(no) => self.close(no),
        }
    }

    fn judge(&self, in_use: u32, information: Option<&[u8]>) -> Result<(), u8> {
        let (chosen, available) = match information {
            Some(bytes) => read_information(false, bytes)?,
            None if self.acted && self.attempted == 1 => (1, &[0, 0, 0, 1][..]),
            None if self.acted => return Err(71),
            None if in_use == self.attempted => return Ok(()),
            None => return Err(73),
        };
        if !self.is_own(chosen) {
            return Err(72);
        }
        if chosen != in_use {
            return Err(73);
        }
        if self.acted {
            if available.is_empty() {
                return Err(74);
            }
            let joined = |version: &u32| *version == in_use || lists(available, *version);
            if self.table().iter().copied().find(joined) != Some(self.attempted) {
                return Err(75);
            }
        }
        Ok(())
    }
}
