//! A client with a datagram to screen, and how long each side takes for it.

use crate::measure::{calls, opaque, same, Part};
use crate::plain::{sum, Answer, Client, BY_CHUNKS, BY_INDEX};
use crate::random::{in_fours, long_packet};
use crate::raw::{self, Record};
use crate::turns::{Side, Turns};
use quic_version::{Attempt, MAX_DATAGRAM, MAX_ID};

/// Bytes of each ID, where the list leaves room for them. Header and IDs are then of an odd length,
/// as they are without IDs: the list begins at an odd address.
const ID: usize = 8;
/// Bytes of a header without its IDs.
const HEADER: usize = 7;
/// The kind of an event that is a datagram.
const DATAGRAM: u32 = 0;

pub struct Case {
    client: Client,
    attempt: Part<Attempt>,
    record: Part<Record>,
    datagram: Vec<u8>,
}

/// Medians of one case: times in nanoseconds, and ratios to the faster form of plain Rust. Of each
/// form the fastest copy counts.
#[derive(Clone, Copy)]
pub struct Measured {
    pub by_index: f64,
    pub by_chunks: f64,
    pub by_crate: f64,
    pub by_event: f64,
    pub sum: f64,
    pub crate_ratio: f64,
    pub event_ratio: f64,
}

impl Measured {
    /// The sides are the copies by index, those by chunks, crate, event and sum.
    fn of(turns: &Turns) -> Measured {
        let (by_index, plain) = (BY_INDEX.len(), BY_INDEX.len() + BY_CHUNKS.len());
        let fastest = turns.fastest(0..plain);
        Measured {
            by_index: turns.time(turns.fastest(0..by_index)),
            by_chunks: turns.time(turns.fastest(by_index..plain)),
            by_crate: turns.time(plain),
            by_event: turns.time(plain + 1),
            sum: turns.time(plain + 2),
            crate_ratio: turns.ratio(plain, fastest),
            event_ratio: turns.ratio(plain + 1, fastest),
        }
    }

    /// The faster form of plain Rust.
    pub fn plain(&self) -> f64 {
        self.by_index.min(self.by_chunks)
    }

    /// The higher one of the library's ratios.
    pub fn ratio(&self) -> f64 {
        self.crate_ratio.max(self.event_ratio)
    }
}

/// An ID that has memory even if it is empty: to compare with an address of none takes some 80 ns on
/// some machines.
fn id(byte: u8, length: usize) -> Vec<u8> {
    let mut id = Vec::with_capacity(MAX_ID);
    id.resize(length, byte);
    id
}

impl Case {
    /// An attempt with this table and Original Version, and a datagram with this list.
    pub fn new(table: &[u32], original: u32, list: &[u32]) -> Case {
        let room = MAX_DATAGRAM - HEADER - 4 * list.len();
        let length = if 2 * ID <= room { ID } else { 0 };
        let (destination, source) = (id(0xd1, length), id(0x51, length));
        let started = raw::start(table, &[], &[], original, &destination, &source);
        let attempt = Attempt::start(table, &[], original, &destination, &source);
        let case = Case {
            attempt: Part(attempt.expect("the table is one, with the Original Version in it")),
            record: Part(started.attempt),
            datagram: long_packet(0xc0, 0, &source, &destination, &in_fours(list)),
            client: Client {
                table: table.to_vec(),
                original,
                destination,
                source,
            },
        };
        assert_eq!(case.list().as_ptr() as usize % 2, 1);
        case
    }

    /// The list as it lies in the datagram.
    pub fn list(&self) -> &[u8] {
        &self.datagram[HEADER + 2 * self.client.source.len()..]
    }

    pub fn attempt(&self) -> &Attempt {
        &self.attempt.0
    }

    /// The one answer that all sides give.
    pub fn answer(&self) -> Answer {
        let plain = BY_INDEX[0](&self.client, &self.datagram);
        for program in BY_INDEX.iter().chain(&BY_CHUNKS) {
            assert_eq!(program(&self.client, &self.datagram), plain);
        }
        let mut record = self.record.0;
        let number = raw::event(&mut record, DATAGRAM, 0, &self.datagram);
        let due = plain.map_or_else(u32::from, |_| 0);
        assert_eq!(number, due);
        assert_eq!(record.attempted, plain.unwrap_or(self.client.original));
        same(self.attempt.0.clone().datagram(&self.datagram), plain)
    }

    /// The time of `qv_event` for the same datagram at an attempt that has other IDs.
    pub fn of_another_connection(&self, rounds: usize) -> f64 {
        let (table, original) = (&self.client.table[..], self.client.original);
        let id = [0xee; MAX_ID];
        let (record, datagram) = (
            &raw::start(table, &[], &[], original, &id, &id).attempt,
            &self.datagram[..],
        );
        let event = || raw::event(&mut record.clone(), DATAGRAM, 0, opaque(datagram));
        assert_eq!(event(), 63);
        Turns::take(rounds, vec![Box::new(calls!(event()))]).time(0)
    }

    pub fn measure(&self, rounds: usize) -> Measured {
        let (client, attempt, record) = (&self.client, &self.attempt.0, &self.record.0);
        let (datagram, list) = (&self.datagram[..], self.list());
        let mut sides: Vec<Side<'_>> = Vec::new();
        for program in BY_INDEX.iter().chain(&BY_CHUNKS) {
            let screen = calls!(opaque(*program)(opaque(client), opaque(datagram)));
            sides.push(Box::new(screen));
        }
        let by_crate = calls!(opaque(attempt).clone().datagram(opaque(datagram)).is_ok());
        let by_event = calls!(raw::event(
            &mut opaque(record).clone(),
            opaque(DATAGRAM),
            opaque(0),
            opaque(datagram)
        ));
        sides.push(Box::new(by_crate));
        sides.push(Box::new(by_event));
        sides.push(Box::new(calls!(sum(opaque(list)))));
        Measured::of(&Turns::take(rounds, sides))
    }
}
