//! Reserved numbers to send (document 02, C-18): for a packet, and with their places for a client's
//! list; and calls that they decide, or nearly do.

use super::attempts::StartCall;
use super::choices::ServerCall;
use super::versions::is_plain;
use super::wire::NegotiationCall;
use super::{information, long_packet, Random};
use crate::model::{is_reserved, Attempt, Event};
use crate::model::{MAX_PACKET, MAX_RESERVED, MAX_TABLE, MIN_ANSWERED};

/// Numbers of reserved numbers that are too many, about the borders of shorter counts too.
const TOO_MANY: [usize; 14] = [5, 5, 5, 5, 5, 5, 5, 6, 6, 7, 8, 64, 256, 260];

/// Inputs of the writer of a client's Version Information.
#[derive(Debug, Clone)]
pub struct ClientCall {
    pub start: StartCall,
    pub events: Vec<Event>,
    pub reserved: Vec<(u32, u32)>,
    pub room: usize,
}

impl ClientCall {
    /// The model's attempt after the events.
    pub fn attempt(&self) -> Attempt {
        after(&self.start, &self.events)
    }

    /// The model's answer.
    pub fn information(&self) -> Result<Vec<u8>, u8> {
        self.attempt().information(&self.reserved, self.room)
    }
}

/// The model's attempt after a start that is not refused, and events.
fn after(start: &StartCall, events: &[Event]) -> Attempt {
    let mut attempt = start.start().unwrap();
    for event in events {
        // The answer is of no weight here; the state it leaves is.
        let _ = attempt.event(event);
    }
    attempt
}

// Numbers.

impl Random {
    fn reserved_count(&mut self) -> usize {
        match self.below(24) {
            0..=2 => 0,
            3..=7 => 1,
            8..=11 => 2,
            12..=14 => 3,
            15..=20 => MAX_RESERVED,
            _ => *self.pick(&TOO_MANY),
        }
    }

    /// Reserved numbers that all differ, some of them in one bit alone.
    pub fn distinct_reserved(&mut self, count: usize, without: u32) -> Vec<u32> {
        let mut numbers: Vec<u32> = Vec::new();
        while numbers.len() < count {
            let high = 1 << (4 + self.below(4)) << (8 * self.below(4));
            let number = match numbers.last() {
                Some(last) if self.one_in(3) => last ^ high,
                _ => self.reserved(),
            };
            if number != without && !numbers.contains(&number) {
                numbers.push(number);
            }
        }
        numbers
    }

    /// Numbers for a packet that answers one of version `received`: one in three has a fault among
    /// them, and some are too many.
    pub fn reserved_numbers(&mut self, received: u32) -> Vec<u32> {
        let count = self.reserved_count();
        let mut numbers = self.distinct_reserved(count, received);
        if self.one_in(3) && count > 0 {
            let faulty = self.faulty_number(&numbers, received);
            let place = self.below(count);
            let place = *self.pick(&[place, 0, count - 1]);
            numbers[place] = faulty;
        }
        numbers
    }

    /// A number that mostly cannot be among these: not reserved, one of them, or received.
    fn faulty_number(&mut self, numbers: &[u32], received: u32) -> u32 {
        match self.below(8) {
            0 | 1 => self.near_reserved(),
            2 => *self.pick(&[0x0a0a_0a0b, 0x1a2a_3a4b, 0, 0x0a, u32::MAX]),
            3 => self.version(),
            4 | 5 => *self.pick(numbers),
            _ => received,
        }
    }
}

// Places.

impl Random {
    /// Reserved numbers with their places, for an own list of so many entries.
    pub fn reserved_in_list(&mut self, own: usize) -> Vec<(u32, u32)> {
        let repeated = self.reserved();
        let numbers = self.reserved_numbers(repeated);
        let places = self.places(own, numbers.len());
        numbers.into_iter().zip(places).collect()
    }

    /// So many places of the list as sent: one in four has a fault among them.
    fn places(&mut self, own: usize, count: usize) -> Vec<u32> {
        let mut places = self.distinct_places(own, count);
        if self.one_in(4) && count > 0 {
            let entries = own + count;
            let faulty = self.faulty_place(&places, entries as u32);
            let at = self.below(count);
            let at = *self.pick(&[at, 0, count - 1]);
            places[at] = faulty;
        }
        places
    }

    /// At the front, at the end, beside each other, or anywhere; mostly in no order.
    fn distinct_places(&mut self, own: usize, count: usize) -> Vec<u32> {
        let mut places: Vec<u32> = (0..(own + count) as u32).collect();
        match self.below(8) {
            0 => {}
            1 => places = places.split_off(own),
            2 => places = places.split_off(self.below(own + 1)),
            3 => {
                // The first and the last, and others between them.
                let last = places.pop();
                let middle = 1.min(places.len());
                self.shuffle(&mut places[middle..]);
                places.splice(0..0, last);
            }
            _ => self.shuffle(&mut places),
        }
        places.truncate(count);
        if !self.one_in(4) {
            self.shuffle(&mut places);
        }
        places
    }

    /// A place that is taken, or at or past the end of so many entries.
    fn faulty_place(&mut self, places: &[u32], entries: u32) -> u32 {
        let taken = *self.pick(places);
        match self.below(16) {
            0..=5 => taken,
            6..=10 => entries,
            11 => entries + 1 + self.below(5) as u32,
            12 => taken + *self.pick(&[1 << 8, 1 << 16, 1 << 24, 1 << 29, 1 << 30, 1 << 31]),
            13 => *self.pick(&[u32::MAX, 1 << 31, 1 << 30, MAX_TABLE as u32 + 5]),
            _ => self.next_u32(),
        }
    }
}

// Whole calls.

impl Random {
    /// A buffer length about a need that counts `given` numbers: now and then about one that counts
    /// none of them, or four at the most.
    pub fn room_with(&mut self, without: usize, given: usize) -> usize {
        let counted = match self.below(8) {
            0 => 0,
            1 => given.min(MAX_RESERVED),
            _ => given,
        };
        self.room(without + 4 * counted)
    }

    /// A packet to answer that is refused with 26 or 28, if at all.
    pub fn reserved_packet_call(&mut self) -> NegotiationCall {
        let offered = self.good_table();
        let (destination, source) = (self.connection_id(255), self.connection_id(255));
        let version = if self.one_in(2) {
            self.reserved()
        } else {
            self.plain_version_outside(&offered)
        };
        let reserved = self.reserved_numbers(version);
        let rest = vec![9; MIN_ANSWERED];
        let need = 7 + destination.len() + source.len() + 4 * offered.len();
        NegotiationCall {
            received: long_packet(self.next_u32() as u8, version, &destination, &source, &rest),
            room: self.room_with(need, reserved.len()),
            offered,
            reserved,
            unused_bits: self.below(128) as u8,
        }
    }

    /// A start whose own list has every entry of its table, or many of them.
    fn start_with_a_long_list(&mut self) -> StartCall {
        let table = self.good_table();
        let original = *self.pick(&table);
        let some = self.one_in(2);
        let mut to = table.clone();
        to.retain(|v| *v != original && (some || !self.one_in(4)));
        StartCall {
            table,
            pairs: to.into_iter().map(|to| (original, to)).collect(),
            barred: Vec::new(),
            original,
            destination: self.connection_id(20),
            source: self.connection_id(20),
        }
    }

    /// An attempt at its start, or after any events, the end among them; and numbers for its list.
    pub fn client_call(&mut self) -> ClientCall {
        let start = self.client_start();
        self.client_call_after(start)
    }

    /// As `client_call`, with empty connection IDs.
    pub fn client_call_without_ids(&mut self) -> ClientCall {
        let mut start = self.client_start();
        start.destination.clear();
        start.source.clear();
        self.client_call_after(start)
    }

    fn client_start(&mut self) -> StartCall {
        match self.below(4) {
            0 => self.barring_call().0,
            1 => self.good_start_call(),
            _ => self.start_with_a_long_list(),
        }
    }

    fn client_call_after(&mut self, start: StartCall) -> ClientCall {
        let mut events = Vec::new();
        if !self.one_in(3) {
            events = self.few_events(&start.start().unwrap());
        }
        let own = after(&start, &events).own_list().len();
        let reserved = self.reserved_in_list(own);
        ClientCall {
            start,
            events,
            room: self.room_with(4 + 4 * own, reserved.len()),
            reserved,
        }
    }

    /// A server for a client's first flight in the attempted version, mostly one that reads it and
    /// accepts some of what the client may be answered with.
    pub fn server_for(&mut self, attempt: &Attempt) -> ServerCall {
        let mut c = self.server_call();
        if !self.one_in(4) {
            c.version = attempt.attempted;
            c.readable = vec![attempt.attempted];
            c.accepted = attempt.table.clone();
            if self.one_in(3) && c.accepted.len() > 1 {
                c.accepted.retain(|v| *v != attempt.attempted);
            }
            self.shuffle(&mut c.accepted);
            c.pairs = attempt.pairs.clone();
            let own = attempt.own_list();
            c.barred = own.into_iter().filter(|_| self.one_in(4)).collect();
        }
        c
    }

    /// A datagram that may be answered, mostly of the attempt's first flight and with its IDs, and
    /// what the server puts into the packet.
    pub fn answer_to(&mut self, attempt: &Attempt) -> NegotiationCall {
        let (mut destination, source) = (attempt.destination.clone(), attempt.source.clone());
        if self.one_in(8) {
            destination = self.connection_id(20);
        }
        let version = match self.below(4) {
            0 => self.plain_version(),
            _ => attempt.attempted,
        };
        let mut offered = self.list(&attempt.table);
        offered.retain(|v| *v != version && is_plain(*v));
        offered.sort_unstable();
        offered.dedup();
        if offered.is_empty() {
            offered.push(self.plain_version_outside(&[version]));
        }
        self.shuffle(&mut offered);
        offered.truncate(MAX_TABLE);
        let count = self.below(MAX_RESERVED + 1);
        let rest = vec![9; MIN_ANSWERED];
        NegotiationCall {
            received: long_packet(0, version, &destination, &source, &rest),
            offered,
            reserved: self.distinct_reserved(count, version),
            unused_bits: self.below(128) as u8,
            room: MAX_PACKET,
        }
    }

    /// An outcome whose Chosen Version is reserved, one of `sent` often.
    pub fn reserved_outcome(&mut self, attempt: &Attempt, sent: &[(u32, u32)]) -> Event {
        let mut numbers: Vec<u32> = sent.iter().map(|(number, _)| *number).collect();
        numbers.retain(|v| is_reserved(*v));
        if numbers.is_empty() || self.one_in(3) {
            numbers = vec![self.reserved()];
        }
        let number = *self.pick(&numbers);
        let mut available = self.list(&attempt.table);
        available.retain(|v| *v != 0);
        if self.one_in(2) {
            available.push(number);
        }
        Event::Outcome {
            in_use: *self.pick(&[number, number, attempt.attempted]),
            information: Some(information(number, &available)),
        }
    }
}
