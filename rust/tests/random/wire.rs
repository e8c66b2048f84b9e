//! Datagrams and Version Information, and whole calls of their readers and writers.

use super::{in_fours, information, long_packet, Random};
use crate::model::{self, Sender, MIN_ANSWERED};

/// The longest datagram and the first that is too long.
const DATAGRAM_EDGE: [usize; 3] = [65_535, 65_535, 65_536];

/// About the fewest bytes of a datagram that is answered; 0 leaves a datagram as short as it is.
const ANSWERED_EDGE: [usize; 12] = [
    0,
    MIN_ANSWERED - 2,
    MIN_ANSWERED - 1,
    MIN_ANSWERED - 1,
    MIN_ANSWERED,
    MIN_ANSWERED,
    MIN_ANSWERED,
    MIN_ANSWERED,
    MIN_ANSWERED + 1,
    MIN_ANSWERED + 2,
    1_252,
    1_472,
];

/// Inputs of the header reader.
#[derive(Debug, Clone)]
pub struct ReadCall {
    pub datagram: Vec<u8>,
    pub told: usize,
}

/// Inputs of the writer of Version Negotiation packets.
#[derive(Debug, Clone)]
pub struct NegotiationCall {
    pub received: Vec<u8>,
    pub offered: Vec<u32>,
    pub reserved: Vec<u32>,
    pub unused_bits: u8,
    pub room: usize,
}

impl NegotiationCall {
    /// The model's answer.
    pub fn packet(&self) -> Result<Vec<u8>, u8> {
        model::version_negotiation(
            &self.received,
            &self.offered,
            &self.reserved,
            self.unused_bits,
            self.room,
        )
    }
}

/// Inputs of the writer of Version Information.
#[derive(Debug, Clone)]
pub struct InformationCall {
    pub sender: Sender,
    pub chosen: u32,
    pub available: Vec<u32>,
    pub room: usize,
}

impl Random {
    /// An ID of at most `max` bytes, often of an edge length.
    pub fn connection_id(&mut self, max: usize) -> Vec<u8> {
        let any = self.below(max.min(255) + 1);
        let length = *self.pick(&[0, 1, 2, 4, 8, 8, 19, 20, 20, 21, 255, any]);
        self.bytes(length.min(max))
    }

    /// An ID near `id` but not equal to it.
    pub fn other_id(&mut self, id: &[u8]) -> Vec<u8> {
        let mut other = id.to_vec();
        match self.below(5) {
            0 if !other.is_empty() => {
                other.pop();
            }
            1 | 2 if !other.is_empty() => {
                let place = *self.pick(&[0, other.len() - 1, other.len() / 2]);
                other[place] ^= 1 << self.below(8);
            }
            3 => other.insert(0, 0),
            _ => other.push(0),
        }
        other
    }

    /// A datagram of 0 to 65,536 bytes: a long form, a short form or a Version
    /// Negotiation packet with these IDs and this list, whole or damaged.
    pub fn datagram(&mut self, destination: &[u8], source: &[u8], list: &[u32]) -> Vec<u8> {
        let first = self.next_u64() as u8;
        let datagram = match self.below(16) {
            0..=6 => long_packet(first, 0, destination, source, &in_fours(list)),
            7..=10 => {
                let version = self.version();
                let rest = self.some_bytes();
                long_packet(first, version, destination, source, &rest)
            }
            11..=13 => {
                let mut short = vec![first & 127];
                short.extend(destination);
                short.extend(self.some_bytes());
                short
            }
            14 => self.some_bytes(),
            _ => return self.huge_datagram(destination, source),
        };
        if self.one_in(3) {
            self.damage(datagram)
        } else {
            datagram
        }
    }

    fn some_bytes(&mut self) -> Vec<u8> {
        let count = *self.pick(&[0, 0, 1, 2, 3, 4, 5, 8, 21, 40, 300, 1200]);
        self.bytes(count)
    }

    /// The datagram, followed by more bytes up to about the fewest that are answered, or, one in
    /// twenty, to any length that a datagram may have.
    fn lengthened(&mut self, mut datagram: Vec<u8>) -> Vec<u8> {
        let length = if self.one_in(20) {
            self.below(65_536)
        } else {
            *self.pick(&ANSWERED_EDGE)
        };
        let more = self.bytes(length.saturating_sub(datagram.len()));
        datagram.extend(more);
        datagram
    }

    /// At the edge of 65,535 bytes; as Version Negotiation also four bytes at
    /// a time, with nothing left over.
    fn huge_datagram(&mut self, destination: &[u8], source: &[u8]) -> Vec<u8> {
        let first = self.next_u64() as u8;
        let length = *self.pick(&DATAGRAM_EDGE);
        let version = if self.one_in(2) { 0 } else { self.version() };
        let mut packet = match self.below(3) {
            0 => long_packet(first, version, &[], &[], &[]),
            1 => long_packet(first, version, destination, source, &[]),
            _ => vec![first & 127],
        };
        let mut room = length.saturating_sub(packet.len());
        if version == 0 && length <= 65_535 {
            room -= room % 4;
        }
        let rest = self.bytes(room);
        packet.extend(rest);
        packet
    }

    /// A small damage to a datagram: a byte changed, cut short, bytes
    /// appended, a length byte changed, another version.
    pub fn damage(&mut self, mut datagram: Vec<u8>) -> Vec<u8> {
        let end = datagram.len();
        if end == 0 {
            return self.some_bytes();
        }
        match self.below(10) {
            0 | 1 => {
                let place = self.below(end);
                datagram[place] ^= 1 << self.below(8);
            }
            2 => datagram.truncate(self.below(end)),
            3 => datagram.truncate(end - 1 - self.below(end.min(5))),
            4 => {
                let count = 1 + self.below(5);
                let more = self.bytes(count);
                datagram.extend(more);
            }
            5 | 6 => self.change_length_byte(&mut datagram),
            7 => datagram[0] ^= 128,
            8 => datagram.truncate(self.below(9)),
            _ => {
                let version = self.version().to_be_bytes();
                for (to, from) in datagram.iter_mut().skip(1).zip(version) {
                    *to = from;
                }
            }
        }
        datagram
    }

    fn change_length_byte(&mut self, datagram: &mut [u8]) {
        let first_length = datagram.get(5).copied().map_or(0, usize::from);
        let place = *self.pick(&[5, 6 + first_length]);
        let change = *self.pick(&[1, 255, 2, 254, 4, 128]);
        if let Some(byte) = datagram.get_mut(place) {
            *byte = byte.wrapping_add(change);
        }
    }

    /// Version Information with this Chosen and this Available list, whole or,
    /// one in three, damaged.
    pub fn information(&mut self, chosen: u32, available: &[u32]) -> Vec<u8> {
        let mut entries = available.to_vec();
        let mut chosen = chosen;
        if !self.one_in(3) {
            return information(chosen, &entries);
        }
        match self.below(12) {
            // 31
            0 | 1 => {
                let count = *self.pick(&[0, 3, 1, 2]);
                return self.bytes(count);
            }
            // 32, at both edges of the length too
            2 => {
                let count = *self.pick(&[5, 6, 7, 1_021, 1_025, 1_026, 1_027]);
                return self.bytes(count);
            }
            // 33, and the longest that is read
            3 | 4 => {
                let count = *self.pick(&[254, 255, 255, 256, 256, 256, 257, 300]);
                entries = self.long_list(count, &[chosen]);
                self.shuffle(&mut entries);
            }
            // 34
            5 | 6 => chosen = 0,
            // 35
            7 | 8 => self.insert(&mut entries, 0),
            // 36 from a client
            9 | 10 => entries.retain(|v| *v != chosen),
            // 74 from a server
            _ => entries.clear(),
        }
        let mut bytes = information(chosen, &entries);
        // A second fault, to try the order.
        if self.one_in(6) {
            bytes.push(0);
        }
        if self.one_in(6) {
            for byte in bytes.iter_mut().take(4) {
                *byte = 0;
            }
        }
        bytes
    }

    /// A buffer length about `need`: too short, just enough, longer.
    pub fn room(&mut self, need: usize) -> usize {
        match self.below(8) {
            0 => need.saturating_sub(1),
            1 => self.below(need + 1),
            2..=4 => need,
            5 => need + 1,
            _ => need + self.below(64),
        }
    }
}

// Whole calls.

impl Random {
    pub fn sender(&mut self) -> Sender {
        *self.pick(&[Sender::Client, Sender::Server])
    }

    pub fn read_call(&mut self) -> ReadCall {
        let destination = self.connection_id(255);
        let source = self.connection_id(255);
        let table = self.good_table();
        let list = self.list(&table);
        let datagram = self.datagram(&destination, &source, &list);
        let all = datagram.len().saturating_sub(1);
        let told = *self.pick(&[
            destination.len(),
            destination.len(),
            destination.len(),
            0,
            20,
            255,
            256,
            257,
            all,
            all + 1,
            65_536,
            usize::MAX,
        ]);
        ReadCall { datagram, told }
    }

    pub fn negotiation_call(&mut self) -> NegotiationCall {
        let destination = self.connection_id(255);
        let source = self.connection_id(255);
        let offered = self.table();
        let version = match self.below(8) {
            0 => 0,
            1 | 2 if !offered.is_empty() => *self.pick(&offered),
            3 => self.version(),
            4 => self.reserved(),
            _ => self.plain_version_outside(&offered),
        };
        let reserved = match self.below(3) {
            0 => Vec::new(),
            _ => self.reserved_numbers(version),
        };
        let first = self.next_u64() as u8;
        let rest = self.some_bytes();
        let received = long_packet(first, version, &destination, &source, &rest);
        let mut received = self.lengthened(received);
        match self.below(16) {
            0 => received = self.huge_datagram(&destination, &source),
            1 | 2 => received = self.damage(received),
            3 => {
                let other = self.datagram(&destination, &source, &offered);
                received = self.lengthened(other);
            }
            4 => {
                // A field past the end, at any place.
                let whole = 7 + destination.len() + source.len();
                let place = self.below(whole);
                received.truncate(place);
            }
            5 => received = self.lengthened(vec![first & 127]),
            _ => {}
        }
        let unused_bits = match self.below(8) {
            0 => *self.pick(&[128, 129, 192, 255]),
            1 => *self.pick(&[0, 64, 127]),
            _ => self.below(128) as u8,
        };
        let need = 7 + destination.len() + source.len() + 4 * offered.len();
        NegotiationCall {
            received,
            offered,
            room: self.room_with(need, reserved.len()),
            reserved,
            unused_bits,
        }
    }

    /// Bytes to read as Version Information.
    pub fn information_bytes(&mut self) -> (Sender, Vec<u8>) {
        let sender = self.sender();
        let chosen = self.version();
        let available = self.available(chosen);
        (sender, self.information(chosen, &available))
    }

    /// A list that mostly holds `chosen`, and 0 seldom.
    fn available(&mut self, chosen: u32) -> Vec<u32> {
        let mut available = self.list(&[chosen]);
        if !self.one_in(6) {
            available.retain(|v| *v != 0);
        }
        if !self.one_in(6) && chosen != 0 {
            self.insert(&mut available, chosen);
        }
        available
    }

    pub fn information_call(&mut self) -> InformationCall {
        let chosen = self.version();
        let mut available = self.available(chosen);
        if self.one_in(6) {
            let count = *self.pick(&[254, 255, 255, 256, 256, 300]);
            available = self.long_list(count, &[chosen]);
        }
        if self.one_in(10) {
            self.insert(&mut available, 0);
        }
        let room = self.room(4 + 4 * available.len());
        InformationCall {
            sender: self.sender(),
            chosen,
            available,
            room,
        }
    }
}
