//! A client and a server as they are configured, and what they send.

use crate::random::{in_fours, long_packet, Random};
use crate::Seen;
use quic_version::{
    server_choice_barring, write_information, write_version_negotiation_with_reserved, Attempt,
    Decision, Pair, Refusal, Reserved, Sender, ServerConfiguration, WriteRefusal, MAX_BARRED,
    MAX_INFORMATION, MAX_PACKET, MAX_PAIRS, MAX_RESERVED, MAX_TABLE, MIN_ANSWERED_DATAGRAM,
};

#[derive(Debug, Clone)]
pub struct Client {
    pub table: Vec<u32>,
    pub pairs: Vec<Pair>,
    pub barred: Vec<Pair>,
    pub original: u32,
    pub destination: Vec<u8>,
    pub source: Vec<u8>,
}

impl Client {
    pub fn start(&self) -> Attempt {
        Attempt::start_barring(
            &self.table,
            &self.pairs,
            &self.barred,
            self.original,
            &self.destination,
            &self.source,
        )
        .unwrap_or_else(|refusal| panic!("{}: {:?}", refusal, self))
    }

    /// A datagram of the first flight, as long as it has to be to be answered.
    pub fn flight(&self, random: &mut Random) -> Vec<u8> {
        let (destination, source) = (&self.destination, &self.source);
        let mut flight = long_packet(0xc0, self.original, destination, source, &[]);
        let more = *random.pick(&[0, 0, 1, 52, 272]);
        flight.resize(MIN_ANSWERED_DATAGRAM + more, 0);
        flight
    }

    /// A Version Negotiation packet for this client that lists these versions, whoever sends it.
    pub fn packet(&self, listed: &[u32]) -> Vec<u8> {
        long_packet(0, 0, &self.source, &self.destination, &in_fours(listed))
    }

    /// The first entry of the table that is listed.
    pub fn first_listed(&self, listed: &[u32]) -> Option<u32> {
        self.table.iter().copied().find(|v| listed.contains(v))
    }

    /// How far from the front of the table a version is.
    pub fn place(&self, version: u32) -> Option<usize> {
        self.table.iter().position(|v| *v == version)
    }
}

/// The client's Version Information as its call writes it, with reserved numbers.
pub fn sent_by(attempt: &Attempt, random: &mut Random, seen: &mut Seen) -> Vec<u8> {
    let count = random.below(MAX_RESERVED + 1);
    let mut places: Vec<u32> = (0..(attempt.own_list().len() + count) as u32).collect();
    random.shuffle(&mut places);
    let numbers = random.distinct_reserved(count, 0).into_iter();
    let reserved = numbers.zip(places);
    let reserved: Vec<Reserved> = reserved
        .map(|(number, place)| Reserved { number, place })
        .collect();
    seen.note("lists sent with reserved numbers", count > 0);
    let mut bytes = vec![0; MAX_INFORMATION];
    let count = attempt.write_information(&reserved, &mut bytes).unwrap();
    bytes.truncate(count);
    bytes
}

/// A server that does not change.
#[derive(Debug, Clone)]
pub struct Server {
    pub readable: Vec<u32>,
    pub accepted: Vec<u32>,
    pub offered: Vec<u32>,
    pub available: Vec<u32>,
    pub pairs: Vec<Pair>,
}

impl Server {
    pub fn configuration(&self) -> ServerConfiguration<'_> {
        ServerConfiguration {
            readable: &self.readable,
            accepted: &self.accepted,
            offered: &self.offered,
            available: &self.available,
            pairs: &self.pairs,
        }
    }

    /// What it does after a first flight in a version.
    pub fn choice(
        &self,
        barred: &[u32],
        version: u32,
        information: Option<&[u8]>,
    ) -> Result<Decision, Refusal> {
        let (readable, accepted) = (&self.readable, &self.accepted);
        server_choice_barring(
            readable,
            accepted,
            &self.pairs,
            barred,
            version,
            information,
        )
    }

    /// Its packet that answers a datagram, with reserved numbers at the end.
    pub fn packet(&self, flight: &[u8], random: &mut Random) -> Result<Vec<u8>, WriteRefusal> {
        let count = random.below(MAX_RESERVED + 1);
        let reserved = random.distinct_reserved(count, 0);
        let bits = random.below(128) as u8;
        self.packet_with(flight, &reserved, bits)
    }

    pub fn packet_with(
        &self,
        flight: &[u8],
        reserved: &[u32],
        bits: u8,
    ) -> Result<Vec<u8>, WriteRefusal> {
        let mut packet = vec![0; MAX_PACKET];
        let written = write_version_negotiation_with_reserved;
        let count = written(flight, &self.offered, reserved, bits, &mut packet)?;
        packet.truncate(count);
        Ok(packet)
    }

    /// Its Version Information: a version as Chosen, and its Available Versions.
    pub fn information(&self, chosen: u32) -> Vec<u8> {
        let mut bytes = vec![0; MAX_INFORMATION];
        let count = write_information(Sender::Server, chosen, &self.available, &mut bytes).unwrap();
        bytes.truncate(count);
        bytes
    }
}

fn paired(pairs: &[(u32, u32)]) -> Vec<Pair> {
    pairs.iter().map(|pair| Pair::from(*pair)).collect()
}

impl Random {
    /// Any client, and a server whose configuration is safe. Often they have versions in common, and
    /// pairs too.
    pub fn two_ends(&mut self) -> (Client, Server) {
        let mut c = self.good_start_call();
        if self.one_in(2) {
            c.pairs.extend(self.many_pairs(&c.table));
            c.pairs.truncate(MAX_PAIRS);
        }
        let accepted = self.accepted_beside(&c.table, c.original);
        let mut server = self.safe_configuration(accepted);
        if self.one_in(3) && !server.readable.contains(&c.original) {
            // Readable, and not accepted.
            server.readable = server.accepted.clone();
            server.readable.truncate(MAX_TABLE - 1);
            server.readable.push(c.original);
            let readable = server.readable.clone();
            for list in [&mut server.accepted, &mut server.offered] {
                list.retain(|v| *v != c.original && readable.contains(v));
            }
            server.available.retain(|v| server.offered.contains(v));
        }
        if !self.one_in(4) {
            // The client's pairs at this end too, or most of them.
            let mut pairs = c.pairs.clone();
            pairs.retain(|_| !self.one_in(8));
            if self.one_in(2) {
                pairs.extend(&server.pairs);
            }
            pairs.truncate(MAX_PAIRS);
            server.pairs = pairs;
        }
        let client = Client {
            pairs: paired(&c.pairs),
            barred: paired(&c.barred),
            table: c.table,
            original: c.original,
            destination: c.destination,
            source: c.source,
        };
        let server = Server {
            pairs: paired(&server.pairs),
            readable: server.readable,
            accepted: server.accepted,
            offered: server.offered,
            available: server.available,
        };
        (client, server)
    }

    /// About half of all pairs among some versions of a table.
    fn many_pairs(&mut self, table: &[u32]) -> Vec<(u32, u32)> {
        let mut among = table.to_vec();
        self.shuffle(&mut among);
        among.truncate(10);
        let mut pairs = Vec::new();
        for from in &among {
            for to in &among {
                if from != to && self.one_in(2) {
                    pairs.push((*from, *to));
                }
            }
        }
        pairs
    }

    /// A table of versions, mostly some of the client's, mostly without its Original Version.
    fn accepted_beside(&mut self, table: &[u32], original: u32) -> Vec<u32> {
        if self.one_in(8) {
            return self.good_table();
        }
        let more = 1 + self.below(3);
        let mut accepted = table.to_vec();
        accepted.retain(|_| self.below(4) < more);
        if self.one_in(16) {
            // As many as there may be.
            while accepted.len() < MAX_TABLE {
                let other = self.plain_version();
                if !accepted.contains(&other) && other != original {
                    accepted.push(other);
                }
            }
        }
        if !self.one_in(4) {
            accepted.retain(|v| *v != original);
        }
        for _ in 0..self.below(3) {
            let other = self.plain_version();
            if !accepted.contains(&other) && accepted.len() < MAX_TABLE {
                accepted.push(other);
            }
        }
        if accepted.is_empty() {
            return self.good_table();
        }
        self.shuffle(&mut accepted);
        accepted
    }

    /// What a server bars for a flight in a version: up to 64 versions, of any value.
    pub fn barred_for(&mut self, server: &Server, version: u32) -> Vec<u32> {
        let pairs: Vec<(u32, u32)> = server.pairs.iter().map(|p| (p.from, p.to)).collect();
        let mut barred = self.barred_versions(&server.accepted, &pairs, version);
        barred.truncate(MAX_BARRED);
        barred
    }
}
