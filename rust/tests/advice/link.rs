//! An honest link: nobody forges or loses anything, and both ends do as the page says.

use quic_version::{
    server_choice, write_information, write_version_negotiation, Attempt, ConfigurationFault,
    Decision, Pair, Refusal, Sender, ServerConfiguration, WriteRefusal, MAX_INFORMATION,
    MAX_PACKET, MIN_ANSWERED_DATAGRAM,
};

/// A server's configuration.
#[derive(Clone, Copy, Debug)]
pub struct Server<'a> {
    pub readable: &'a [u32],
    pub accepted: &'a [u32],
    pub offered: &'a [u32],
    pub available: &'a [u32],
    pub pairs: &'a [Pair],
}

impl Server<'_> {
    /// What the page has a server ask once, before it serves anybody.
    pub fn check(&self) -> Result<(), ConfigurationFault> {
        ServerConfiguration {
            readable: self.readable,
            accepted: self.accepted,
            offered: self.offered,
            available: self.available,
            pairs: self.pairs,
        }
        .check()
    }
}

/// A client's configuration.
#[derive(Clone, Copy, Debug)]
pub struct Client<'a> {
    pub table: &'a [u32],
    pub pairs: &'a [Pair],
    pub original: u32,
}

/// How a link ends.
#[derive(Clone, Copy, Debug, PartialEq, Eq)]
pub enum End {
    /// The client has completed: the version that it attempted, and the version in use.
    Completed { attempted: u32, in_use: u32 },
    /// The client has ended its attempt with this refusal.
    Refused(Refusal),
    /// The server has no packet to send: the client waits in vain.
    NotSent(WriteRefusal),
    /// The client ignores the server's packet: it waits in vain.
    Ignored(Refusal),
}

pub const DESTINATION: [u8; 8] = [0xd1; 8];
pub const SOURCE: [u8; 8] = [0x51; 8];

/// A long form with these connection IDs.
pub fn long_form(version: u32, destination: &[u8], source: &[u8], rest: &[u8]) -> Vec<u8> {
    let mut packet = vec![0xc0];
    packet.extend(version.to_be_bytes());
    packet.push(destination.len() as u8);
    packet.extend(destination);
    packet.push(source.len() as u8);
    packet.extend(source);
    packet.extend(rest);
    packet
}

/// Version Information as bytes.
pub fn information(sender: Sender, chosen: u32, available: &[u32]) -> Vec<u8> {
    let mut bytes = vec![0; MAX_INFORMATION];
    let count = write_information(sender, chosen, available, &mut bytes).unwrap();
    bytes.truncate(count);
    bytes
}

/// A stack's transport parameters: max_idle_timeout, and a reserved one (27) whose identifier and
/// length are not in the shortest form.
pub const STACK: [u8; 10] = [0x01, 2, 0x67, 0x10, 0x40, 0x1b, 0x40, 2, 0xaa, 0xbb];
/// The same in the shortest form.
pub const SHORTEST: [u8; 8] = [0x01, 2, 0x67, 0x10, 0x1b, 2, 0xaa, 0xbb];

/// The same, and Version Information behind them.
pub fn carrying(information: &[u8]) -> Vec<u8> {
    assert!(information.len() < 64);
    let ours = [0x11, information.len() as u8];
    [&SHORTEST[..], &ours, information].concat()
}

/// A datagram of a first flight, as the page has a client send it: padded to the fewest bytes that
/// are answered.
pub fn flight(version: u32, rest: &[u8]) -> Vec<u8> {
    let mut datagram = long_form(version, &DESTINATION, &SOURCE, rest);
    datagram.resize(datagram.len().max(MIN_ANSWERED_DATAGRAM), 0);
    datagram
}

/// The Version Negotiation packet that answers a first flight with [`DESTINATION`] and [`SOURCE`].
pub fn negotiation(version: u32, offered: &[u32]) -> Result<Vec<u8>, WriteRefusal> {
    let mut packet = vec![0; MAX_PACKET];
    let flight = flight(version, &[]);
    let count = write_version_negotiation(&flight, offered, 64, &mut packet)?;
    packet.truncate(count);
    Ok(packet)
}

/// A link from its first flight to its end.
pub fn link(client: Client<'_>, server: Server<'_>) -> End {
    let (table, pairs) = (client.table, client.pairs);
    let attempt = Attempt::start(table, pairs, client.original, &DESTINATION, &SOURCE);
    link_from(attempt.unwrap(), server, |version, information| {
        server_choice(
            server.readable,
            server.accepted,
            server.pairs,
            version,
            information,
        )
    })
}

/// The same from an attempt that was started, with a server that chooses after a first flight in a
/// version with this Version Information.
pub fn link_from(
    mut attempt: Attempt,
    server: Server<'_>,
    choice: impl Fn(u32, Option<&[u8]>) -> Result<Decision, Refusal>,
) -> End {
    loop {
        let attempted = attempt.attempted();
        let sent = information(Sender::Client, attempted, &attempt.own_list());
        match choice(attempted, Some(&sent)).unwrap() {
            Decision::Use(in_use) => {
                let answer = information(Sender::Server, in_use, server.available);
                return match attempt.outcome(in_use, Some(&answer)) {
                    Ok(in_use) => End::Completed { attempted, in_use },
                    Err(refusal) => End::Refused(refusal),
                };
            }
            Decision::Negotiate => {
                let packet = match negotiation(attempted, server.offered) {
                    Ok(packet) => packet,
                    Err(refusal) => return End::NotSent(refusal),
                };
                match attempt.datagram(&packet) {
                    Ok(_) => {}
                    Err(Refusal::NoVersionLeft) => return End::Refused(Refusal::NoVersionLeft),
                    Err(refusal) => return End::Ignored(refusal),
                }
            }
        }
    }
}
