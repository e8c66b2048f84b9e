//! Each part of the safe rule broken alone: what the test of the configuration answers, and what
//! happens to an honest exchange. And the one premise that no configuration keeps: information.

use crate::ends::{Client, Server};
use quic_version::{
    choose, Attempt, ConfigurationFault, Decision, End, Pair, Refusal, WriteRefusal,
    MIN_ANSWERED_DATAGRAM, VERSION_1 as ONE, VERSION_2 as TWO,
};

const TO_TWO: Pair = Pair { from: ONE, to: TWO };

fn server(readable: &[u32], accepted: &[u32], offered: &[u32], available: &[u32]) -> Server {
    Server {
        readable: readable.to_vec(),
        accepted: accepted.to_vec(),
        offered: offered.to_vec(),
        available: available.to_vec(),
        pairs: vec![TO_TWO],
    }
}

fn client(table: &[u32], pairs: &[Pair], original: u32) -> Client {
    Client {
        table: table.to_vec(),
        pairs: pairs.to_vec(),
        barred: Vec::new(),
        original,
        destination: vec![0xd1; 8],
        source: vec![0x51; 8],
    }
}

/// The client of the issue: version 2 best, and it begins in 14, which no server here can read.
fn of_14() -> Client {
    client(&[TWO, ONE, 14], &[TO_TWO], 14)
}

fn flight(client: &Client, version: u32) -> Vec<u8> {
    let (destination, source) = (&client.destination, &client.source);
    let mut flight = crate::random::long_packet(0xc0, version, destination, source, &[]);
    flight.resize(MIN_ANSWERED_DATAGRAM, 0);
    flight
}

/// What the server does after a flight in the attempted version.
fn choice(server: &Server, attempt: &Attempt) -> Decision {
    let mut sent = [0; 64];
    let count = attempt.write_information(&[], &mut sent).unwrap();
    let version = attempt.attempted();
    server.choice(&[], version, Some(&sent[..count])).unwrap()
}

/// The first flight is negotiated about, and the client acts on the server's packet.
fn acts(client: &Client, server: &Server, version: u32) -> Attempt {
    let mut attempt = client.start();
    assert_eq!(choice(server, &attempt), Decision::Negotiate);
    let packet = server.packet_with(&flight(client, client.original), &[], 64);
    assert_eq!(attempt.datagram(&packet.unwrap()), Ok(version));
    attempt
}

/// And the second flight is served: the outcome's answer.
fn outcome(attempt: &mut Attempt, server: &Server, in_use: u32) -> Result<u32, Refusal> {
    assert_eq!(choice(server, attempt), Decision::Use(in_use));
    attempt.outcome(in_use, Some(&server.information(in_use)))
}

/// The second flight is "negotiate" again, and there is no packet: 24, silence.
fn silent(client: &Client, server: &Server, attempt: &Attempt) {
    assert_eq!(choice(server, attempt), Decision::Negotiate);
    let packet = server.packet_with(&flight(client, attempt.attempted()), &[], 64);
    assert_eq!(packet, Err(WriteRefusal::ReceivedVersionOffered));
    assert_eq!(attempt.end(), End::Open);
}

/// All of it kept: the same client completes.
#[test]
fn nothing_broken() {
    let both = [TWO, ONE];
    let server = server(&both, &both, &both, &both);
    assert_eq!(server.configuration().check(), Ok(()));
    let mut attempt = acts(&of_14(), &server, TWO);
    assert_eq!(outcome(&mut attempt, &server, TWO), Ok(TWO));
}

/// 75 with nobody attacking.
#[test]
fn accepted_and_not_offered() {
    let both = [TWO, ONE];
    let server = server(&both, &both, &[ONE], &[ONE]);
    let fault = ConfigurationFault::AcceptedNotOffered(TWO);
    assert_eq!(server.configuration().check(), Err(fault));
    let mut attempt = acts(&of_14(), &server, ONE);
    let answer = outcome(&mut attempt, &server, TWO);
    assert_eq!(answer, Err(Refusal::Downgraded));
}

/// A second "negotiate", and then 24.
#[test]
fn offered_and_not_accepted() {
    let both = [TWO, ONE];
    let server = server(&both, &[ONE], &both, &both);
    let fault = ConfigurationFault::OfferedNotAccepted(TWO);
    assert_eq!(server.configuration().check(), Err(fault));
    let attempt = acts(&of_14(), &server, TWO);
    silent(&of_14(), &server, &attempt);
}

/// 24, silence: at the second flight, and at a first flight in that version.
#[test]
fn offered_and_not_readable() {
    let both = [TWO, ONE];
    let server = server(&[ONE], &both, &both, &both);
    let fault = ConfigurationFault::OfferedNotReadable(TWO);
    assert_eq!(server.configuration().check(), Err(fault));
    let attempt = acts(&of_14(), &server, TWO);
    silent(&of_14(), &server, &attempt);
    let begins_in_two = client(&both, &[TO_TWO], TWO);
    silent(&begins_in_two, &server, &begins_in_two.start());
}

/// 75.
#[test]
fn available_and_not_offered() {
    let both = [TWO, ONE];
    let server = server(&both, &[ONE], &[ONE], &both);
    let fault = ConfigurationFault::AvailableNotOffered(TWO);
    assert_eq!(server.configuration().check(), Err(fault));
    let mut attempt = acts(&of_14(), &server, ONE);
    let answer = outcome(&mut attempt, &server, ONE);
    assert_eq!(answer, Err(Refusal::Downgraded));
}

/// 75 in P11's shape: a pair led to another version than the attempted one. 74 where none is
/// Available.
#[test]
fn offered_and_not_available() {
    let pairs = [(1, 2), (3, 4)].map(Pair::from);
    let client = client(&[3, 4, 1, 2], &pairs, 1);
    let both = [4, 3];
    let mut server = server(&both, &both, &both, &both);
    server.pairs = pairs.to_vec();
    assert_eq!(server.configuration().check(), Ok(()));
    let mut attempt = acts(&client, &server, 3);
    assert_eq!(outcome(&mut attempt, &server, 4), Ok(4));

    server.available = vec![4];
    let fault = ConfigurationFault::OfferedNotAvailable(3);
    assert_eq!(server.configuration().check(), Err(fault));
    let mut attempt = acts(&client, &server, 3);
    let answer = outcome(&mut attempt, &server, 4);
    assert_eq!(answer, Err(Refusal::Downgraded));

    server.available = Vec::new();
    let fault = ConfigurationFault::OfferedNotAvailable(4);
    assert_eq!(server.configuration().check(), Err(fault));
    let mut attempt = acts(&client, &server, 3);
    let answer = outcome(&mut attempt, &server, 4);
    assert_eq!(answer, Err(Refusal::AvailableEmpty));
}

/// A safe server that sends no information. In version 1 a forged packet leads down: the stand-in
/// completes. With the information it does not, nor in another version.
#[test]
fn missing_information() {
    let table = [1, 3, 4, 5];
    let mut server = server(&table, &table, &table, &table);
    server.pairs = Vec::new();
    assert_eq!(server.configuration().check(), Ok(()));
    let client = client(&[5, 1, 6, 2], &[], 6);
    assert_eq!(choose(&client.table, &server.offered), Ok(5));

    let mut attempt = client.start();
    assert_eq!(attempt.datagram(&client.packet(&[1])), Ok(1));
    let mut other = attempt.clone();
    assert_eq!(attempt.outcome(1, None), Ok(1));
    assert_eq!(attempt.end(), End::Completed(1));
    let answer = other.outcome(1, Some(&server.information(1)));
    assert_eq!(answer, Err(Refusal::Downgraded));

    let mut attempt = client.start();
    assert_eq!(attempt.datagram(&client.packet(&[2])), Ok(2));
    assert_eq!(attempt.outcome(2, None), Err(Refusal::InformationMissing));
}
