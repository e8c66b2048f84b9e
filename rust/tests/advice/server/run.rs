//! The page's server, run.

use super::*;
use crate::link::{carrying, flight, information, long_form, DESTINATION, SOURCE, STACK};
use quic_version::{versions, MIN_ANSWERED_DATAGRAM};

/// What the server asked of the layers around it.
#[derive(Debug, PartialEq)]
enum Asked {
    ToConnection,
    GoOn(u32, Vec<u8>),
    Send(Vec<u8>),
    Close(u64),
}

/// A handshake layer that has a count of bytes, and then so many bytes of transport parameters. The
/// rest of a datagram is a part of that, its length before it, and padding. A part that begins with
/// 0xee cannot be read.
#[derive(Default)]
struct Around {
    flight: Vec<u8>,
    connections: Vec<Vec<u8>>,
    asked: Vec<Asked>,
    unanswered: Vec<WriteRefusal>,
}

impl Layers for Around {
    fn has_connection(&self, id: &[u8]) -> bool {
        self.connections.iter().any(|other| other == id)
    }
    fn to_connection(&mut self, _: &[u8], _: &[u8]) {
        self.asked.push(Asked::ToConnection);
    }
    fn add_to_flight(&mut self, id: &[u8], _: u32, datagram: &[u8]) -> Flight {
        assert_eq!(id, DESTINATION);
        if datagram.len() < MIN_ANSWERED_DATAGRAM {
            return Flight::Unreadable;
        }
        let rest = match read_header(datagram, OUR_ID_LENGTH) {
            Ok(Header::Long { rest, .. }) => rest,
            _ => unreachable!(),
        };
        let part = &rest[1..1 + usize::from(rest[0])];
        if part.first() == Some(&0xee) {
            return Flight::Unreadable;
        }
        self.flight.extend(part);
        match self.flight.split_first() {
            Some((count, held)) if held.len() == usize::from(*count) => {
                Flight::Whole(held.to_vec())
            }
            _ => Flight::Incomplete,
        }
    }
    fn stack_parameters(&self, id: &[u8]) -> Vec<u8> {
        assert_eq!(id, DESTINATION);
        STACK.to_vec()
    }
    fn go_on(&mut self, id: &[u8], version: u32, parameters: &[u8]) {
        self.connections.push(id.to_vec());
        self.asked.push(Asked::GoOn(version, parameters.to_vec()));
    }
    fn send_datagram(&mut self, datagram: &[u8]) {
        self.asked.push(Asked::Send(datagram.to_vec()));
    }
    fn unanswered(&mut self, refusal: WriteRefusal) {
        self.unanswered.push(refusal);
    }
    fn close_connection(&mut self, _: &[u8], code: u64) {
        self.asked.push(Asked::Close(code));
    }
    fn fault(&mut self, text: &str) {
        panic!("{}", text);
    }
}

/// A sequence of transport parameters, as the handshake layer above reads it.
fn counted(sequence: &[u8]) -> Vec<u8> {
    [&[sequence.len() as u8][..], sequence].concat()
}

/// One with this Version Information, or without any.
fn parameters(information: Option<&[u8]>) -> Vec<u8> {
    match information {
        Some(bytes) => counted(&carrying(bytes)),
        None => counted(&STACK),
    }
}

/// What a server asks for after the datagrams of a first flight, with these parts of the parameters.
fn after(version: u32, parts: &[&[u8]]) -> Vec<Asked> {
    let mut layers = Around::default();
    for part in parts {
        let rest = [&[part.len() as u8][..], part].concat();
        datagram(&mut layers, &flight(version, &rest));
    }
    layers.asked
}

fn goes_on_in(version: u32) -> [Asked; 1] {
    let answer = information(Sender::Server, version, &TABLE);
    [Asked::GoOn(version, carrying(&answer))]
}

/// The page's server after a first flight in a version, with these transport parameters: the version
/// that it goes on in, and its own.
pub(crate) fn goes_on_with(version: u32, parameters: &[u8]) -> (u32, Vec<u8>) {
    match after(version, &[&counted(parameters)]).pop() {
        Some(Asked::GoOn(version, answer)) => (version, answer),
        asked => panic!("{:?}", asked),
    }
}

#[test]
fn configured() {
    assert!(is_configured());
}

#[test]
fn safe() {
    assert!(is_safe(&mut Around::default()));
}

#[test]
fn one_datagram() {
    let sent = information(Sender::Client, VERSION_1, &[VERSION_2, VERSION_1]);
    let whole = parameters(Some(&sent));
    assert_eq!(after(VERSION_1, &[&whole]), goes_on_in(VERSION_2));
    // Truly missing: the version of the flight.
    assert_eq!(
        after(VERSION_1, &[&parameters(None)]),
        goes_on_in(VERSION_1)
    );
}

/// A first flight of two datagrams, cut anywhere: the server waits for the second.
#[test]
fn two_datagrams() {
    let sent = information(Sender::Client, VERSION_1, &[VERSION_2, VERSION_1]);
    let whole = parameters(Some(&sent));
    for cut in 1..whole.len() {
        let (first, second) = whole.split_at(cut);
        assert_eq!(after(VERSION_1, &[first]), []);
        assert_eq!(after(VERSION_1, &[first, second]), goes_on_in(VERSION_2));
    }
}

/// What is lost where the first of two datagrams is taken for the whole flight: 31 to 36, 51, and
/// the better version.
#[test]
fn incomplete_is_not_missing() {
    let missing = server_choice(&TABLE, &TABLE, &PAIRS, VERSION_1, None);
    assert_eq!(missing, Ok(Decision::Use(VERSION_1)));
    let other = information(Sender::Client, VERSION_2, &[VERSION_2, VERSION_1]);
    let without = information(Sender::Server, VERSION_1, &[VERSION_2]);
    let malformed: [(&[u8], u64); 3] = [(&[0; 3], 0x08), (&without, 0x08), (&other, 0x11)];
    for (information, code) in malformed {
        let whole = parameters(Some(information));
        let (first, second) = whole.split_at(2);
        assert_eq!(after(VERSION_1, &[first, second]), [Asked::Close(code)]);
    }
}

/// Given, missing and refused are three answers. An empty value is given: a 31, not the version of
/// the flight.
#[test]
fn empty_and_refused_are_not_missing() {
    let repeated: &[u8] = &[0x01, 0, 0x40, 0x01, 0];
    let many: Vec<u8> = (0..65).flat_map(|id| [0x40, id, 0]).collect();
    for sequence in [&carrying(&[])[..], repeated, &[0x01, 2, 0x67], &many] {
        assert_eq!(
            after(VERSION_1, &[&counted(sequence)]),
            [Asked::Close(0x08)]
        );
    }
    assert_eq!(after(VERSION_1, &[&counted(&[])]), goes_on_in(VERSION_1));
    let empty = server_choice(&TABLE, &TABLE, &PAIRS, VERSION_1, Some(&[]));
    assert_eq!(empty, Err(quic_version::Refusal::InformationTooShort));
}

/// The stack's own parameters are at fault: nothing is written.
#[test]
fn faults_of_the_stack() {
    let many: Vec<u8> = (64..128).flat_map(|id| [0x40, id, 0]).collect();
    assert_eq!(
        answer(&many, VERSION_1),
        Err(WriteRefusal::TooManyParameters)
    );
    assert_eq!(
        answer(&[0x01, 0, 0x01, 0], VERSION_1),
        Err(WriteRefusal::IdentifierRepeated)
    );
    // One place less, and there is room for Version Information.
    let (version, ours) = (VERSION_1, information(Sender::Server, VERSION_1, &TABLE));
    let written = answer(&many[3..], version).unwrap();
    assert_eq!(written, [&many[3..], &[0x11, 12], &ours].concat());
}

/// A datagram that cannot be read is dropped; what can be read of the flight still counts.
#[test]
fn unreadable_is_not_missing() {
    let sent = information(Sender::Client, VERSION_1, &[VERSION_1]);
    let whole = parameters(Some(&sent));
    assert_eq!(after(VERSION_1, &[&[0xee]]), []);
    let (first, second) = whole.split_at(3);
    assert_eq!(
        after(VERSION_1, &[first, &[0xee], second]),
        goes_on_in(VERSION_1)
    );
}

/// A version that is not readable: negotiated at once, whatever the datagram holds.
#[test]
fn not_readable() {
    for part in [&[][..], &[0xee], &[9, 9]] {
        let asked = after(14, &[part]);
        let packet = match &asked[..] {
            [Asked::Send(packet)] => packet,
            _ => panic!("{:?}", asked),
        };
        match read_header(packet, 0) {
            Ok(Header::VersionNegotiation {
                destination,
                source,
                list,
            }) => {
                assert_eq!((destination, source), (&SOURCE[..], &DESTINATION[..]));
                assert_eq!(versions(list).collect::<Vec<u32>>(), TABLE);
            }
            other => panic!("{:?}", other),
        }
    }
}

/// A datagram that is too small to open a connection gets no answer; it is counted and not logged
/// (`fault` panics here), whatever the version. One byte more, and it is answered.
#[test]
fn too_small() {
    for version in [14, 0x1a2a_3a4a, u32::MAX] {
        let whole = flight(version, &[]);
        assert_eq!(whole.len(), MIN_ANSWERED_DATAGRAM);
        let least = 7 + DESTINATION.len() + SOURCE.len();
        let mut layers = Around::default();
        for length in 0..whole.len() {
            datagram(&mut layers, &whole[..length]);
        }
        assert_eq!(layers.asked, []);
        let small = vec![WriteRefusal::DatagramTooSmall; whole.len() - least];
        assert_eq!(layers.unanswered, small);
        datagram(&mut layers, &whole);
        match &layers.asked[..] {
            [Asked::Send(packet)] => assert!(packet.len() <= whole.len()),
            asked => panic!("{:?}", asked),
        }
    }
}

/// The same in a version that is readable: the stack drops it, and nothing is decided.
#[test]
fn too_small_for_a_readable_version() {
    let sent = parameters(None);
    let rest = [&[sent.len() as u8][..], &sent].concat();
    let small = long_form(VERSION_1, &DESTINATION, &SOURCE, &rest);
    let mut layers = Around::default();
    datagram(&mut layers, &small);
    assert_eq!((layers.asked, layers.unanswered), (vec![], vec![]));
}

/// The packet that a datagram gets, through the page's `negotiate`.
fn packet_for(bytes: &[u8]) -> Option<Vec<u8>> {
    let mut layers = Around::default();
    negotiate(&mut layers, bytes);
    match layers.asked.pop() {
        Some(Asked::Send(packet)) => Some(packet),
        _ => None,
    }
}

/// What the page warns of: one packet of a datagram, handed over in the place of the datagram.
#[test]
fn a_packet_is_not_the_datagram() {
    let datagram = flight(14, &[]);
    assert!(packet_for(&datagram).is_some());
    assert_eq!(packet_for(&datagram[..300]), None);
}

/// Of a flight of several datagrams any that is large enough gives the packet.
#[test]
fn any_datagram_of_a_flight() {
    let (first, second) = (flight(14, &[1; 30]), flight(14, &[2; 1_300]));
    assert!(packet_for(&first).is_some());
    assert_eq!(packet_for(&first), packet_for(&second));
    assert_eq!(packet_for(&second[..100]), None);
}

/// No datagram makes the page's `negotiate` log a fault of this side (`fault` panics here).
#[test]
fn no_datagram_is_a_fault() {
    let mut layers = Around::default();
    let negotiation = flight(0, &[]);
    let long = vec![0xc0; 65_536];
    for bytes in [&[][..], &[0x40], &[0x40; 1_200], &negotiation, &long] {
        negotiate(&mut layers, bytes);
    }
    let numbers: Vec<u8> = layers.unanswered.iter().map(|r| r.number()).collect();
    assert_eq!((layers.asked, numbers), (vec![], vec![12, 20, 21, 22, 11]));
}

#[test]
fn silence() {
    // Version Negotiation, a short form of no connection, a datagram cut short.
    let negotiation = long_form(0, &DESTINATION, &SOURCE, &[0, 0, 0, 1]);
    let short = [&[0x40][..], &DESTINATION[..]].concat();
    let mut layers = Around::default();
    for bytes in [&negotiation[..], &short, &negotiation[..9], &[]] {
        datagram(&mut layers, bytes);
    }
    assert_eq!(layers.asked, []);

    // The same short form, of a connection.
    layers.connections.push(DESTINATION.to_vec());
    datagram(&mut layers, &short);
    assert_eq!(layers.asked, [Asked::ToConnection]);
}
