//! The page's client, run.

use super::*;
use crate::link::{carrying, information, long_form, negotiation, DESTINATION, SOURCE, STACK};

/// What the client asked of the layers around it.
#[derive(Debug, PartialEq)]
enum Asked {
    FirstFlight(u32, Vec<u8>),
    RemoveProtection(Option<u32>),
    KeepPacket(Vec<u8>),
    Report { in_use: u32, attempted: u32 },
    Close(u64),
    GiveUp,
    Connected(u32),
    Fault(String),
}

struct Around {
    stack: Vec<u8>,
    asked: Vec<Asked>,
}

impl Default for Around {
    fn default() -> Around {
        Around {
            stack: STACK.to_vec(),
            asked: Vec::new(),
        }
    }
}

impl Layers for Around {
    fn stack_parameters(&self) -> Vec<u8> {
        self.stack.clone()
    }
    fn send_first_flight(&mut self, version: u32, parameters: &[u8]) {
        self.asked
            .push(Asked::FirstFlight(version, parameters.to_vec()));
    }
    fn remove_protection(&mut self, version: Option<u32>, _: &[u8]) {
        self.asked.push(Asked::RemoveProtection(version));
    }
    fn keep_packet(&mut self, packet: &[u8]) {
        self.asked.push(Asked::KeepPacket(packet.to_vec()));
    }
    fn report(&mut self, attempt: &Attempt, in_use: u32, _: Option<&[u8]>) {
        let attempted = attempt.attempted();
        self.asked.push(Asked::Report { in_use, attempted });
    }
    fn close_connection(&mut self, code: u64) {
        self.asked.push(Asked::Close(code));
    }
    fn give_up(&mut self) {
        self.asked.push(Asked::GiveUp);
    }
    fn connected(&mut self, version: u32) {
        self.asked.push(Asked::Connected(version));
    }
    fn fault(&mut self, text: &str) {
        self.asked.push(Asked::Fault(text.to_string()));
    }
}

impl Client<Around> {
    /// What was asked since the last time.
    fn asked(&mut self) -> Vec<Asked> {
        std::mem::take(&mut self.layers.asked)
    }
}

/// The page's client after its first flight.
fn started() -> Client<Around> {
    let mut client = Client::start(&DESTINATION, &SOURCE, Around::default()).unwrap();
    let sent = information(Sender::Client, VERSION_1, &[VERSION_2, VERSION_1]);
    let sent = carrying(&sent);
    assert_eq!(client.asked(), [Asked::FirstFlight(VERSION_1, sent)]);
    client
}

/// The page's client against a server that takes the version of its first flight and its transport
/// parameters, and answers the version in use and its own. The version that it has completed with.
pub(crate) fn against(server: impl FnOnce(u32, &[u8]) -> (u32, Vec<u8>)) -> Option<u32> {
    let mut client = Client::start(&DESTINATION, &SOURCE, Around::default()).unwrap();
    let (in_use, answer) = match &client.asked()[..] {
        [Asked::FirstFlight(version, parameters)] => server(*version, parameters),
        asked => panic!("{:?}", asked),
    };
    client.handshake_done(in_use, &answer);
    match client.asked()[..] {
        [Asked::Connected(version)] => Some(version),
        _ => None,
    }
}

/// The same client with another table, no pairs, and 12 as Original Version.
fn attempting(table: &[u32]) -> Client<Around> {
    let attempt = Attempt::start(table, &[], 12, &DESTINATION, &SOURCE).unwrap();
    Client {
        attempt,
        layers: Around::default(),
    }
}

/// The same after a Version Negotiation packet that lists 10 alone.
fn led_to_10() -> Client<Around> {
    let mut client = attempting(&[14, 12, 10]);
    let packet = negotiation(12, &[10]).unwrap();
    client.datagram(&packet);
    let sent = carrying(&information(Sender::Client, 10, &[10]));
    assert_eq!(
        client.asked(),
        [Asked::KeepPacket(packet), Asked::FirstFlight(10, sent)]
    );
    client
}

/// A packet from the server.
fn packet(version: u32) -> Vec<u8> {
    long_form(version, &SOURCE, &DESTINATION, &[7; 20])
}

#[test]
fn completes_in_a_compatible_version() {
    let mut client = started();
    client.datagram(&packet(VERSION_1));
    client.datagram(&packet(VERSION_2));
    client.packet_processed();
    client.datagram(&[0x40; 30]);
    assert_eq!(
        client.asked(),
        [
            Asked::RemoveProtection(Some(VERSION_1)),
            Asked::RemoveProtection(Some(VERSION_2)),
            Asked::RemoveProtection(None),
        ]
    );
    let answer = information(Sender::Server, VERSION_2, &[VERSION_2, VERSION_1]);
    client.handshake_done(VERSION_2, &carrying(&answer));
    assert_eq!(client.asked(), [Asked::Connected(VERSION_2)]);
    // Once more: too late, and nothing is closed.
    client.handshake_done(VERSION_2, &STACK);
    assert_eq!(client.asked(), []);
}

/// A version that the client did not list, a packet cut short, an empty list of versions.
#[test]
fn drops_what_it_did_not_ask_for() {
    let mut client = started();
    client.datagram(&packet(14));
    client.datagram(&packet(VERSION_1)[..9]);
    client.datagram(&packet(0)[..23]);
    client.datagram(&[]);
    assert_eq!(client.asked(), []);
}

/// The page's client after its first flight, where that does not convert to version 2.
fn barring() -> Client<Around> {
    let pairs = [(VERSION_1, VERSION_2), (VERSION_2, VERSION_1)].map(Pair::from);
    let (table, barred) = ([VERSION_2, VERSION_1], &pairs[..1]);
    let attempt =
        Attempt::start_barring(&table, &pairs, barred, VERSION_1, &DESTINATION, &SOURCE).unwrap();
    let mut client = Client {
        attempt,
        layers: Around::default(),
    };
    client.first_flight();
    client
}

/// A barred version is not sent; its packets are dropped, and the page's server does not use it.
#[test]
fn barred_versions_are_not_listed() {
    let mut client = barring();
    let sent = carrying(&information(Sender::Client, VERSION_1, &[VERSION_1]));
    assert_eq!(
        client.asked(),
        [Asked::FirstFlight(VERSION_1, sent.clone())]
    );
    client.datagram(&packet(VERSION_2));
    client.datagram(&packet(VERSION_1));
    assert_eq!(client.asked(), [Asked::RemoveProtection(Some(VERSION_1))]);
    let (in_use, answer) = crate::server::run::goes_on_with(VERSION_1, &sent);
    assert_eq!(in_use, VERSION_1);
    client.handshake_done(in_use, &answer);
    assert_eq!(client.asked(), [Asked::Connected(VERSION_1)]);
}

/// A server that uses it all the same: 72, closed and not reported.
#[test]
fn barred_version_in_use() {
    let mut client = barring();
    client.asked();
    let answer = information(Sender::Server, VERSION_2, &[VERSION_2, VERSION_1]);
    client.handshake_done(VERSION_2, &carrying(&answer));
    assert_eq!(client.asked(), [Asked::Close(0x11)]);
    let refusal = quic_version::End::Closed(Refusal::ChosenNotOurs);
    assert_eq!(client.attempt.end(), refusal);
}

/// The long header says version 1, the authenticated Chosen Version is 2: 73.
#[test]
fn long_header_is_not_the_last_word() {
    let mut client = started();
    let answer = information(Sender::Server, VERSION_2, &[VERSION_2, VERSION_1]);
    client.handshake_done(VERSION_1, &carrying(&answer));
    assert_eq!(client.asked(), [Asked::Close(0x11)]);
}

/// A Retry that was processed, or any other packet: Version Negotiation is ignored from then on.
#[test]
fn processed_packets_make_version_negotiation_late() {
    let mut client = attempting(&[14, 12, 10]);
    client.packet_processed();
    client.datagram(&negotiation(12, &[14, 10]).unwrap());
    assert_eq!(client.asked(), []);
    assert_eq!(client.attempt.attempted(), 12);
}

/// The connection IDs of the record are compared before an act only.
#[test]
fn ids_are_free_after_an_act() {
    let new = ([0xd2; 8], [0x52; 8]);
    let list = 14u32.to_be_bytes();
    let to_new = long_form(0, &new.1, &new.0, &list);
    let to_old = negotiation(12, &[14]).unwrap();

    let mut before = attempting(&[14, 12, 10]);
    assert_eq!(
        before.attempt.datagram(&to_new),
        Err(Refusal::OtherConnection)
    );
    let mut after = led_to_10();
    for packet in [to_new, to_old] {
        assert_eq!(after.attempt.datagram(&packet), Err(Refusal::TooLate));
    }
}

#[test]
fn nothing_in_common() {
    let mut client = attempting(&[14, 12, 10]);
    client.datagram(&negotiation(12, &[13]).unwrap());
    assert_eq!(client.asked(), [Asked::GiveUp]);
}

/// 74 and 75: logged with what was attempted, and closed with 0x11.
#[test]
fn downgrades_are_reported() {
    for available in [&[][..], &[14, 12, 10]] {
        let mut client = led_to_10();
        let answer = information(Sender::Server, 10, available);
        client.handshake_done(10, &carrying(&answer));
        let report = Asked::Report {
            in_use: 10,
            attempted: 10,
        };
        assert_eq!(client.asked(), [report, Asked::Close(0x11)]);
    }
}

/// Other refusals of an outcome, a 71 and a 31, are closed too, and not reported.
#[test]
fn other_refusals_are_closed() {
    let mut client = led_to_10();
    client.handshake_done(10, &STACK);
    assert_eq!(client.asked(), [Asked::Close(0x11)]);
    let mut client = led_to_10();
    client.handshake_done(10, &carrying(&[0, 0, 0]));
    assert_eq!(client.asked(), [Asked::Close(0x08)]);
}

/// Given, missing and refused are three answers. An empty value is given: a 31.
#[test]
fn empty_and_refused_are_not_missing() {
    let repeated = [&carrying(&[0, 0, 0, 12])[..], &[0x40, 0x11, 0]].concat();
    let cut = &carrying(&[0, 0, 0, 12])[..13];
    let many: Vec<u8> = (64..=128).flat_map(|id| [0x40, id, 0]).collect();
    for parameters in [&carrying(&[])[..], &repeated, cut, &many, &[0; 16_385]] {
        let mut client = attempting(&[14, 12, 10]);
        client.handshake_done(12, parameters);
        assert_eq!(client.asked(), [Asked::Close(0x08)]);
    }
    // Truly missing: there, an empty sequence, and what a stack hands over that has looked itself.
    for parameters in [&STACK[..], &[]] {
        let mut client = attempting(&[14, 12, 10]);
        client.handshake_done(12, parameters);
        assert_eq!(client.asked(), [Asked::Connected(12)]);
    }
    let mut client = attempting(&[14, 12, 10]);
    client.outcome(12, None);
    assert_eq!(client.asked(), [Asked::Connected(12)]);
    // Missing, and handed over as empty: an honest server is closed on.
    let mut client = attempting(&[14, 12, 10]);
    client.outcome(12, Some(&[]));
    assert_eq!(client.asked(), [Asked::Close(0x08)]);
}

/// A sequence that is refused leaves the attempt open: it is to be forgotten. Who goes on with
/// "missing" completes.
#[test]
fn refused_parameters_are_no_outcome() {
    let mut client = attempting(&[14, 12, 10]);
    client.handshake_done(12, &[0x11, 0, 0x11, 0]);
    assert_eq!(client.asked(), [Asked::Close(0x08)]);
    assert_eq!(client.attempt.end(), quic_version::End::Open);
    client.outcome(12, None);
    assert_eq!(client.asked(), [Asked::Connected(12)]);
}

/// The stack's own parameters are at fault: nothing is sent, and nothing is closed.
#[test]
fn faults_of_the_stack() {
    let many: Vec<u8> = (64..128).flat_map(|id| [0x40, id, 0]).collect();
    let long = [&[0x01, 0x7f, 0xf0][..], &[0xff; 0x3ff0]].concat();
    let cases: [(&[u8], WriteRefusal); 4] = [
        (&long, WriteRefusal::SequenceTooLong),
        (&[0x01, 2, 0x67], WriteRefusal::RunsPastTheEnd),
        (&[0x01, 0, 0x40, 0x01, 0], WriteRefusal::IdentifierRepeated),
        (&many, WriteRefusal::TooManyParameters),
    ];
    for (stack, refusal) in cases {
        let layers = Around {
            stack: stack.to_vec(),
            ..Around::default()
        };
        let mut client = Client::start(&DESTINATION, &SOURCE, layers).unwrap();
        assert_eq!(client.asked(), [Asked::Fault(refusal.to_string())]);
    }
}

/// After an act Version Information is another: the sequence of the earlier flight is a 51.
#[test]
fn sequence_of_an_earlier_flight() {
    let mut client = attempting(&[14, 12, 10]);
    client.first_flight();
    let earlier = match &client.asked()[..] {
        [Asked::FirstFlight(12, parameters)] => parameters.clone(),
        asked => panic!("{:?}", asked),
    };
    client.datagram(&negotiation(12, &[10]).unwrap());
    let now = match &client.asked()[..] {
        [_, Asked::FirstFlight(10, parameters)] => parameters.clone(),
        asked => panic!("{:?}", asked),
    };
    let choice = |parameters| {
        let found = find_version_information(parameters).unwrap();
        quic_version::server_choice(&[10], &[10], &[], 10, found)
    };
    assert_eq!(choice(&earlier), Err(Refusal::ChosenNotReceived));
    assert_eq!(choice(&now), Ok(quic_version::Decision::Use(10)));
    // The stack may hand the earlier sequence over: what stands there is replaced.
    client.layers.stack = earlier;
    client.first_flight();
    assert_eq!(client.asked(), [Asked::FirstFlight(10, now)]);
}

/// After a 75: a new attempt with the whole table and new IDs ignores a late copy of the packet and
/// completes as if there had been no attack; one with the table that the attacker asked for is the
/// downgrade.
#[test]
fn going_on_after_75() {
    let answer = information(Sender::Server, 12, &[14, 12, 10]);
    let mut whole = Attempt::start(&[14, 12, 10], &[], 12, &[0xd2; 8], &[0x52; 8]).unwrap();
    let copy = negotiation(12, &[10]).unwrap();
    assert_eq!(whole.datagram(&copy), Err(Refusal::OtherConnection));
    assert_eq!(whole.outcome(12, Some(&answer)), Ok(12));

    let mut cut = Attempt::start(&[10], &[], 10, &DESTINATION, &SOURCE).unwrap();
    let answer = information(Sender::Server, 10, &[14, 12, 10]);
    assert_eq!(cut.outcome(10, Some(&answer)), Ok(10));
}
