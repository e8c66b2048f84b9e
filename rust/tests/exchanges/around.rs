//! Events that change nothing but the journal, around those that an exchange is about.

use crate::ends::Client;
use crate::random::{long_packet, Random};
use crate::Seen;
use quic_version::{Attempt, End, OwnList};

/// All that is read of an attempt but its journal.
fn standing(attempt: &Attempt) -> (u32, bool, bool, End, OwnList) {
    let (attempted, own) = (attempt.attempted(), attempt.own_list());
    (
        attempted,
        attempt.acted(),
        attempt.heard(),
        attempt.end(),
        own,
    )
}

/// A datagram that is ignored with this number.
fn ignored(attempt: &mut Attempt, datagram: &[u8], number: u8) {
    let before = standing(attempt);
    let answer = attempt.datagram(datagram).map_err(|no| no.number());
    assert_eq!(answer, Err(number), "{:?} {:?}", datagram, attempt);
    assert!(standing(attempt) == before, "{:?}", attempt);
}

/// No readable Version Negotiation packet.
fn junk(random: &mut Random, client: &Client) -> Vec<u8> {
    let listed = *random.pick(&client.table);
    match random.below(5) {
        0 => Vec::new(),
        1 => {
            // A short form.
            let length = 1 + random.below(40);
            let mut bytes = random.bytes(length);
            bytes[0] &= 127;
            bytes
        }
        // The server's handshake packet in a version of ours.
        2 => long_packet(0xc0, listed, &client.source, &client.destination, &[7; 30]),
        3 => {
            let mut packet = client.packet(&[listed]);
            packet.truncate(packet.len() - 1 - random.below(3));
            packet
        }
        _ => client.packet(&[]),
    }
}

/// A packet for another connection, whatever it lists.
fn of_another(random: &mut Random, client: &Client) -> Vec<u8> {
    let mut other = client.clone();
    if random.one_in(2) {
        other.source = random.other_id(&client.source);
    } else {
        other.destination = random.other_id(&client.destination);
    }
    other.packet(&[*random.pick(&client.table)])
}

/// A packet for this client that lists some versions and the Original Version.
fn with_original(random: &mut Random, client: &Client) -> Vec<u8> {
    let mut listed = random.list(&client.table);
    listed.push(client.original);
    random.shuffle(&mut listed);
    client.packet(&listed)
}

/// A packet for this client that lists versions of its table.
fn any_packet(random: &mut Random, client: &Client) -> Vec<u8> {
    let mut listed = random.list(&client.table);
    listed.push(*random.pick(&client.table));
    client.packet(&listed)
}

/// Before a client acted or heard: stray datagrams, which are ignored.
pub fn before(seen: &mut Seen, random: &mut Random, client: &Client, attempt: &mut Attempt) {
    for _ in 0..random.below(4) {
        let (datagram, number) = match random.below(3) {
            0 => (junk(random, client), 61),
            1 => (of_another(random, client), 63),
            _ => (with_original(random, client), 64),
        };
        ignored(attempt, &datagram, number);
        seen.note("ignored before the act: no packet, 61", number == 61);
        seen.note("ignored before the act: of another, 63", number == 63);
        seen.note("ignored before the act: Original, 64", number == 64);
    }
}

/// After the act: late packets, and genuine ones that were processed. The same while a client that
/// heard waits for its outcome, where it never acts.
pub fn waiting(seen: &mut Seen, random: &mut Random, client: &Client, attempt: &mut Attempt) {
    for _ in 0..random.below(4) {
        if random.one_in(3) || !(attempt.acted() || attempt.heard()) {
            attempt.packet_processed().unwrap();
            assert_eq!((attempt.heard(), attempt.end()), (true, End::Open));
            seen.note("processed while waiting", true);
        } else {
            late(seen, random, client, attempt);
        }
    }
}

fn late(seen: &mut Seen, random: &mut Random, client: &Client, attempt: &mut Attempt) {
    let (datagram, number) = match random.below(4) {
        0 => (junk(random, client), 61),
        1 => (of_another(random, client), 62),
        2 => (with_original(random, client), 62),
        _ => (any_packet(random, client), 62),
    };
    ignored(attempt, &datagram, number);
    seen.note("ignored later, 61", number == 61);
    seen.note("ignored later, 62", number == 62);
}

/// After the end nothing changes it.
pub fn after(seen: &mut Seen, random: &mut Random, client: &Client, attempt: &mut Attempt) {
    let end = attempt.end();
    assert_ne!(end, End::Open);
    for _ in 0..random.below(3) {
        late(seen, random, client, attempt);
        let processed = attempt.packet_processed().map_err(|no| no.number());
        assert_eq!(processed, Err(62));
        let answer = attempt.outcome(client.original, None);
        assert_eq!(answer.map_err(|no| no.number()), Err(62));
        assert_eq!(attempt.end(), end);
    }
}
