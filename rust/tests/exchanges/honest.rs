//! An honest exchange with a safe server completes, or ends with 65 where nothing is in common.

use crate::ends::{sent_by, Client, Server};
use crate::random::Random;
use crate::{around, exchanges, Seen};
use quic_version::{choose, Attempt, Decision, End, Refusal, MAX_AVAILABLE, MAX_TABLE};

const ROUNDS: usize = 150_000;

/// Nobody forges anything. What comes around is ignored. Whatever is drawn:
/// - the server refuses no flight;
/// - where it decides "negotiate" its packet writer answers, so not with 24;
/// - the client gets 65 where nothing of its table is offered, and acts else, with the choice from
///   what is offered;
/// - on its second flight the server decides to use a version;
/// - every outcome completes, with or without an act: no 71 to 75.
#[test]
fn an_honest_exchange_completes() {
    exchanges(
        "honest exchanges",
        ROUNDS,
        one,
        &[
            ("a version is used at the first flight", 10_000),
            ("the server negotiates", 20_000),
            ("the packet is sent though a version would be used", 1_000),
            ("nothing in common, 65", 2_000),
            ("the client acts", 20_000),
            ("completed without an act", 10_000),
            ("completed after an act", 20_000),
            ("in use another version than attempted, no act", 500),
            ("in use another version than attempted, after an act", 1_000),
            ("barred versions change the second choice", 200),
            (
                "barred pairs shorten the own list of the second flight",
                500,
            ),
            ("readable, and not accepted", 1_000),
            ("the packet ends with reserved numbers", 10_000),
            ("lists sent with reserved numbers", 20_000),
            ("first flights without information", 2_000),
            ("64 in the client's table, and negotiated", 100),
            ("64 offered, and negotiated", 100),
            ("255 Available, completed after an act", 500),
            ("Available with repeats, completed after an act", 2_000),
            ("ignored before the act: no packet, 61", 10_000),
            ("ignored before the act: of another, 63", 10_000),
            ("ignored before the act: Original, 64", 10_000),
            ("ignored later, 61", 5_000),
            ("ignored later, 62", 10_000),
            ("processed while waiting", 10_000),
        ],
    );
}

fn one(seen: &mut Seen, random: &mut Random) {
    let (client, server) = random.two_ends();
    let told = || format!("{:?}\n{:?}", client, server);
    assert_eq!(server.configuration().check(), Ok(()), "{}", told());
    let mut attempt = client.start();
    around::before(seen, random, &client, &mut attempt);

    let flight = client.flight(random);
    let sent = sent_by(&attempt, random, seen);
    let missing = random.one_in(16);
    seen.note("first flights without information", missing);
    let barred = random.barred_for(&server, client.original);
    let information = if missing { None } else { Some(&sent[..]) };
    let decision = server.choice(&barred, client.original, information);
    let readable = server.readable.contains(&client.original);
    let accepted = server.accepted.contains(&client.original);
    seen.note("readable, and not accepted", readable && !accepted);
    match decision.unwrap_or_else(|refusal| panic!("{}\n{}", refusal, told())) {
        Decision::Use(version) => {
            // The server may send its packet all the same, where it can.
            let packet = !server.offered.contains(&client.original) && random.one_in(2);
            seen.note("the packet is sent though a version would be used", packet);
            if !packet {
                seen.note("a version is used at the first flight", true);
                completes(seen, random, (&client, &server), &mut attempt, version);
                return;
            }
        }
        Decision::Negotiate => seen.note("the server negotiates", true),
    }
    let packet = server.packet(&flight, random);
    let packet = packet.unwrap_or_else(|refusal| panic!("{}\n{}", refusal, told()));
    let ids = client.destination.len() + client.source.len();
    let listed = (packet.len() - 7 - ids) / 4;
    seen.note(
        "the packet ends with reserved numbers",
        listed > server.offered.len(),
    );
    around::before(seen, random, &client, &mut attempt);
    negotiated(seen, random, (&client, &server), &mut attempt, &packet);
}

/// The server's packet reaches the client.
fn negotiated(
    seen: &mut Seen,
    random: &mut Random,
    (client, server): (&Client, &Server),
    attempt: &mut Attempt,
    packet: &[u8],
) {
    let told = || format!("{:?}\n{:?}", client, server);
    seen.note(
        "64 in the client's table, and negotiated",
        client.table.len() == MAX_TABLE,
    );
    seen.note(
        "64 offered, and negotiated",
        server.offered.len() == MAX_TABLE,
    );
    let answer = attempt.datagram(packet);
    let best = match client.first_listed(&server.offered) {
        None => {
            assert_eq!(answer, Err(Refusal::NoVersionLeft), "{}", told());
            assert_eq!(attempt.end(), End::Closed(Refusal::NoVersionLeft));
            seen.note("nothing in common, 65", true);
            around::after(seen, random, client, attempt);
            return;
        }
        Some(best) => best,
    };
    assert_eq!(choose(&client.table, &server.offered), Ok(best));
    assert_eq!(answer, Ok(best), "{}", told());
    assert!(attempt.acted() && attempt.end() == End::Open);
    seen.note("the client acts", true);
    around::waiting(seen, random, client, attempt);

    // The second flight.
    let attempted = attempt.attempted();
    assert_eq!(attempted, best);
    let sent = sent_by(attempt, random, seen);
    let barred = random.barred_for(server, attempted);
    let decision = server.choice(&barred, attempted, Some(&sent));
    let version = match decision {
        Ok(Decision::Use(version)) => version,
        other => panic!("{:?} at the second flight\n{}", other, told()),
    };
    let otherwise = server.choice(&[], attempted, Some(&sent));
    seen.note(
        "barred versions change the second choice",
        otherwise != decision,
    );
    let mut unbarred = client.clone();
    unbarred.barred.clear();
    let mut unbarred = unbarred.start();
    assert_eq!(unbarred.datagram(packet), Ok(best));
    let shorter = attempt.own_list().len() < unbarred.own_list().len();
    seen.note(
        "barred pairs shorten the own list of the second flight",
        shorter,
    );
    completes(seen, random, (client, server), attempt, version);
}

/// The handshake ends with a version that the server decided to use, and its Version Information.
fn completes(
    seen: &mut Seen,
    random: &mut Random,
    (client, server): (&Client, &Server),
    attempt: &mut Attempt,
    version: u32,
) {
    let told = || format!("{:?}\n{:?}", client, server);
    assert!(server.accepted.contains(&version), "{}", told());
    around::waiting(seen, random, client, attempt);
    let answer = attempt.outcome(version, Some(&server.information(version)));
    assert_eq!(answer, Ok(version), "{:?}\n{}", attempt, told());
    assert_eq!(attempt.end(), End::Completed(version));
    let (acted, other) = (attempt.acted(), version != attempt.attempted());
    seen.note("completed without an act", !acted);
    seen.note("completed after an act", acted);
    seen.note(
        "in use another version than attempted, no act",
        other && !acted,
    );
    seen.note(
        "in use another version than attempted, after an act",
        other && acted,
    );
    let available = server.available.len();
    seen.note(
        "255 Available, completed after an act",
        acted && available == MAX_AVAILABLE,
    );
    let repeats = available > server.offered.len();
    seen.note(
        "Available with repeats, completed after an act",
        acted && repeats,
    );
    around::after(seen, random, client, attempt);
}
