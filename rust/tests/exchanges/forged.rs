//! A forged packet never leads down: whatever a client acted on, if it completes with a safe server's
//! Available list, the version that it attempted is the choice from what that server offers.

use crate::ends::{sent_by, Client, Server};
use crate::random::Random;
use crate::{around, exchanges, Seen};
use quic_version::{choose, Attempt, Decision, End, Refusal};
use std::collections::BTreeSet;

const ROUNDS: usize = 150_000;

/// The packet lists anything. Then comes a first outcome with information that has the server's
/// Available list, and a version in use that the server accepts. Whatever is drawn: if the client
/// acted and completed, then
/// - the version that it attempted is the choice from what the server offers;
/// - where the Original Version is not offered, a fresh client attempts it on the server's own packet;
/// - where it is offered, the client's table has it no further behind than the Original Version.
///
/// Else it has closed.
#[test]
fn a_forged_packet_never_leads_down() {
    exchanges(
        "forged exchanges",
        ROUNDS,
        one,
        &[
            ("the client acts on the packet", 30_000),
            ("no version of ours listed, 65", 2_000),
            ("the packet is ignored", 2_000),
            ("completed", 10_000),
            ("closed", 10_000),
            ("closed with 72", 1_000),
            ("closed with 73", 200),
            ("closed with 75", 5_000),
            (
                "completed, and the packet lists other versions than are offered",
                5_000,
            ),
            ("completed, and the packet lists one version", 1_000),
            ("completed, by the server's own choice", 3_000),
            ("completed, by a drawn version", 3_000),
            ("completed with another version than attempted", 500),
            ("completed, the Original Version is not offered", 3_000),
            ("completed, the Original Version is offered", 1_000),
            ("closed, and a worse version was listed", 5_000),
            ("closed after the server's own choice", 3_000),
            ("reserved numbers listed, and completed", 1_000),
        ],
    );
}

/// What a forged packet lists.
fn forged_list(random: &mut Random, client: &Client, server: &Server) -> Vec<u32> {
    let one = *random.pick(&client.table);
    let best = client.first_listed(&server.offered).unwrap_or(one);
    let mut listed = match random.below(8) {
        0 | 1 => vec![one],
        2 => vec![best],
        // Some of the table, or of the offer; all of it.
        3 => random.list(&client.table),
        4 => random.list(&server.offered),
        5 => client.table.clone(),
        6 => server.offered.clone(),
        _ => random.list(&[]),
    };
    if random.one_in(3) {
        listed.push(best);
    }
    if random.one_in(3) {
        listed.extend(random.distinct_reserved(2, 0));
    }
    // Mostly not the Original Version: the packet would be ignored.
    if !random.one_in(16) {
        listed.retain(|v| *v != client.original);
    }
    random.shuffle(&mut listed);
    listed
}

fn one(seen: &mut Seen, random: &mut Random) {
    let (client, server) = random.two_ends();
    let told = || format!("{:?}\n{:?}", client, server);
    assert_eq!(server.configuration().check(), Ok(()), "{}", told());
    let mut attempt = client.start();
    around::before(seen, random, &client, &mut attempt);
    let listed = forged_list(random, &client, &server);
    let answer = attempt.datagram(&client.packet(&listed));
    match answer {
        Ok(attempted) => {
            assert_eq!(Some(attempted), client.first_listed(&listed), "{}", told());
            assert!(attempt.acted());
            seen.note("the client acts on the packet", true);
            around::waiting(seen, random, &client, &mut attempt);
            ended(seen, random, (&client, &server), &mut attempt, &listed);
        }
        Err(Refusal::NoVersionLeft) => {
            assert_eq!(attempt.end(), End::Closed(Refusal::NoVersionLeft));
            seen.note("no version of ours listed, 65", true);
        }
        Err(refusal) => {
            assert!([61, 64].contains(&refusal.number()), "{}", refusal);
            assert!(!attempt.acted() && attempt.end() == End::Open);
            seen.note("the packet is ignored", true);
        }
    }
}

/// The second flight and the outcome of a client that acted on a packet with this list.
fn ended(
    seen: &mut Seen,
    random: &mut Random,
    (client, server): (&Client, &Server),
    attempt: &mut Attempt,
    listed: &[u32],
) {
    let attempted = attempt.attempted();
    let sent = sent_by(attempt, random, seen);
    let barred = random.barred_for(server, attempted);
    let decision = server.choice(&barred, attempted, Some(&sent));
    let by_choice = match decision {
        Ok(Decision::Use(version)) if random.one_in(2) => Some(version),
        _ => None,
    };
    // Else any that the server accepts, mostly one that the client may be answered with.
    let mut free = server.accepted.clone();
    if !random.one_in(4) {
        free.retain(|v| attempt.own_list().contains(v));
    }
    if free.is_empty() {
        free = server.accepted.clone();
    }
    let in_use = by_choice.unwrap_or_else(|| *random.pick(&free));
    assert!(server.accepted.contains(&in_use));
    // Mostly the version in use is Chosen; where the server chose, it is.
    let chosen = match by_choice {
        None if random.one_in(8) => *random.pick(&client.table),
        _ => in_use,
    };
    let answer = attempt.outcome(in_use, Some(&server.information(chosen)));
    let best = client.first_listed(&server.offered);
    let behind = best.map_or(true, |best| client.place(attempted) > client.place(best));
    match answer {
        Ok(version) => {
            assert_eq!((version, attempt.end()), (in_use, End::Completed(in_use)));
            never_down(random, (client, server), attempted);
            seen.note("completed", true);
            seen.note("completed, by the server's own choice", by_choice.is_some());
            seen.note("completed, by a drawn version", by_choice.is_none());
            seen.note(
                "completed with another version than attempted",
                in_use != attempted,
            );
            let offered = server.offered.contains(&client.original);
            seen.note("completed, the Original Version is offered", offered);
            seen.note("completed, the Original Version is not offered", !offered);
            let set = |list: &[u32]| -> BTreeSet<u32> { list.iter().copied().collect() };
            let other = set(listed) != set(&server.offered);
            seen.note(
                "completed, and the packet lists other versions than are offered",
                other,
            );
            seen.note(
                "completed, and the packet lists one version",
                listed.len() == 1,
            );
            let reserved = listed.iter().any(|v| quic_version::is_reserved(*v));
            seen.note("reserved numbers listed, and completed", reserved);
            around::after(seen, random, client, attempt);
        }
        Err(refusal) => {
            assert_eq!(attempt.end(), End::Closed(refusal));
            assert_ne!(refusal.close_code(), None, "{}", refusal);
            seen.note("closed", true);
            seen.note("closed with 72", refusal == Refusal::ChosenNotOurs);
            seen.note("closed with 73", refusal == Refusal::ChosenNotInUse);
            seen.note("closed with 75", refusal == Refusal::Downgraded);
            seen.note("closed, and a worse version was listed", behind);
            seen.note("closed after the server's own choice", by_choice.is_some());
        }
    }
}

/// A client acted, attempted this version, and completed.
fn never_down(random: &mut Random, (client, server): (&Client, &Server), attempted: u32) {
    let told = || format!("attempted {:#x}\n{:?}\n{:?}", attempted, client, server);
    let best = client.first_listed(&server.offered);
    assert_eq!(best, Some(attempted), "{}", told());
    assert_eq!(
        choose(&client.table, &server.offered).ok(),
        best,
        "{}",
        told()
    );
    if server.offered.contains(&client.original) {
        let (place, original) = (client.place(attempted), client.place(client.original));
        assert!(place.is_some() && place <= original, "{}", told());
    } else {
        let flight = client.flight(random);
        let packet = server.packet(&flight, random).unwrap();
        assert_eq!(
            client.start().datagram(&packet),
            Ok(attempted),
            "{}",
            told()
        );
    }
}
