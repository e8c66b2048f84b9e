//! "Safe configurations": each rule, and what happens without it.

use crate::link::{information, link, negotiation, Client, End, Server, DESTINATION, SOURCE};
use quic_version::{
    server_choice, Attempt, ConfigurationFault, Decision, Pair, Refusal, Sender, WriteRefusal,
    VERSION_1 as ONE, VERSION_2 as TWO,
};

/// The versions of the small world that is gone through.
pub const WORLD: [u32; 3] = [1, 2, 3];

/// Every list of distinct versions of the world that is not empty.
pub fn tables() -> Vec<Vec<u32>> {
    let mut tables: Vec<Vec<u32>> = WORLD.iter().map(|v| vec![*v]).collect();
    let mut from = 0;
    while from < tables.len() {
        let table = tables[from].clone();
        for version in WORLD.iter().filter(|v| !table.contains(v)) {
            let mut longer = table.clone();
            longer.push(*version);
            tables.push(longer);
        }
        from += 1;
    }
    tables
}

/// Every set of the given things.
pub fn sets<T: Copy>(of: &[T]) -> Vec<Vec<T>> {
    (0..1usize << of.len())
        .map(|set| {
            let held = |at: &usize| set >> at & 1 == 1;
            (0..of.len()).filter(held).map(|at| of[at]).collect()
        })
        .collect()
}

/// Every pair.
pub fn all_pairs() -> Vec<Pair> {
    let mut all = Vec::new();
    for from in WORLD {
        for to in WORLD {
            if from != to {
                all.push(Pair { from, to });
            }
        }
    }
    all
}

/// Every set of pairs.
pub fn pairs() -> Vec<Vec<Pair>> {
    sets(&all_pairs())
}

/// Every client of the world, with every set of pairs.
pub fn clients(with: &mut dyn FnMut(Client<'_>)) {
    for table in &tables() {
        for pairs in &pairs() {
            for original in table {
                with(Client {
                    table,
                    pairs,
                    original: *original,
                });
            }
        }
    }
}

pub fn sorted(versions: &[u32]) -> Vec<u32> {
    let mut sorted = versions.to_vec();
    sorted.sort_unstable();
    sorted
}

/// The honest ends: completed, or nothing in common.
fn is_honest(end: End) -> bool {
    matches!(
        end,
        End::Completed { .. } | End::Refused(Refusal::NoVersionLeft)
    )
}

/// Every server that keeps the safe rule, with every set of pairs: accepted, offered and Available
/// hold the same versions, in whatever order, and each of them is readable. Readable may hold more.
fn safe_servers(with: &mut dyn FnMut(Server<'_>)) {
    let pairs = pairs();
    for accepted in &tables() {
        let offered = sorted(accepted);
        let available: Vec<u32> = offered.iter().rev().copied().collect();
        let others: Vec<u32> = WORLD
            .into_iter()
            .filter(|v| !accepted.contains(v))
            .collect();
        for more in sets(&others) {
            let readable = [&offered[..], &more[..]].concat();
            for pairs in &pairs {
                let server = Server {
                    readable: &readable,
                    accepted,
                    offered: &offered,
                    available: &available,
                    pairs,
                };
                assert_eq!(server.check(), Ok(()), "{:?}", server);
                with(server);
            }
        }
    }
}

/// Every client and every server that keeps the safe rule, by a link: each end is honest.
pub fn all_are_safe(link: impl Fn(Client<'_>, Server<'_>) -> End) {
    let (mut links, mut acted, mut other_version) = (0, 0, 0);
    safe_servers(&mut |server| {
        clients(&mut |client| {
            let end = link(client, server);
            assert!(is_honest(end), "{:?} {:?} {:?}", end, client, server);
            links += 1;
            if let End::Completed { attempted, in_use } = end {
                acted += u32::from(attempted != client.original);
                other_version += u32::from(attempted != in_use);
            }
        });
    });
    // The rule is not kept by a world in which nothing happens.
    assert!(links > 4_000_000 && acted > 100_000 && other_version > 100_000);
}

/// With nothing barred.
#[test]
fn the_safe_rule() {
    all_are_safe(link);
}

/// A server without pairs may list fewer Available Versions than it offers, but not none.
#[test]
fn fewer_available_without_pairs() {
    for accepted in &tables() {
        let offered = sorted(accepted);
        for available in sets(&offered) {
            let server = Server {
                readable: &offered,
                accepted,
                offered: &offered,
                available: &available,
                pairs: &[],
            };
            let mut empty_refused = 0;
            clients(&mut |client| {
                let end = link(client, server);
                if available.is_empty() && end == End::Refused(Refusal::AvailableEmpty) {
                    empty_refused += 1;
                } else {
                    assert!(is_honest(end), "{:?} {:?} {:?}", end, client, server);
                }
            });
            // The world has a client that acts, unless the server accepts all of it.
            let all = offered.len() == WORLD.len();
            assert_eq!(empty_refused > 0, available.is_empty() && !all);
        }
    }
}

/// The client of the examples below: it begins in 14, which no server below can read.
const CLIENT: Client<'static> = Client {
    table: &[TWO, ONE, 14],
    pairs: &[Pair { from: ONE, to: TWO }],
    original: 14,
};

const TO_TWO: [Pair; 1] = [Pair { from: ONE, to: TWO }];

/// 24: the version to negotiate about is offered itself.
const NOT_SENT: End = End::NotSent(WriteRefusal::ReceivedVersionOffered);

/// The same server, safe: what is accepted is readable, offered and listed.
#[test]
fn safe_for_the_client_of_the_examples() {
    let server = Server {
        readable: &[TWO, ONE],
        accepted: &[TWO, ONE],
        offered: &[TWO, ONE],
        available: &[TWO, ONE],
        pairs: &TO_TWO,
    };
    assert_eq!(server.check(), Ok(()));
    let end = End::Completed {
        attempted: TWO,
        in_use: TWO,
    };
    assert_eq!(link(CLIENT, server), end);
}

/// "Offer what is readable, accept more through pairs": 75, and nobody attacks.
#[test]
fn accepted_through_a_pair_but_not_offered() {
    let server = Server {
        readable: &[ONE],
        accepted: &[TWO, ONE],
        offered: &[ONE],
        available: &[ONE],
        pairs: &TO_TWO,
    };
    let fault = ConfigurationFault::AcceptedNotOffered(TWO);
    assert_eq!(server.check(), Err(fault));
    assert_eq!(link(CLIENT, server), End::Refused(Refusal::Downgraded));
    // Nor does it help to list all that is accepted.
    let server = Server {
        available: &[TWO, ONE],
        ..server
    };
    assert_eq!(server.check(), Err(fault));
    assert_eq!(link(CLIENT, server), End::Refused(Refusal::Downgraded));
}

/// Offered and accepted, but not readable: 24, and the client waits in vain.
#[test]
fn accepted_but_not_readable() {
    let server = Server {
        readable: &[ONE],
        accepted: &[TWO, ONE],
        offered: &[TWO, ONE],
        available: &[TWO, ONE],
        pairs: &[],
    };
    let fault = ConfigurationFault::OfferedNotReadable(TWO);
    assert_eq!(server.check(), Err(fault));
    assert_eq!(link(CLIENT, server), NOT_SENT);
}

/// Offered, but not accepted: the same.
#[test]
fn offered_but_not_accepted() {
    let server = Server {
        readable: &[TWO, ONE],
        accepted: &[ONE],
        offered: &[TWO, ONE],
        available: &[ONE],
        pairs: &[],
    };
    let fault = ConfigurationFault::OfferedNotAccepted(TWO);
    assert_eq!(server.check(), Err(fault));
    assert_eq!(link(CLIENT, server), NOT_SENT);
}

/// Available, but not offered: 75.
#[test]
fn available_but_not_offered() {
    let server = Server {
        readable: &[TWO, ONE],
        accepted: &[ONE],
        offered: &[ONE],
        available: &[TWO, ONE],
        pairs: &[],
    };
    let fault = ConfigurationFault::AvailableNotOffered(TWO);
    assert_eq!(server.check(), Err(fault));
    assert_eq!(link(CLIENT, server), End::Refused(Refusal::Downgraded));
}

/// Offered, but not Available: 75 where a pair leads to another version.
#[test]
fn offered_but_not_available() {
    let server = Server {
        readable: &[TWO, ONE],
        accepted: &[TWO, ONE],
        offered: &[TWO, ONE],
        available: &[TWO],
        pairs: &TO_TWO,
    };
    let fault = ConfigurationFault::OfferedNotAvailable(ONE);
    assert_eq!(server.check(), Err(fault));
    // This client likes version 1 better; the server likes version 2 better, and gets there.
    let client = Client {
        table: &[ONE, TWO, 14],
        ..CLIENT
    };
    assert_eq!(link(client, server), End::Refused(Refusal::Downgraded));
    let server = Server {
        available: &[TWO, ONE],
        ..server
    };
    let end = End::Completed {
        attempted: ONE,
        in_use: TWO,
    };
    assert_eq!(link(client, server), end);
}

/// Nothing Available: 74, whatever else is right.
#[test]
fn nothing_available() {
    let server = Server {
        readable: &[TWO, ONE],
        accepted: &[TWO, ONE],
        offered: &[TWO, ONE],
        available: &[],
        pairs: &TO_TWO,
    };
    let fault = ConfigurationFault::OfferedNotAvailable(TWO);
    assert_eq!(server.check(), Err(fault));
    assert_eq!(link(CLIENT, server), End::Refused(Refusal::AvailableEmpty));
}

/// A configuration that changes between the packet and the handshake looks like an attack.
#[test]
fn changed_between_packet_and_handshake() {
    let mut attempt =
        Attempt::start(CLIENT.table, CLIENT.pairs, 14, &DESTINATION, &SOURCE).unwrap();
    let before = negotiation(14, &[ONE]).unwrap();
    assert_eq!(attempt.datagram(&before), Ok(ONE));
    let after = information(Sender::Server, ONE, &[TWO, ONE]);
    let answer = attempt.outcome(ONE, Some(&after));
    assert_eq!(answer, Err(Refusal::Downgraded));
}

/// A client that lists more than its own list: 72 from an honest server.
#[test]
fn more_sent_than_the_own_list() {
    let mut attempt = Attempt::start(&[TWO, ONE], &[], ONE, &DESTINATION, &SOURCE).unwrap();
    assert_eq!(*attempt.own_list(), [ONE]);
    let sent = information(Sender::Client, ONE, &[TWO, ONE]);
    let table = [TWO, ONE];
    let decision = server_choice(&table, &table, &TO_TWO, ONE, Some(&sent));
    assert_eq!(decision, Ok(Decision::Use(TWO)));
    let answer = information(Sender::Server, TWO, &table);
    assert_eq!(
        attempt.outcome(TWO, Some(&answer)),
        Err(Refusal::ChosenNotOurs)
    );
}

/// A flight whose version is readable and accepted is never answered with "negotiate", whatever
/// information it turns out to hold. So it may be acknowledged before it is whole.
#[test]
fn accepted_flights_are_never_negotiated() {
    let mut given: Vec<Option<Vec<u8>>> = vec![None, Some(Vec::new()), Some(vec![0; 5])];
    for chosen in WORLD {
        for available in sets(&WORLD) {
            given.push(Some(information(Sender::Server, chosen, &available)));
        }
    }
    for accepted in &tables() {
        for pairs in &pairs() {
            for version in accepted {
                for information in &given {
                    let decision =
                        server_choice(&WORLD, accepted, pairs, *version, information.as_deref());
                    assert_ne!(decision, Ok(Decision::Negotiate));
                }
            }
        }
    }
}

/// Refusals that are faults of the configuration or of the caller have no close code.
#[test]
fn faults_have_no_close_code() {
    let bad_table = server_choice(&[ONE], &[], &[], ONE, None).unwrap_err();
    let equal = Pair { from: ONE, to: ONE };
    let bad_pairs = server_choice(&[ONE], &[ONE], &[equal], ONE, None).unwrap_err();
    assert_eq!(bad_table, Refusal::BadTable);
    assert_eq!(bad_pairs, Refusal::BadPairs);
    for refusal in [
        bad_table,
        bad_pairs,
        Refusal::OriginalNotInTable,
        Refusal::ConnectionIdTooLong,
        Refusal::NotValid,
    ] {
        assert_eq!(refusal.close_code(), None);
    }
}

/// A client with this table and the pair 3 to 4, led to a version by a packet. The handshake ends
/// in the version in use with these Available Versions. The version that it attempted, if it has
/// completed.
fn attempted(table: &[u32], listed: u32, in_use: u32, available: &[u32]) -> Option<u32> {
    let pairs = [Pair { from: 3, to: 4 }];
    let mut attempt = Attempt::start(table, &pairs, 1, &DESTINATION, &SOURCE).unwrap();
    let packet = negotiation(1, &[listed]).unwrap();
    assert_eq!(attempt.datagram(&packet), Ok(listed));
    let answer = information(Sender::Server, in_use, available);
    let completed = attempt.outcome(in_use, Some(&answer));
    completed.ok().map(|_| attempt.attempted())
}

/// README on the theorem of two clients: against one Available list that holds the version in use
/// at each they attempted the same version, though they can use different ones. Where the list does
/// not hold it, they can have attempted different ones.
#[test]
fn two_clients() {
    let table = [3, 4, 1];
    assert_eq!(attempted(&table, 3, 3, &[4, 3]), Some(3));
    assert_eq!(attempted(&table, 3, 4, &[4, 3]), Some(3));
    assert_eq!(attempted(&table, 4, 4, &[4, 3]), None);

    assert_eq!(attempted(&table, 3, 3, &[7]), Some(3));
    assert_eq!(attempted(&table, 4, 4, &[7]), Some(4));
}
