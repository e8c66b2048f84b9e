//! "Safe configurations": the test of a configuration, which a server asks before it serves anybody;
//! what it is good for against forged packets; and what it cannot do where information is missing.

use crate::configurations::{clients, pairs, sets, sorted, tables, WORLD};
use crate::link::{information, link, negotiation, Client, End, Server, DESTINATION, SOURCE};
use quic_version::{
    choose, Attempt, ConfigurationFault, ConfigurationRefusal, Pair, Refusal, Sender, WriteRefusal,
    VERSION_1 as ONE, VERSION_2 as TWO,
};

/// Every server of the world: the test of its configuration passes where it keeps the safe rule, and
/// nowhere else. That every exchange with those ends well is run by `the_safe_rule`.
#[test]
fn no_other_server_passes_the_test() {
    let mut safe = 0;
    let (tables, lists) = (tables(), sets(&WORLD));
    for readable in &tables {
        for accepted in &tables {
            for offered in &tables {
                for available in &lists {
                    let server = Server {
                        readable,
                        accepted,
                        offered,
                        available,
                        pairs: &[],
                    };
                    let same = sorted(accepted) == sorted(offered) && sorted(offered) == *available;
                    let keeps = same && offered.iter().all(|v| readable.contains(v));
                    assert_eq!(server.check().is_ok(), keeps, "{:?}", server);
                    safe += u32::from(keeps);
                }
            }
        }
    }
    // Of 27,000.
    assert_eq!(safe, 345);
}

/// Every client of the world, every server that keeps the safe rule, every packet that the client acts
/// on, and every version that the server accepts as the version in use. Where the client completes
/// with the server's information, it attempted what it chooses from all that is offered.
#[test]
fn no_forged_packet_leads_down() {
    let (mut completed, mut closed, mut other_version) = (0, 0, 0);
    for offered in sets(&WORLD).into_iter().filter(|set| !set.is_empty()) {
        clients(&mut |client| {
            let best = choose(client.table, &offered).ok();
            for listed in sets(client.table) {
                if listed.is_empty() || listed.contains(&client.original) {
                    continue;
                }
                let (table, pairs) = (client.table, client.pairs);
                let mut acted =
                    Attempt::start(table, pairs, client.original, &DESTINATION, &SOURCE).unwrap();
                let packet = negotiation(client.original, &listed).unwrap();
                let attempted = acted.datagram(&packet).unwrap();
                for in_use in &offered {
                    let answer = information(Sender::Server, *in_use, &offered);
                    match acted.clone().outcome(*in_use, Some(&answer)) {
                        Ok(_) => {
                            assert_eq!(Some(attempted), best, "{:?} {:?}", client, offered);
                            completed += 1;
                            other_version += u32::from(attempted != *in_use);
                        }
                        Err(_) => closed += 1,
                    }
                }
            }
        });
    }
    assert!(completed > 10_000 && closed > 10_000 && other_version > 1_000);
}

/// One table for all four lists is safe, whatever the pairs.
#[test]
fn one_table_for_all_four() {
    for table in &tables() {
        for pairs in &pairs() {
            let server = Server {
                readable: table,
                accepted: table,
                offered: table,
                available: table,
                pairs,
            };
            assert_eq!(server.check(), Ok(()));
        }
    }
}

const ONE_TO_TWO: [Pair; 1] = [Pair { from: 1, to: 2 }];
const OF_P10: [Pair; 2] = [Pair { from: 1, to: 2 }, Pair { from: 3, to: 4 }];

/// A server with these lists: readable, accepted, offered, Available.
fn server<'a>(lists: [&'a [u32]; 4], pairs: &'a [Pair]) -> Server<'a> {
    let [readable, accepted, offered, available] = lists;
    Server {
        readable,
        accepted,
        offered,
        available,
        pairs,
    }
}

fn client<'a>(table: &'a [u32], pairs: &'a [Pair], original: u32) -> Client<'a> {
    Client {
        table,
        pairs,
        original,
    }
}

/// The page's table, row by row: the part, the version that breaks it, and the end.
#[test]
fn the_smallest_lists_that_break_each_part() {
    let waits = End::NotSent(WriteRefusal::ReceivedVersionOffered);
    let downgraded = End::Refused(Refusal::Downgraded);
    for (server, client, fault, end) in [
        (
            server([&[2, 1], &[2, 1], &[1], &[1]], &ONE_TO_TWO),
            client(&[2, 1, 14], &ONE_TO_TWO, 14),
            ConfigurationFault::AcceptedNotOffered(2),
            downgraded,
        ),
        (
            server([&[1, 2], &[1], &[1, 2], &[1, 2]], &[]),
            client(&[2, 14], &[], 14),
            ConfigurationFault::OfferedNotAccepted(2),
            waits,
        ),
        (
            server([&[1], &[2], &[2], &[2]], &[]),
            client(&[2, 14], &[], 14),
            ConfigurationFault::OfferedNotReadable(2),
            waits,
        ),
        (
            server([&[1], &[1], &[1], &[1, 2]], &[]),
            client(&[2, 1, 14], &[], 14),
            ConfigurationFault::AvailableNotOffered(2),
            downgraded,
        ),
        (
            server([&[4, 3], &[4, 3], &[4, 3], &[4]], &OF_P10[1..]),
            client(&[3, 4, 1, 2], &OF_P10, 1),
            ConfigurationFault::OfferedNotAvailable(3),
            downgraded,
        ),
        (
            server([&[1], &[1], &[1], &[]], &[]),
            client(&[1, 14], &[], 14),
            ConfigurationFault::OfferedNotAvailable(1),
            End::Refused(Refusal::AvailableEmpty),
        ),
    ] {
        assert_eq!(server.check(), Err(fault));
        assert_eq!(link(client, server), end, "{:?}", server);
    }
}

/// A server without pairs that lists fewer Available Versions than it offers: an honest exchange
/// completes, but a forged packet leads down, and the test says so.
#[test]
fn fewer_available_and_a_forged_packet() {
    let both = [2, 1];
    let server = server([&both, &both, &both, &[1]], &[]);
    let fault = ConfigurationFault::OfferedNotAvailable(2);
    assert_eq!(server.check(), Err(fault));
    let client = client(&[2, 1, 14], &[], 14);
    let end = End::Completed {
        attempted: 2,
        in_use: 2,
    };
    assert_eq!(link(client, server), end);
    let led_to_1 = |available: &[u32]| {
        let mut attempt = Attempt::start(client.table, &[], 14, &DESTINATION, &SOURCE).unwrap();
        assert_eq!(attempt.datagram(&negotiation(14, &[1]).unwrap()), Ok(1));
        attempt.outcome(1, Some(&information(Sender::Server, 1, available)))
    };
    assert_eq!(choose(client.table, server.offered), Ok(2));
    assert_eq!(led_to_1(server.available), Ok(1));
    assert_eq!(led_to_1(&both), Err(Refusal::Downgraded));
}

/// A reserved number in the Available list is a version that is not offered. The list is tested
/// without it, and may be sent with it.
#[test]
fn reserved_numbers_in_the_available_list() {
    let both = [2, 1];
    let sent = [2, 0x1a2a_3a4a, 1];
    let fault = ConfigurationFault::AvailableNotOffered(0x1a2a_3a4a);
    let with = server([&both, &both, &both, &sent], &ONE_TO_TWO);
    assert_eq!(with.check(), Err(fault));
    let without = Server {
        available: &both,
        ..with
    };
    assert_eq!(without.check(), Ok(()));
    for table in [[2, 1, 14], [1, 2, 14]] {
        let client = client(&table, &ONE_TO_TWO, 14);
        assert_eq!(link(client, with), link(client, without));
        assert!(matches!(link(client, with), End::Completed { .. }));
    }
}

/// Lists that break a rule of their own: no part is told, and there is no close code to ask for.
#[test]
fn lists_that_break_their_own_rules() {
    let both = [TWO, ONE];
    let equal = [Pair { from: ONE, to: ONE }];
    let server = Server {
        readable: &both,
        accepted: &both,
        offered: &both,
        available: &both,
        pairs: &[],
    };
    let many = [ONE; 256];
    for (server, refusal) in [
        (
            Server {
                offered: &[],
                ..server
            },
            ConfigurationRefusal::BadOfferedTable,
        ),
        (
            Server {
                available: &many,
                ..server
            },
            ConfigurationRefusal::InformationTooLong,
        ),
        (
            Server {
                readable: &[0],
                ..server
            },
            ConfigurationRefusal::BadTable,
        ),
        (
            Server {
                pairs: &equal,
                ..server
            },
            ConfigurationRefusal::BadPairs,
        ),
    ] {
        let fault = ConfigurationFault::Refused(refusal);
        assert_eq!(server.check(), Err(fault));
        assert_eq!(fault.to_string(), refusal.to_string());
    }
}

/// What the page tells those who speak version 1. A safe server has 1, 3, 4 and 5, and the client would
/// choose 5. Where information is missing, a forged packet leads it to 1 all the same; with
/// information it does not, and missing in another version it does not either.
#[test]
fn missing_information_in_version_1() {
    let table = [1, 3, 4, 5];
    let server = Server {
        readable: &table,
        accepted: &table,
        offered: &table,
        available: &table,
        pairs: &[],
    };
    assert_eq!(server.check(), Ok(()));
    let ours = [5, 1, 6, 2];
    assert_eq!(choose(&ours, server.offered), Ok(5));
    let led_to = |version| {
        let mut attempt = Attempt::start(&ours, &[], 6, &DESTINATION, &SOURCE).unwrap();
        let packet = negotiation(6, &[version]).unwrap();
        assert_eq!(attempt.datagram(&packet), Ok(version));
        attempt
    };
    assert_eq!(led_to(1).outcome(1, None), Ok(1));
    let answer = information(Sender::Server, 1, server.available);
    let downgraded = Err(Refusal::Downgraded);
    assert_eq!(led_to(1).outcome(1, Some(&answer)), downgraded);
    let missing = Err(Refusal::InformationMissing);
    assert_eq!(led_to(2).outcome(2, None), missing);
    // Nor on the server's own packet, in 5: that is a 71, though nobody attacks.
    assert_eq!(led_to(5).outcome(5, None), missing);
    // Stricter than RFC 9368 section 8: no outcome is handed over, and this is the code.
    let attempt = led_to(1);
    assert!(attempt.acted() && attempt.end() == quic_version::End::Open);
    assert_eq!(Refusal::InformationMissing.close_code(), Some(0x11));
    // Without version 1 in the table the packet is no way there.
    let mut without = Attempt::start(&[5, 6, 2], &[], 6, &DESTINATION, &SOURCE).unwrap();
    let packet = negotiation(6, &[1]).unwrap();
    assert_eq!(without.datagram(&packet), Err(Refusal::NoVersionLeft));
}
