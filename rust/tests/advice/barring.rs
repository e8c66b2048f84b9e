//! "Flights that do not convert": the page's start and choice, run, and what the page warns of.

include!("page/barring.rs");

use crate::configurations::{all_are_safe, all_pairs, clients, pairs, sets, tables, WORLD};
use crate::link::{information, link_from, negotiation, End, Server, DESTINATION, SOURCE};
use quic_version::{
    server_choice, Sender, MAX_BARRED, MAX_PAIRS, MAX_TABLE, VERSION_1 as ONE, VERSION_2 as TWO,
};

/// The page's start of an attempt with these versions.
fn attempting(
    table: &[u32],
    pairs: &[Pair],
    original: u32,
    converts: impl Fn(u32, u32) -> bool,
) -> Attempt {
    start(table, pairs, converts, original, &DESTINATION, &SOURCE).unwrap()
}

/// The Version Information that goes out with a first flight.
fn sent(attempt: &Attempt) -> Vec<u8> {
    information(Sender::Client, attempt.attempted(), &attempt.own_list())
}

/// An attempt and a server that makes the page's choice. `converts` tells whether a flight in one
/// version converts to another.
fn served(attempt: Attempt, server: Server<'_>, converts: impl Fn(u32, u32) -> bool) -> End {
    let Server {
        readable,
        accepted,
        pairs,
        ..
    } = server;
    link_from(attempt, server, |version, information| {
        let converts = |to| converts(version, to);
        choice(readable, accepted, pairs, converts, version, information)
    })
}

const TABLE: [u32; 2] = [TWO, ONE];
const PAIRS: [Pair; 2] = [Pair { from: ONE, to: TWO }, Pair { from: TWO, to: ONE }];

/// Version 2 is not in the list that goes out. An honest server uses version 1, and the client
/// completes. With a server that uses version 2 all the same it closes with 0x11: 72.
#[test]
fn client_bars() {
    let attempt = attempting(&TABLE, &PAIRS, ONE, |from, to| (from, to) != (ONE, TWO));
    assert_eq!(*attempt.own_list(), [ONE]);
    let sent = sent(&attempt);
    let decision = server_choice(&TABLE, &TABLE, &PAIRS, ONE, Some(&sent));
    assert_eq!(decision, Ok(Decision::Use(ONE)));
    let answer = information(Sender::Server, ONE, &TABLE);
    assert_eq!(attempt.clone().outcome(ONE, Some(&answer)), Ok(ONE));

    let answer = information(Sender::Server, TWO, &TABLE);
    let refusal = attempt.clone().outcome(TWO, Some(&answer)).unwrap_err();
    assert_eq!(refusal, Refusal::ChosenNotOurs);
    assert_eq!(refusal.close_code(), Some(0x11));
    // Where all flights convert it completes with that server.
    let mut attempt = attempting(&TABLE, &PAIRS, ONE, |_, _| true);
    assert_eq!(*attempt.own_list(), TABLE);
    assert_eq!(attempt.outcome(TWO, Some(&answer)), Ok(TWO));
}

/// An attempt sends up to two first flights. What is barred is read for the version that is
/// attempted: a version that is barred from the Original Version alone is back after an act.
#[test]
fn both_flights_of_an_attempt() {
    let pairs = [(1, 2), (3, 4)].map(Pair::from);
    let own_lists = |barred: (u32, u32)| {
        let mut attempt = attempting(&[3, 4, 1, 2], &pairs, 1, |from, to| (from, to) != barred);
        let before = attempt.own_list().to_vec();
        assert_eq!(attempt.datagram(&negotiation(1, &[4, 3]).unwrap()), Ok(3));
        (before, attempt.own_list().to_vec())
    };
    assert_eq!(own_lists((3, 4)), (vec![1, 2], vec![3]));
    assert_eq!(own_lists((1, 2)), (vec![1], vec![3, 4]));
}

/// What is barred is neither turned round nor chained: each pair for itself.
#[test]
fn each_pair_for_itself() {
    let pairs = [(1, 2), (2, 1), (2, 3), (1, 3)].map(Pair::from);
    let own_list = |barred: &[(u32, u32)]| {
        let attempt = attempting(&[3, 2, 1], &pairs, 1, |f, t| !barred.contains(&(f, t)));
        attempt.own_list().to_vec()
    };
    assert_eq!(own_list(&[(2, 1)]), [3, 2, 1]);
    assert_eq!(own_list(&[(1, 2), (2, 3)]), [3, 1]);
    assert_eq!(own_list(&[(1, 2), (1, 3)]), [1]);
}

/// To bar more leaves a part of the own list, with the attempted version in it, and changes no
/// choice from a packet. With all pairs barred the own list is the attempted version alone.
#[test]
fn more_barred() {
    let packets: Vec<Vec<u8>> = tables()
        .iter()
        .map(|list| negotiation(9, list).unwrap())
        .collect();
    clients(&mut |client| {
        let started = |barred: &[Pair]| {
            let converts = |from, to| !barred.contains(&Pair { from, to });
            attempting(client.table, client.pairs, client.original, converts)
        };
        let (nothing, everything) = (started(&[]), started(&all_pairs()));
        assert_eq!(*everything.own_list(), [client.original]);
        for packet in &packets {
            let (mut nothing, mut everything) = (nothing.clone(), everything.clone());
            let answer = everything.datagram(packet);
            assert_eq!(nothing.datagram(packet), answer);
            assert_eq!(*everything.own_list(), [everything.attempted()]);
        }
        for barred in &pairs() {
            let own = started(barred).own_list();
            assert!(own.contains(&client.original));
            assert!(own.iter().all(|v| nothing.own_list().contains(v)));
        }
    });
}

/// Chosen 3, Available 3 and 4, pair 3 to 4: what a server decides that reads 3 alone.
fn after_flight_in_3(accepted: &[u32], converts: impl Fn(u32) -> bool) -> Decision {
    let sent = information(Sender::Client, 3, &[3, 4]);
    let pairs = [Pair { from: 3, to: 4 }];
    choice(&[3], accepted, &pairs, converts, 3, Some(&sent)).unwrap()
}

/// A server that bars answers Chosen, or "negotiate" where that is not accepted. Chosen among what
/// is barred has no effect.
#[test]
fn server_bars() {
    assert_eq!(after_flight_in_3(&[4, 3], |_| true), Decision::Use(4));
    assert_eq!(after_flight_in_3(&[4, 3], |to| to != 4), Decision::Use(3));
    assert_eq!(after_flight_in_3(&[4, 3], |_| false), Decision::Use(3));
    assert_eq!(after_flight_in_3(&[4, 3], |to| to != 3), Decision::Use(4));
    assert_eq!(after_flight_in_3(&[4], |_| true), Decision::Use(4));
    assert_eq!(after_flight_in_3(&[4], |to| to != 4), Decision::Negotiate);
}

/// Information is missing, or the version is not readable: what is barred has no effect, and the
/// page's choice does not ask of a flight that was not read.
#[test]
fn flights_that_were_not_read() {
    let ask = |version, converts: &dyn Fn(u32) -> bool| {
        choice(&TABLE, &TABLE, &PAIRS, converts, version, None)
    };
    assert_eq!(ask(ONE, &|_| unreachable!()), Ok(Decision::Use(ONE)));
    assert_eq!(ask(14, &|_| unreachable!()), Ok(Decision::Negotiate));
    let barring = |version| server_choice_barring(&TABLE, &TABLE, &PAIRS, &TABLE, version, None);
    assert_eq!(barring(ONE), Ok(Decision::Use(ONE)));
    assert_eq!(barring(14), Ok(Decision::Negotiate));
}

/// To bar is as if the pair were not there: the record is that of a start without it.
#[test]
fn as_if_not_paired_for_an_attempt() {
    let sets = pairs();
    clients(&mut |client| {
        let (table, pairs, original) = (client.table, client.pairs, client.original);
        for barred in &sets {
            let mut left = pairs.to_vec();
            left.retain(|pair| !barred.contains(pair));
            assert_eq!(
                Attempt::start_barring(table, pairs, barred, original, &DESTINATION, &SOURCE),
                Attempt::start(table, &left, original, &DESTINATION, &SOURCE)
            );
        }
    });
}

/// The same of a flight: the decision is that of a server without the pairs from its version to what
/// is barred. So whatever is barred, the version to use is Chosen, or one that the client listed and
/// the server pairs; and a flight in an accepted version is never negotiated.
fn check_flight(accepted: &[u32], pairs: &[Pair], barred: &[u32], version: u32, available: &[u32]) {
    let mut left = pairs.to_vec();
    left.retain(|pair| pair.from != version || !barred.contains(&pair.to));
    let sent = information(Sender::Client, version, available);
    let decision = server_choice(&WORLD, accepted, &left, version, Some(&sent));
    assert_eq!(
        server_choice_barring(&WORLD, accepted, pairs, barred, version, Some(&sent)),
        decision
    );
    match decision.unwrap() {
        Decision::Use(to) if to == version => {}
        Decision::Use(to) => {
            assert!(available.contains(&to) && !barred.contains(&to));
            assert!(pairs.contains(&Pair { from: version, to }));
        }
        Decision::Negotiate => assert!(!accepted.contains(&version)),
    }
}

#[test]
fn as_if_not_paired_for_a_flight() {
    let (tables, pairs, sets) = (tables(), pairs(), sets(&WORLD));
    for accepted in &tables {
        for pairs in &pairs {
            for (barred, available) in sets.iter().flat_map(|b| sets.iter().map(move |a| (b, a))) {
                for version in available {
                    check_flight(accepted, pairs, barred, *version, available);
                }
            }
        }
    }
}

/// The safe rule, where every version is paired with every other at both ends, and any of the pairs
/// are barred at each. Those of `client` and `server` are the ones that are left.
#[test]
fn the_safe_rule_whatever_is_barred() {
    let every = all_pairs();
    all_are_safe(|client, server| {
        let converts = |from, to| client.pairs.contains(&Pair { from, to });
        let attempt = attempting(client.table, &every, client.original, converts);
        let converts = |from, to| server.pairs.contains(&Pair { from, to });
        let paired = Server {
            pairs: &every,
            ..server
        };
        served(attempt, paired, converts)
    });
}

/// Chosen is not accepted, and the flight does not convert to what is: a round trip more, and then
/// a flight in the version that was barred is served.
#[test]
fn negotiated_and_served() {
    let pairs = [Pair { from: 3, to: 4 }];
    let server = Server {
        readable: &[4, 3],
        accepted: &[4],
        offered: &[4],
        available: &[4],
        pairs: &pairs,
    };
    for (converts, attempted) in [(true, 3), (false, 4)] {
        let attempt = attempting(&[4, 3], &pairs, 3, |_, _| true);
        let end = served(attempt, server, |_, _| converts);
        let in_use = 4;
        assert_eq!(end, End::Completed { attempted, in_use });
    }
}

/// What the page warns of: a version that is barred for a flight, left out of the packet that
/// answers it. A client that likes it best answers 75, and nobody attacked.
#[test]
fn barred_left_out_of_the_packet() {
    let pairs = [Pair { from: 3, to: 4 }];
    let server = Server {
        readable: &[4, 3, 2],
        accepted: &[4, 2],
        offered: &[4, 2],
        available: &[4, 2],
        pairs: &pairs,
    };
    let end = |server| {
        let attempt = attempting(&[4, 3, 2], &pairs, 3, |_, _| true);
        served(attempt, server, |_, to| to != 4)
    };
    let (attempted, in_use) = (4, 4);
    assert_eq!(end(server), End::Completed { attempted, in_use });
    let left_out = Server {
        offered: &[2],
        ..server
    };
    assert_eq!(end(left_out), End::Refused(Refusal::Downgraded));
}

/// The same, left out of the server's Available Versions: a forged packet is not found out.
#[test]
fn barred_left_out_of_available() {
    let pairs = [Pair { from: 10, to: 14 }];
    let mut attempt = attempting(&[14, 12, 10], &pairs, 12, |_, _| true);
    // The server would have listed 14 and 10.
    let forged = negotiation(12, &[10]).unwrap();
    assert_eq!(attempt.datagram(&forged), Ok(10));
    let table = [14, 10];
    let sent = sent(&attempt);
    let decision = choice(&table, &table, &pairs, |to| to != 14, 10, Some(&sent));
    assert_eq!(decision, Ok(Decision::Use(10)));
    let all = information(Sender::Server, 10, &table);
    let answer = attempt.clone().outcome(10, Some(&all));
    assert_eq!(answer, Err(Refusal::Downgraded));
    let left_out = information(Sender::Server, 10, &[10]);
    assert_eq!(attempt.outcome(10, Some(&left_out)), Ok(10));
}

/// The same: a barred version that is sent all the same is a 72 from an honest server.
#[test]
fn barred_put_back_into_the_list() {
    let mut attempt = attempting(&TABLE, &PAIRS, ONE, |_, _| false);
    let sent = information(Sender::Client, ONE, &TABLE);
    let decision = server_choice(&TABLE, &TABLE, &PAIRS, ONE, Some(&sent));
    assert_eq!(decision, Ok(Decision::Use(TWO)));
    let answer = information(Sender::Server, TWO, &TABLE);
    let answer = attempt.outcome(TWO, Some(&answer));
    assert_eq!(answer, Err(Refusal::ChosenNotOurs));
}

/// The same: to bar a version does not keep it out. A packet leads to it, and a flight in it is
/// served. It has to be left out of the table.
#[test]
fn barred_is_not_unwanted() {
    let pairs = [(14, 1), (14, 2), (1, 2)].map(Pair::from);
    let packet = negotiation(14, &[2, 1]).unwrap();
    let mut attempt = attempting(&[2, 1, 14], &pairs, 14, |_, to| to != 2);
    assert_eq!(*attempt.own_list(), [1, 14]);
    assert_eq!(attempt.datagram(&packet), Ok(2));
    let sent = sent(&attempt);
    let decision = choice(&[2, 1], &[2, 1], &pairs, |to| to != 2, 2, Some(&sent));
    assert_eq!(decision, Ok(Decision::Use(2)));
    let mut attempt = attempting(&[1, 14], &pairs, 14, |_, _| true);
    assert_eq!(attempt.datagram(&packet), Ok(1));
}

/// Barred pairs that are some of the pairs, and barred versions that are some of the accepted ones,
/// are never a 43, however many they are.
#[test]
fn never_too_many() {
    let table: Vec<u32> = (100..).take(MAX_TABLE).collect();
    let all = || (1..MAX_TABLE).flat_map(|by| (0..MAX_TABLE).map(move |at| (at, at + by)));
    let pairs: Vec<Pair> = all()
        .map(|(at, to)| Pair::from((table[at], table[to % MAX_TABLE])))
        .take(MAX_PAIRS)
        .collect();
    assert_eq!(pairs.len(), MAX_PAIRS);
    let attempt = attempting(&table, &pairs, 100, |_, _| false);
    assert_eq!(*attempt.own_list(), [100]);
    let sent = information(Sender::Client, 100, &table);
    let decision = choice(&table, &table, &pairs, |_| false, 100, Some(&sent));
    assert_eq!(decision, Ok(Decision::Use(100)));
}

/// What the page warns of: lists that are made in another way. Each two of a large table are too
/// many; a version with itself is no pair; a client may list 255 Available Versions.
#[test]
fn lists_that_are_refused() {
    let table: Vec<u32> = (100..).take(MAX_TABLE).collect();
    let each_two = |table: &[u32]| -> Vec<Pair> {
        let from_each = table.iter().map(|from| (from, table));
        let two = from_each.flat_map(|(from, table)| table.iter().map(move |to| (*from, *to)));
        two.map(Pair::from).collect()
    };
    let start_refused = |barred: &[Pair]| {
        let started = Attempt::start_barring(&table, &[], barred, 100, &DESTINATION, &SOURCE);
        started.is_err()
    };
    let mut barred = each_two(&[100, 101]);
    assert!(start_refused(&barred));
    barred.retain(|pair| pair.from != pair.to);
    assert!(!start_refused(&barred));
    let mut barred = each_two(&table);
    barred.retain(|pair| pair.from != pair.to);
    assert!(start_refused(&barred));

    let listed: Vec<u32> = (100..).take(MAX_BARRED + 1).collect();
    let sent = information(Sender::Client, 100, &listed);
    let decide = |barred| server_choice_barring(&[100], &[100], &[], barred, 100, Some(&sent));
    assert_eq!(decide(&listed), Err(Refusal::BadPairs));
    assert_eq!(decide(&listed[..MAX_BARRED]), Ok(Decision::Use(100)));
    assert_eq!(Refusal::BadPairs.close_code(), None);
}
