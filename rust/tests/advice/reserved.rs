//! "Reserved numbers": the page's client and server draw them, and what the page warns of.

include!("page/reserved.rs");

use crate::configurations::all_are_safe;
use crate::link::{flight, information, link, negotiation, Client, End, Server};
use crate::link::{DESTINATION, SOURCE};
use quic_version::{
    is_reserved, is_table, read_header, read_information, server_choice, versions,
    write_version_negotiation, Decision, Header, Pair, Refusal, Sender, MAX_INFORMATION,
    MAX_PACKET, MAX_TABLE, VERSION_1 as ONE, VERSION_2 as TWO,
};

const A: u32 = 0x1a2a_3a4a;

/// Random bits: the upper half of splitmix64.
fn bits(seed: u64) -> impl FnMut() -> u32 {
    let mut state = seed;
    move || {
        state = state.wrapping_add(0x9e37_79b9_7f4a_7c15);
        let z = (state ^ (state >> 30)).wrapping_mul(0xbf58_476d_1ce4_e5b9);
        let z = (z ^ (z >> 27)).wrapping_mul(0x94d0_49bb_1331_11eb);
        ((z ^ (z >> 31)) >> 32) as u32
    }
}

/// An attempt whose own list has so many entries.
fn attempt_of(entries: usize) -> Attempt {
    let table: Vec<u32> = (100..).take(entries).collect();
    let pairs: Vec<Pair> = table[1..].iter().map(|to| Pair::from((100, *to))).collect();
    Attempt::start(&table, &pairs, 100, &DESTINATION, &SOURCE).unwrap()
}

/// The list that the page's client sends, with this source of random bits. What is not reserved in it
/// is the own list.
fn list(attempt: &Attempt, random: impl FnMut() -> u32) -> Vec<u32> {
    let mut buffer = [0; MAX_INFORMATION];
    let count = client_information(attempt, random, &mut buffer).unwrap();
    let read = read_information(Sender::Client, &buffer[..count]).unwrap();
    assert_eq!(read.chosen, attempt.attempted());
    let list: Vec<u32> = versions(read.available).collect();
    let own = list.iter().copied().filter(|v| !is_reserved(*v));
    assert_eq!(own.collect::<Vec<u32>>(), *attempt.own_list());
    list
}

/// The page's client is never refused: with any own list, and any source of random bits, one that
/// hands out the same again and again too.
#[test]
fn never_refused() {
    for entries in 1..=MAX_TABLE {
        let attempt = attempt_of(entries);
        for seed in 0..200 {
            list(&attempt, bits(seed));
        }
        for same in (0..=70).chain([u32::MAX, u32::MAX - 1, u32::MAX - 2, 1 << 31, A]) {
            list(&attempt, || same);
            let mut next = same;
            let counted = || {
                next = next.wrapping_add(1);
                next
            };
            list(&attempt, counted);
        }
    }
}

/// None, one and two numbers come up, at each place of a short list.
#[test]
fn every_place_is_drawn() {
    let attempt = attempt_of(2);
    let mut seen = [[0; 4]; 3];
    for seed in 0..2_000 {
        let list = list(&attempt, bits(seed));
        let count = list.len() - 2;
        for (place, _) in list.iter().enumerate().filter(|(_, v)| is_reserved(**v)) {
            seen[count][place] += 1;
        }
        seen[0][count] += usize::from(count == 0);
    }
    assert!(seen[0][0] > 400);
    assert!(seen[1][..3].iter().all(|n| *n > 100));
    assert!(seen[2].iter().all(|n| *n > 100));
}

/// The versions of the page's packet for a datagram in this version.
fn listed(version: u32, offered: &[u32], random: u32) -> Vec<u32> {
    let mut packet = [0; MAX_PACKET];
    let datagram = flight(version, &[]);
    let count = server_packet(&datagram, version, offered, random, &mut packet).unwrap();
    match read_header(&packet[..count], 0).unwrap() {
        Header::VersionNegotiation { list, .. } => versions(list).collect(),
        header => panic!("{:?}", header),
    }
}

/// The page's server is never refused for its number, whatever the datagram's version: each number
/// that is reserved among them.
#[test]
fn never_the_version_received() {
    let mut random = bits(9);
    for halves in 0..=0xffff_u32 {
        let spread = |by: u32| (halves >> by & 15) << (2 * by + 4);
        let version = spread(0) | spread(4) | spread(8) | spread(12) | 0x0a0a_0a0a;
        for bits in [version, random(), version ^ 0x0505_0505] {
            let listed = listed(version, &[TWO, ONE], bits);
            assert_eq!(listed[..2], [TWO, ONE]);
            assert!(is_reserved(listed[2]) && listed[2] != version);
        }
    }
    assert_eq!(listed(14, &[TWO, ONE], 0), [TWO, ONE, 0x0a0a_0a0a]);
}

/// An honest link whose ends both send reserved numbers.
fn greased(client: Client<'_>, server: Server<'_>, seed: u64) -> End {
    let mut random = bits(seed);
    let (table, pairs) = (client.table, client.pairs);
    let mut attempt = Attempt::start(table, pairs, client.original, &DESTINATION, &SOURCE).unwrap();
    loop {
        let attempted = attempt.attempted();
        let mut sent = [0; MAX_INFORMATION];
        let count = client_information(&attempt, &mut random, &mut sent).unwrap();
        let sent = Some(&sent[..count]);
        let (readable, accepted) = (server.readable, server.accepted);
        let choice = server_choice(readable, accepted, server.pairs, attempted, sent);
        if let Decision::Use(in_use) = choice.unwrap() {
            let answer = information(Sender::Server, in_use, server.available);
            return match attempt.outcome(in_use, Some(&answer)) {
                Ok(in_use) => End::Completed { attempted, in_use },
                Err(refusal) => End::Refused(refusal),
            };
        }
        let mut packet = [0; MAX_PACKET];
        let datagram = flight(attempted, &[]);
        let bits = random();
        let count = server_packet(&datagram, attempted, server.offered, bits, &mut packet);
        match count.map(|count| attempt.datagram(&packet[..count])) {
            Ok(Ok(_)) => {}
            Ok(Err(Refusal::NoVersionLeft)) => return End::Refused(Refusal::NoVersionLeft),
            Ok(Err(refusal)) => return End::Ignored(refusal),
            Err(refusal) => return End::NotSent(refusal),
        }
    }
}

/// Reserved numbers change nothing: every link of a safe configuration ends as it does without them.
#[test]
fn safe_configurations_with_reserved_numbers() {
    let seed = std::cell::Cell::new(0);
    all_are_safe(|client, server| {
        seed.set(seed.get() + 1);
        let end = greased(client, server, seed.get());
        assert_eq!(end, link(client, server));
        end
    });
}

/// A server that uses a reserved number was not listening: 72, and the client closes with 0x11. So
/// with one that the client did send.
#[test]
fn reserved_chosen_is_refused() {
    for number in [A, 0x0a0a_0a0a] {
        let mut attempt = attempt_of(2);
        let mut buffer = [0; MAX_INFORMATION];
        let reserved = [Reserved {
            number: A,
            place: 0,
        }];
        attempt.write_information(&reserved, &mut buffer).unwrap();
        let answer = information(Sender::Server, number, &[number, 100]);
        let refusal = attempt.outcome(number, Some(&answer)).unwrap_err();
        assert_eq!(refusal, Refusal::ChosenNotOurs);
        assert_eq!(refusal.close_code(), Some(0x11));
    }
}

/// What the page warns of: bits that are only added, places that are drawn from the own list alone,
/// and a number that is drawn without a look at the version received.
#[test]
fn numbers_that_are_refused() {
    let attempt = attempt_of(2);
    let mut buffer = [0; MAX_INFORMATION];
    let mut write = |number, place| {
        let reserved = [Reserved { number, place }];
        attempt.write_information(&reserved, &mut buffer)
    };
    assert_eq!(
        write(0x1234_5678 | 0x0a0a_0a0a, 0),
        Err(WriteRefusal::BadReservedInList)
    );
    assert!(write(reserved_number(0x1234_5678), 0).is_ok());
    assert!(write(A, 2).is_ok());
    assert_eq!(write(A, 3), Err(WriteRefusal::BadReservedInList));

    let mut packet = [0; MAX_PACKET];
    let datagram = flight(A, &[]);
    let refused = write_version_negotiation_with_reserved(&datagram, &[ONE], &[A], 64, &mut packet);
    assert_eq!(refused, Err(WriteRefusal::BadReservedInPacket));
    // Without a number of its own the server answers.
    assert!(write_version_negotiation(&datagram, &[ONE], 64, &mut packet).is_ok());
}

/// The same: a reserved number in a table, or in the offered one, is no way to send it.
#[test]
fn reserved_numbers_in_tables() {
    assert!(!is_table(&[TWO, A, ONE]));
    let started = Attempt::start(&[TWO, A, ONE], &[], ONE, &DESTINATION, &SOURCE);
    assert_eq!(started, Err(Refusal::BadTable));
    assert_eq!(
        negotiation(14, &[ONE, A]),
        Err(WriteRefusal::BadOfferedTable)
    );
}

/// The same: a server's Available list of a reserved number alone is not empty. The client that was
/// led to 10 completes, where it answers 74 to no list at all. Beside the versions it changes nothing.
#[test]
fn reserved_numbers_alone_in_a_servers_list() {
    let ends = [&[][..], &[A], &[10, 13, 14, A], &[10, 13, 14]].map(|available| {
        let mut attempt = Attempt::start(&[14, 12, 10], &[], 12, &DESTINATION, &SOURCE).unwrap();
        attempt
            .datagram(&negotiation(12, &[10, 13]).unwrap())
            .unwrap();
        attempt.outcome(10, Some(&information(Sender::Server, 10, available)))
    });
    assert_eq!(
        ends,
        [
            Err(Refusal::AvailableEmpty),
            Ok(10),
            Err(Refusal::Downgraded),
            Err(Refusal::Downgraded)
        ]
    );
}
