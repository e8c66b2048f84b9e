//! The night's attack, packet by packet: what the old client did, and what this one answers. Then
//! what holds of every exchange with a server whose lists are safe.
//!
//!     cargo run --release --example incident

use quic_version::{
    choose, choose_from_bytes, read_header, read_information, server_choice, versions,
    write_information, write_version_negotiation, Attempt, Decision, End, Header, Refusal, Sender,
    ServerConfiguration, MAX_INFORMATION, MAX_PACKET, MIN_ANSWERED_DATAGRAM,
};
use std::error::Error;

/// The client's versions, best first. 10 is the old one, with the known weakness.
const CLIENT_TABLE: [u32; 3] = [14, 12, 10];
/// The server reads and accepts all of them; old clients still need 10.
const SERVER_TABLE: [u32; 3] = [14, 12, 10];
/// An old server's versions.
const OLD_TABLE: [u32; 2] = [13, 10];
/// The version of the client's first flight.
const ORIGINAL: u32 = 12;

/// The connection IDs of the client's first flight.
const DESTINATION: [u8; 4] = [0xd1, 0xd2, 0xd3, 0xd4];
const SOURCE: [u8; 2] = [0x51, 0x52];

fn main() -> Result<(), Box<dyn Error>> {
    println!("Client's versions, best first: {}.", words(&CLIENT_TABLE));
    println!("Server's versions, best first: {}.", words(&SERVER_TABLE));
    println!("Version 10 is old and weak. Both ends would meet in 12 or 14.");

    title("1. The attack, and a server that sends an empty list");
    let mut first = first_flight()?;
    forged_packet(&mut first)?;
    handshake(&mut first, &[])?;

    title("2. The same attack, and a server that sends its list");
    let mut second = first_flight()?;
    forged_packet(&mut second)?;
    handshake(&mut second, &SERVER_TABLE)?;

    title("3. No attack: an old server that has 13 and 10 only");
    let mut third = first_flight()?;
    honest_packet(&mut third, &OLD_TABLE)?;
    handshake(&mut third, &OLD_TABLE)?;

    title("What happened to each client, from its journal");
    for (place, attempt) in (1..).zip([&first, &second, &third]) {
        journal(place, attempt);
    }

    title("Before a server serves anybody: the test of its lists");
    tested("server 1", &SERVER_TABLE, &[]);
    tested("server 2", &SERVER_TABLE, &SERVER_TABLE);
    tested("server 3", &OLD_TABLE, &OLD_TABLE);

    title("An exchange with a safe server that nobody attacks completes");
    for original in CLIENT_TABLE {
        honest("server 2", &SERVER_TABLE, original)?;
    }
    for original in CLIENT_TABLE {
        honest("server 3", &OLD_TABLE, original)?;
    }
    note("Or it ends with 65, where the two have no version in common.");

    title("A forged packet leads to no version but the one chosen from the whole offer");
    let best = choose(&CLIENT_TABLE, &SERVER_TABLE)?;
    let offer = words(&SERVER_TABLE);
    step(
        "server 2",
        &format!("offers {}: from that the client chooses {}", offer, best),
    );
    for listed in [&[10][..], &[13, 10], &[13], &[14, 10], &[14]] {
        forged(listed, best)?;
    }
    println!();
    note("He can make the client close. He can move it to no other version.");
    note("That needs the server's Version Information. Where it is missing, the client closes,");
    note("but for version 1: there a forged packet can still lead.");
    Ok(())
}

/// The test of a server that reads, accepts and offers these versions.
fn tested(server: &str, table: &[u32], available: &[u32]) {
    let configuration = ServerConfiguration {
        readable: table,
        accepted: table,
        offered: table,
        available,
        pairs: &[],
    };
    let (table, available) = (words(table), words(available));
    step(
        server,
        &format!("has {}; its list to send: {}", table, available),
    );
    match configuration.check() {
        Ok(()) => note("safe"),
        Err(fault) => note(&format!("not safe: {}", fault)),
    }
}

/// Nobody attacks. The client begins in any of its versions.
fn honest(server: &str, table: &[u32], original: u32) -> Result<(), Box<dyn Error>> {
    let mut attempt = Attempt::start(&CLIENT_TABLE, &[], original, &DESTINATION, &SOURCE)?;
    let mut way = format!("first flight in {}", original);
    if choice(table, &attempt)? == Decision::Negotiate {
        let attempted = attempt.datagram(&packet(original, table)?)?;
        way += &format!(", after the server's packet in {}", attempted);
    }
    let in_use = match choice(table, &attempt)? {
        Decision::Use(version) => version,
        Decision::Negotiate => return Err("a second packet".into()),
    };
    attempt.outcome(in_use, Some(&sent_by_server(in_use, table)?))?;
    step(server, &format!("{}: {}", way, end(&attempt)));
    Ok(())
}

/// Someone forges the packet, whatever he lists; the server sends its list in the handshake.
fn forged(listed: &[u32], best: u32) -> Result<(), Box<dyn Error>> {
    let mut attempt = Attempt::start(&CLIENT_TABLE, &[], ORIGINAL, &DESTINATION, &SOURCE)?;
    let mut way = format!("forges {}: the client", words(listed));
    if let Ok(attempted) = attempt.datagram(&packet(ORIGINAL, listed)?) {
        way += &format!(" attempts {} and", attempted);
        let information = sent_by_server(attempted, &SERVER_TABLE)?;
        let completed = attempt.outcome(attempted, Some(&information)).is_ok();
        assert!(!completed || attempted == best);
    }
    step("attacker", &format!("{} {}", way, end(&attempt)));
    Ok(())
}

/// What a server with these versions does after a first flight.
fn choice(table: &[u32], attempt: &Attempt) -> Result<Decision, Box<dyn Error>> {
    let mut sent = [0; MAX_INFORMATION];
    let count = attempt.write_information(&[], &mut sent)?;
    let version = attempt.attempted();
    let decision = server_choice(table, table, &[], version, Some(&sent[..count]))?;
    Ok(decision)
}

/// The Version Negotiation packet that lists these versions, whoever sends it.
fn packet(original: u32, listed: &[u32]) -> Result<Vec<u8>, Box<dyn Error>> {
    let mut buffer = vec![0; MAX_PACKET];
    let count = write_version_negotiation(&first_datagram(original), listed, 64, &mut buffer)?;
    buffer.truncate(count);
    Ok(buffer)
}

/// What the handshake authenticates.
fn sent_by_server(chosen: u32, available: &[u32]) -> Result<Vec<u8>, Box<dyn Error>> {
    let mut buffer = vec![0; MAX_INFORMATION];
    let count = write_information(Sender::Server, chosen, available, &mut buffer)?;
    buffer.truncate(count);
    Ok(buffer)
}

/// How an attempt ended.
fn end(attempt: &Attempt) -> String {
    match attempt.end() {
        End::Open => String::from("is open"),
        End::Completed(version) => format!("has completed with version {}", version),
        End::Closed(refusal) => format!("has closed with {}", refusal.number()),
    }
}

/// What the night staff reads: how the attempt ended, and what its events were answered with.
fn journal(place: usize, attempt: &Attempt) {
    let journal = attempt.journal();
    let events = journal.count();
    step(
        &format!("client {}", place),
        &format!("{} after {} events", end(attempt), events),
    );
    for line in journal.to_string().lines() {
        note(line);
    }
}

/// The client sends its first flight in version 12.
fn first_flight() -> Result<Attempt, Refusal> {
    let attempt = Attempt::start(&CLIENT_TABLE, &[], ORIGINAL, &DESTINATION, &SOURCE)?;
    step(
        "client",
        &format!("sends a first flight in version {}", ORIGINAL),
    );
    bytes("datagram", &first_datagram(ORIGINAL));
    Ok(attempt)
}

/// Someone on the path saw the first flight. He answers faster than the server, with the right
/// connection IDs, and lists version 10 alone.
fn forged_packet(attempt: &mut Attempt) -> Result<(), Box<dyn Error>> {
    step(
        "attacker",
        "reads its connection IDs and forges a Version Negotiation packet",
    );
    note("No key protects this packet. The client cannot tell it from a true one.");
    answer_with(attempt, &[10])
}

/// The server itself cannot read version 12, and says so.
fn honest_packet(attempt: &mut Attempt, table: &[u32]) -> Result<(), Box<dyn Error>> {
    let decision = server_choice(table, table, &[], ORIGINAL, None)?;
    assert_eq!(decision, Decision::Negotiate);
    step(
        "server",
        "cannot read 12 and sends a Version Negotiation packet",
    );
    answer_with(attempt, table)
}

/// A Version Negotiation packet reaches the client.
fn answer_with(attempt: &mut Attempt, offered: &[u32]) -> Result<(), Box<dyn Error>> {
    let packet = &packet(ORIGINAL, offered)?[..];
    bytes("packet", packet);
    if let Header::VersionNegotiation { list, .. } = read_header(packet, 0)? {
        let listed: Vec<u32> = versions(list).collect();
        note(&format!("It lists: {}.", words(&listed)));
    }
    let attempted = attempt.datagram(packet)?;
    assert!(attempt.acted());
    step("client", &format!("attempts version {} now", attempted));
    Ok(())
}

/// The handshake in the attempted version ends. What the server says in it is authenticated: no
/// attacker can change it.
fn handshake(attempt: &mut Attempt, available: &[u32]) -> Result<(), Box<dyn Error>> {
    let in_use = attempt.attempted();
    attempt.packet_processed()?;
    assert!(attempt.heard());
    step("client", "processes a genuine packet of the server");
    note("From now on Version Negotiation comes too late.");

    let information = &sent_by_server(in_use, available)?[..];
    step(
        "server",
        "ends the handshake and sends its Version Information",
    );
    bytes("information", information);
    note(&format!(
        "Chosen Version {}, Available Versions: {}.",
        in_use,
        words(available)
    ));

    println!();
    let old = match old_client(attempt.table(), in_use, information) {
        true => format!("\"every entry is fine\": goes on in version {}", in_use),
        false => String::from("sees a better version in the list, and closes"),
    };
    step("old client", &old);
    let answer = attempt.outcome(in_use, Some(information));
    match answer {
        Ok(version) => {
            assert_eq!(attempt.end(), End::Completed(version));
            step(
                "this client",
                &format!("completes with version {}", version),
            );
        }
        Err(refusal) => {
            assert_eq!(attempt.end(), End::Closed(refusal));
            step("this client", &format!("refuses with {}", refusal.number()));
            note(&format!("Cause: {}.", refusal));
            if let Some(code) = refusal.close_code() {
                note(&format!(
                    "It closes the connection with code {:#04x}.",
                    code
                ));
            }
            note(&format!("For the log: {:?}", attempt));
        }
    }
    explain(attempt.table(), answer, information)?;
    Ok(())
}

/// The old code's check, with its slip: a list without entries has no entry that is better.
fn old_client(table: &[u32], in_use: u32, information: &[u8]) -> bool {
    let rank = |version| table.iter().position(|entry| *entry == version);
    let worse_or_unknown = |version| rank(version).map_or(true, |at| Some(at) >= rank(in_use));
    versions(&information[4..]).all(worse_or_unknown)
}

fn explain(table: &[u32], answer: Result<u32, Refusal>, information: &[u8]) -> Result<(), Refusal> {
    match answer {
        Err(Refusal::AvailableEmpty) => {
            note("An empty list cannot bear out the packet that led here.");
        }
        Err(Refusal::Downgraded) => {
            let read = read_information(Sender::Server, information)?;
            let renewed = choose_from_bytes(table, read.available)?;
            note(&format!(
                "From the server's own list the client would have chosen {}, not {}.",
                renewed, read.chosen
            ));
            note("So the packet that led here did not say what this server has.");
        }
        _ => note("The server's own list leads to the same choice as the packet did."),
    }
    Ok(())
}

/// A first flight: what the version layer reads of it, and zeros in the place of what is protected.
/// It has the fewest bytes that a server answers.
fn first_datagram(version: u32) -> Vec<u8> {
    let mut datagram = vec![0xc0];
    datagram.extend(version.to_be_bytes());
    datagram.push(DESTINATION.len() as u8);
    datagram.extend(DESTINATION);
    datagram.push(SOURCE.len() as u8);
    datagram.extend(SOURCE);
    datagram.resize(MIN_ANSWERED_DATAGRAM, 0);
    datagram
}

// Printing.

fn title(text: &str) {
    println!("\n{}\n{}", text, "-".repeat(text.len()));
}

fn step(who: &str, what: &str) {
    println!("{:>12}  {}", who, what);
}

fn note(text: &str) {
    println!("{:>12}  {}", "", text);
}

/// The bytes in hexadecimal; of many the first.
fn bytes(what: &str, bytes: &[u8]) {
    let most = 32;
    let shown = bytes.iter().take(most).map(|byte| format!("{:02x}", byte));
    let shown = shown.collect::<Vec<String>>().join(" ");
    if bytes.len() <= most {
        println!("{:>12}  {}: {}", "", what, shown);
    } else {
        let length = bytes.len();
        println!("{:>12}  {} of {} bytes: {} ..", "", what, length, shown);
    }
}

fn words(versions: &[u32]) -> String {
    if versions.is_empty() {
        return String::from("none");
    }
    let words: Vec<String> = versions.iter().map(u32::to_string).collect();
    words.join(", ")
}
