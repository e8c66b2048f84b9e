//! "What to log": the page's lines, at an end and before a new start, and what the page warns of.

include!("page/log.rs");

use crate::link::{information, long_form, negotiation, DESTINATION, SOURCE};
use quic_version::{Answer, Sender, JOURNAL_PLACES};

const TABLE: [u32; 3] = [14, 12, 10];

fn started() -> Attempt {
    Attempt::start(&TABLE, &[], 12, &DESTINATION, &SOURCE).unwrap()
}

fn logged(attempt: &Attempt) -> Vec<String> {
    let mut lines = Vec::new();
    log_attempt(attempt, |line| lines.push(String::from(line)));
    lines
}

fn numbers(attempt: &Attempt) -> Vec<u8> {
    attempt.journal().iter().map(Answer::number).collect()
}

/// A client that was led to 10 and answers 75, with a stray datagram, and a packet that came too late.
fn downgraded() -> Attempt {
    let mut attempt = started();
    attempt.datagram(&[0x40; 30]).unwrap_err();
    attempt.datagram(&negotiation(12, &[10]).unwrap()).unwrap();
    attempt
        .datagram(&negotiation(12, &[14]).unwrap())
        .unwrap_err();
    let answer = information(Sender::Server, 10, &TABLE);
    attempt.outcome(10, Some(&answer)).unwrap_err();
    attempt
}

#[test]
fn lines_of_an_end() {
    let attempt = downgraded();
    let found = attempt.clone();
    assert_eq!(
        logged(&attempt),
        [
            "attempt in 0x0000000a: closed: the server's Available Versions lead to another choice \
             than the attempted version (75); events: 4",
            "event 1: 61 the datagram is no readable Version Negotiation packet",
            "event 2: 0 no refusal",
            "event 3: 62 the attempt has ended, or acted or heard before this Version Negotiation \
             packet",
            "event 4: 75 the server's Available Versions lead to another choice than the attempted \
             version",
        ]
    );
    // To log is no event.
    assert_eq!(attempt, found);
}

#[test]
fn lines_of_open_and_completed_attempts() {
    let mut attempt = started();
    let lines = ["attempt in 0x0000000c: open; events: 0", "no event"];
    assert_eq!(logged(&attempt), lines);
    attempt.outcome(12, None).unwrap();
    let first = "attempt in 0x0000000c: completed with 0x0000000c; events: 1";
    assert_eq!(logged(&attempt), [first, "event 1: 0 no refusal"]);
}

/// The journal goes with the old attempt; what happened to it is logged before. So where the new start
/// is refused, and the old attempt stays.
#[test]
fn starting_again() {
    let mut attempt = downgraded();
    let due = logged(&attempt);
    let mut lines = Vec::new();
    let ids = ([0xd7; 8], [0x57; 8]);
    start_again(&mut attempt, &[], &ids.0, &ids.1, |line| {
        lines.push(String::from(line));
    })
    .unwrap();
    assert_eq!(lines, due);
    assert!(attempt.journal().is_empty());
    assert_eq!((attempt.attempted(), attempt.end()), (12, End::Open));
    assert_eq!(attempt.table(), TABLE);
    // A late copy of the packet, for the IDs before: ignored, and the first event of the new attempt.
    let late = attempt.datagram(&negotiation(12, &[10]).unwrap());
    assert_eq!(late, Err(Refusal::OtherConnection));
    assert_eq!(numbers(&attempt), [63]);

    let mut attempt = downgraded();
    let refused = start_again(&mut attempt, &[], &[7; 21], &[], |_| {});
    assert_eq!(refused, Err(Refusal::ConnectionIdTooLong));
    assert_eq!(attempt, downgraded());
}

/// 61 to 64 change the journal alone: an attempt that ignored datagrams goes on as one that got none.
#[test]
fn ignored_datagrams() {
    let mut attempt = started();
    let other = long_form(0, &DESTINATION, &SOURCE, &[0, 0, 0, 14]);
    let lists_original = long_form(0, &SOURCE, &DESTINATION, &[0, 0, 0, 12]);
    for datagram in [&[][..], &other, &lists_original] {
        attempt.datagram(datagram).unwrap_err();
    }
    assert_eq!(numbers(&attempt), [61, 63, 64]);
    let mut plain = started();
    // Not equal, but only for the journal.
    assert_ne!(attempt, plain);
    assert_eq!(attempt.end(), plain.end());
    let packet = negotiation(12, &[10, 14]).unwrap();
    assert_eq!(attempt.datagram(&packet), plain.datagram(&packet));
    assert_eq!(attempt.own_list(), plain.own_list());
    assert_eq!(numbers(&attempt), [61, 63, 64, 0]);
    assert_eq!(numbers(&plain), [0]);
}

/// A flood pushes older answers out, and what led to the end is gone if the journal is read late. The
/// count tells how many there were, and the end what it is.
#[test]
fn a_flood() {
    let mut attempt = downgraded();
    for _ in 0..JOURNAL_PLACES - 1 {
        attempt.datagram(&[]).unwrap_err();
    }
    assert!(numbers(&attempt).contains(&75));
    attempt.datagram(&[]).unwrap_err();
    assert_eq!(numbers(&attempt), [61; JOURNAL_PLACES]);
    for _ in 0..1_000 {
        attempt.datagram(&[]).unwrap_err();
    }
    assert_eq!(attempt.journal().count(), 4 + 8 + 1_000);
    assert_eq!(attempt.end(), End::Closed(Refusal::Downgraded));
    let lines = logged(&attempt);
    assert_eq!(lines.len(), 1 + JOURNAL_PLACES);
    assert!(lines[0].ends_with("(75); events: 1012"));
    assert!(lines[8].starts_with("event 1012: 61 "));
}

/// No decision is to be read from it: the same journal, and one attempt has completed where the other
/// is open.
#[test]
fn the_journal_is_no_end() {
    let (mut open, mut completed) = (started(), started());
    open.packet_processed().unwrap();
    completed.outcome(12, None).unwrap();
    assert_eq!(open.journal(), completed.journal());
    assert_eq!(open.end(), End::Open);
    assert_eq!(completed.end(), End::Completed(12));
}
