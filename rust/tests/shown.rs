//! What `Debug` and the version constants show: versions in hexadecimal. And the journal, for the log.

use quic_version::{
    read_header, read_information, versions, Answer, Attempt, ConfigurationFault,
    ConfigurationRefusal, Decision, End, Pair, Refusal, Reserved, Sender, ServerConfiguration,
    WriteRefusal, VERSION_1, VERSION_2,
};

/// A Version Negotiation packet from ID 05 to ID 51 d1, with version 1 and version 2.
const PACKET: [u8; 18] = [
    0x80, 0, 0, 0, 0, 2, 0x51, 0xd1, 1, 5, 0, 0, 0, 1, 0x6b, 0x33, 0x43, 0xcf,
];

#[test]
fn version_constants() {
    assert_eq!(VERSION_1.to_be_bytes(), [0, 0, 0, 1]);
    assert_eq!(VERSION_2.to_be_bytes(), [0x6b, 0x33, 0x43, 0xcf]);
}

#[test]
fn pairs_ends_and_decisions() {
    assert_eq!(
        format!("{:?}", Pair::from((VERSION_1, VERSION_2))),
        "Pair { from: 0x00000001, to: 0x6b3343cf }"
    );
    assert_eq!(format!("{:?}", End::Open), "Open");
    assert_eq!(
        format!("{:?}", End::Completed(VERSION_2)),
        "Completed(0x6b3343cf)"
    );
    assert_eq!(
        format!("{:?}", End::Closed(Refusal::Downgraded)),
        "Closed(Downgraded)"
    );
    assert_eq!(format!("{:?}", Decision::Negotiate), "Negotiate");
    assert_eq!(format!("{:?}", Decision::Use(u32::MAX)), "Use(0xffffffff)");
}

#[test]
fn reserved_numbers() {
    let reserved = Reserved {
        number: 0x0a2a_3a4a,
        place: 12,
    };
    let shown = "Reserved { number: 0x0a2a3a4a, place: 12 }";
    assert_eq!(format!("{:?}", reserved), shown);
    assert_eq!(format!("{:?}", [reserved]), format!("[{}]", shown));
    let refusal = WriteRefusal::BadReservedInList;
    assert_eq!(format!("{:?}", refusal), "BadReservedInList");
}

#[test]
fn configurations() {
    let server = ServerConfiguration {
        readable: &[VERSION_2, VERSION_1, 14],
        accepted: &[VERSION_2, VERSION_1],
        offered: &[VERSION_1],
        available: &[0, 0x1a2a_3a4a],
        pairs: &[Pair {
            from: VERSION_1,
            to: VERSION_2,
        }],
    };
    assert_eq!(
        format!("{:?}", server),
        "ServerConfiguration { readable: [0x6b3343cf, 0x00000001, 0x0000000e], \
         accepted: [0x6b3343cf, 0x00000001], offered: [0x00000001], \
         available: [0x00000000, 0x1a2a3a4a], \
         pairs: [Pair { from: 0x00000001, to: 0x6b3343cf }] }"
    );
    let fault = server.check().unwrap_err();
    assert_eq!(format!("{:?}", fault), "AcceptedNotOffered(0x6b3343cf)");
    let words = "an accepted version is not offered: 0x6b3343cf";
    assert_eq!(fault.to_string(), words);
    // 0 is a version that Available can hold.
    let accepted = &[VERSION_1];
    let server = ServerConfiguration { accepted, ..server };
    let fault = server.check().unwrap_err();
    assert_eq!(fault, ConfigurationFault::AvailableNotOffered(0));
    let words = "an Available Version is not offered: 0x00000000";
    assert_eq!(fault.to_string(), words);
    let server = ServerConfiguration {
        offered: &[],
        ..server
    };
    let fault = server.check().unwrap_err();
    let refusal = ConfigurationRefusal::BadOfferedTable;
    assert_eq!(fault, ConfigurationFault::Refused(refusal));
    assert_eq!(format!("{:?}", fault), "Refused(BadOfferedTable)");
    assert_eq!(fault.to_string(), "the offered table breaks its rule (23)");
    let boxed: Box<dyn std::error::Error> = fault.into();
    assert_eq!(boxed.to_string(), refusal.to_string());
}

#[test]
fn headers_lists_and_information() {
    assert_eq!(
        format!("{:?}", read_header(&PACKET, 0).unwrap()),
        "VersionNegotiation { destination: [81, 209], source: [5], list: [0x00000001, 0x6b3343cf] }"
    );
    let long = [0xc0, 0x6b, 0x33, 0x43, 0xcf, 1, 7, 0, 9];
    assert_eq!(
        format!("{:?}", read_header(&long, 0).unwrap()),
        "Long { version: 0x6b3343cf, destination: [7], source: [], rest: [9] }"
    );
    assert_eq!(
        format!("{:?}", read_header(&[0x40, 7, 9], 1).unwrap()),
        "Short { destination: [7], rest: [9] }"
    );

    let mut list = versions(&PACKET[10..]);
    assert_eq!(format!("{:?}", list), "Versions([0x00000001, 0x6b3343cf])");
    assert_eq!(list.next(), Some(VERSION_1));
    assert_eq!(format!("{:?}", list), "Versions([0x6b3343cf])");
    // Bytes left over are no version, but they are shown.
    let mut list = versions(&PACKET[10..17]);
    assert_eq!(format!("{:?}", list), "Versions([0x00000001, 0x6b3343])");
    assert_eq!(list.by_ref().count(), 1);
    assert_eq!(format!("{:?}", list), "Versions([0x6b3343])");

    let bytes = [0x6b, 0x33, 0x43, 0xcf, 0, 0, 0, 1];
    assert_eq!(
        format!("{:?}", read_information(Sender::Server, &bytes).unwrap()),
        "Information { chosen: 0x6b3343cf, available: [0x00000001] }"
    );
}

#[test]
fn attempts() {
    let pairs = [Pair::from((VERSION_2, VERSION_1))];
    let table = [VERSION_2, 14, VERSION_1];
    let mut attempt = Attempt::start(&table, &pairs, 14, &[5], &[0x51, 0xd1]).unwrap();
    assert_eq!(attempt.table(), table);
    assert!(!attempt.acted() && !attempt.heard());
    assert_eq!(attempt.datagram(&PACKET), Ok(VERSION_2));
    assert!(attempt.acted() && !attempt.heard());
    assert_eq!(
        format!("{:?}", attempt),
        "Attempt { table: [0x6b3343cf, 0x0000000e, 0x00000001], original: 0x0000000e, \
         attempted: 0x6b3343cf, own_list: [0x6b3343cf, 0x00000001], acted: true, heard: false, \
         end: Open, journal: Journal { answers: [NoRefusal], count: 1 }, .. }"
    );
    assert_eq!(
        format!("{:#?}", attempt.own_list()),
        "[\n    0x6b3343cf,\n    0x00000001,\n]"
    );
    attempt.packet_processed().unwrap();
    assert!(attempt.acted() && attempt.heard());
    let information = [0, 0, 0, 1, 0x6b, 0x33, 0x43, 0xcf];
    assert_eq!(
        attempt.outcome(VERSION_1, Some(&information)),
        Ok(VERSION_1)
    );
    assert_eq!(format!("{:?}", attempt.end()), "Completed(0x00000001)");
}

#[test]
fn answers() {
    let shown = |number| {
        let answer = Answer::from_number(number);
        (answer.to_string(), format!("{:?}", answer))
    };
    let both = |words: &str, name: &str| (String::from(words), String::from(name));
    assert_eq!(shown(0), both("0 no refusal", "NoRefusal"));
    let words = "63 the connection IDs of the packet are not ours, swapped";
    assert_eq!(shown(63), both(words, "OtherConnection"));
    // Numbers that no event gives.
    assert_eq!(shown(7), both("7 an unknown number", "Unknown(7)"));
    let words = "255 an unknown kind, or a record that could not be an attempt's";
    assert_eq!(shown(255), both(words, "NotValid"));
    assert_eq!(
        Answer::from_number(63).refusal(),
        Some(Refusal::OtherConnection)
    );
    assert_eq!(Answer::from_number(0).refusal(), None);
    assert_eq!(Answer::from_number(7).refusal(), Some(Refusal::NotValid));
}

/// A line for each answer that is kept, oldest first, with the number of its event.
#[test]
fn journals() {
    let mut attempt = Attempt::start(&[14, 12], &[], 12, &[5], &[0x51, 0xd1]).unwrap();
    let journal = attempt.journal();
    assert_eq!(journal.to_string(), "no event");
    assert_eq!(
        format!("{:?}", journal),
        "Journal { answers: [], count: 0 }"
    );
    assert_eq!(journal.first_event(), None);

    attempt.datagram(&PACKET[..9]).unwrap_err();
    attempt.datagram(&PACKET).unwrap_err();
    let ended = attempt.journal();
    assert_eq!(
        ended.to_string(),
        "event 1: 61 the datagram is no readable Version Negotiation packet\n\
         event 2: 65 the packet lists no version of ours; the attempt has ended"
    );
    assert_eq!(
        format!("{:?}", ended),
        "Journal { answers: [NotVersionNegotiation, NoVersionLeft], count: 2 }"
    );
    // A copy: later events do not change it.
    for _ in 0..7 {
        attempt.packet_processed().unwrap_err();
    }
    assert_eq!((ended.count(), ended.len()), (2, 2));
    let journal = attempt.journal();
    assert_eq!((journal.count(), journal.len()), (9, 8));
    let lines: Vec<String> = journal.to_string().lines().map(String::from).collect();
    let late = "62 the attempt has ended, or acted or heard before this Version Negotiation packet";
    assert_eq!(
        lines[0],
        "event 2: 65 the packet lists no version of ours; the attempt has ended"
    );
    for (line, number) in lines[1..].iter().zip(3..) {
        assert_eq!(*line, format!("event {}: {}", number, late));
    }
    assert_eq!(lines.len(), 8);
}

#[test]
fn iterators_of_a_journal() {
    let mut attempt = Attempt::start(&[14, 12], &[], 12, &[5], &[0x51, 0xd1]).unwrap();
    attempt.datagram(&[]).unwrap_err();
    attempt.packet_processed().unwrap();
    attempt.outcome(12, None).unwrap();
    attempt.packet_processed().unwrap_err();
    let journal = attempt.journal();
    let numbers: Vec<u8> = journal.iter().map(Answer::number).collect();
    assert_eq!(numbers, [61, 0, 0, 62]);
    let mut answers = journal.iter();
    assert_eq!(answers.len(), 4);
    assert_eq!(answers.next(), Some(Answer::from_number(61)));
    assert_eq!(answers.next_back(), Some(Answer::from_number(62)));
    assert_eq!(answers.size_hint(), (2, Some(2)));
    assert_eq!(format!("{:?}", answers), "[NoRefusal, NoRefusal]");
    assert_eq!(answers.by_ref().count(), 2);
    assert_eq!((answers.next(), answers.next_back()), (None, None));
    let mut refused = Vec::new();
    for answer in &journal {
        refused.extend(answer.refusal());
    }
    assert_eq!(refused, [Refusal::NotVersionNegotiation, Refusal::TooLate]);
    assert_eq!(journal.into_iter().rev().count(), 4);
    assert_eq!(journal, attempt.clone().journal());
}
