//! The client's attempt: worked calls, slips, edges, the order of the refusals.

use crate::model::*;
use crate::packet;
use crate::random::{information, long_packet};

// Different in value and in length, so that a swap forgotten is seen.
const DESTINATION: &[u8] = &[0xd1, 0xd2, 0xd3];
const SOURCE: &[u8] = &[0x51];

/// Version Negotiation with matching IDs.
pub fn listing(versions: &[u32]) -> Event {
    Event::Datagram(packet(SOURCE, DESTINATION, versions))
}

pub fn outcome(in_use: u32, chosen: u32, available: &[u32]) -> Event {
    Event::Outcome {
        in_use,
        information: Some(information(chosen, available)),
    }
}

pub fn missing(in_use: u32) -> Event {
    Event::Outcome {
        in_use,
        information: None,
    }
}

pub fn begin(table: &[u32], pairs: &[(u32, u32)], original: u32) -> Attempt {
    begin_barring(table, pairs, &[], original)
}

pub fn begin_barring(
    table: &[u32],
    pairs: &[(u32, u32)],
    barred: &[(u32, u32)],
    original: u32,
) -> Attempt {
    start(table, pairs, barred, original, DESTINATION, SOURCE).unwrap()
}

/// The attempt of P4 after it acted.
pub fn p4() -> Attempt {
    let mut attempt = begin(&[14, 12, 10], &[], 12);
    assert_eq!(
        attempt.event(&listing(&[10, 13, 14])),
        Ok(Effect::Acted(14))
    );
    attempt
}

/// The attempt of P10 after it acted.
pub fn p10() -> Attempt {
    let mut attempt = begin(&[3, 4, 1, 2], &[(1, 2), (3, 4)], 1);
    assert_eq!(attempt.event(&listing(&[4, 3])), Ok(Effect::Acted(3)));
    assert_eq!(attempt.own_list(), [3, 4]);
    attempt
}

/// An event with this answer, which changes the end mark alone; and the journal,
/// which "alone" and "unchanged" leave out (document 02, C-20).
#[track_caller]
fn answered(attempt: &mut Attempt, event: &Event, answer: Result<Effect, u8>, end: End) {
    let mut after = attempt.clone();
    after.end = end;
    after.history.answers.push(answer.err().unwrap_or(0));
    assert_eq!(attempt.event(event), answer);
    assert_eq!(*attempt, after);
}

/// An event that is refused and leaves the record as it was, but for the journal.
#[track_caller]
pub fn refused_unchanged(attempt: &mut Attempt, event: &Event, no: u8) {
    let end = attempt.end;
    answered(attempt, event, Err(no), end);
}

/// An event that is refused and ends the attempt: "An ending changes the end
/// mark alone."
#[track_caller]
pub fn refused_ended(attempt: &mut Attempt, event: &Event, no: u8) {
    answered(attempt, event, Err(no), End::Closed(no));
}

#[track_caller]
pub fn completes(attempt: &mut Attempt, event: &Event, with: u32) {
    let answer = Ok(Effect::Completed(with));
    answered(attempt, event, answer, End::Completed(with));
}

// The worked calls.

#[test]
fn p4_completes() {
    let mut attempt = p4();
    assert_eq!(
        (attempt.attempted, attempt.acted, attempt.heard),
        (14, true, false)
    );
    assert_eq!(attempt.original, 12);
    assert_eq!(attempt.end, End::Open);
    completes(&mut attempt, &outcome(14, 14, &[13, 14]), 14);
}

#[test]
fn p5_downgrade() {
    let mut attempt = begin(&[14, 12, 10], &[], 12);
    assert_eq!(attempt.event(&listing(&[10, 13])), Ok(Effect::Acted(10)));
    refused_ended(&mut attempt, &outcome(10, 10, &[10, 13, 14]), 75);
}

#[test]
fn p6_empty_available() {
    refused_ended(&mut p4(), &outcome(14, 14, &[]), 74);
}

#[test]
fn p7_lists_the_original() {
    refused_unchanged(&mut begin(&[14, 12, 10], &[], 12), &listing(&[12, 14]), 64);
}

#[test]
fn p8_version_1_stands_in() {
    let mut attempt = begin(&[14, 1], &[], 14);
    assert_eq!(attempt.event(&listing(&[1])), Ok(Effect::Acted(1)));
    completes(&mut attempt, &missing(1), 1);
}

#[test]
fn p9_missing() {
    let mut attempt = begin(&[14, 10], &[], 14);
    assert_eq!(attempt.event(&listing(&[10])), Ok(Effect::Acted(10)));
    refused_ended(&mut attempt, &missing(10), 71);
}

#[test]
fn p10_to_p12_pairs() {
    completes(&mut p10(), &outcome(4, 4, &[4, 3]), 4);
    refused_ended(&mut p10(), &outcome(4, 4, &[4]), 75);
    refused_ended(&mut p10(), &outcome(2, 2, &[4, 3]), 72);
    refused_ended(&mut p10(), &outcome(2, 2, &[2]), 72);
    refused_ended(&mut p10(), &outcome(2, 2, &[]), 72);
}

// The slips that the paper names.

#[test]
fn slip_empty_available_passes() {
    refused_ended(&mut p4(), &outcome(14, 14, &[]), 74);
    refused_ended(&mut p10(), &outcome(4, 4, &[]), 74);
    // Never acted: 74 is not judged.
    completes(&mut begin(&[14, 12], &[], 12), &outcome(12, 12, &[]), 12);
}

#[test]
fn slip_version_in_use_not_added() {
    completes(&mut p4(), &outcome(14, 14, &[13]), 14);
}

#[test]
fn slip_compared_with_the_version_in_use() {
    completes(&mut p10(), &outcome(4, 4, &[4, 3]), 4);
}

#[test]
fn slip_ids_not_swapped() {
    let received = long_packet(0, 12, DESTINATION, SOURCE, &[0; MIN_ANSWERED]);
    let sent = version_negotiation(&received, &[14], &[], 0, usize::MAX).unwrap();
    assert_eq!(sent, packet(SOURCE, DESTINATION, &[14]));
    let mut attempt = begin(&[14, 12], &[], 12);
    let unswapped = Event::Datagram(packet(DESTINATION, SOURCE, &[14]));
    refused_unchanged(&mut attempt, &unswapped, 63);
    assert_eq!(attempt.event(&Event::Datagram(sent)), Ok(Effect::Acted(14)));
}

// Slips seen elsewhere.

#[test]
fn slip_empty_list_is_nothing_in_common() {
    refused_unchanged(&mut begin(&[14], &[], 14), &listing(&[]), 61);
}

#[test]
fn slip_left_over_bytes_skipped() {
    for more in 1..4 {
        let mut bytes = packet(SOURCE, DESTINATION, &[14]);
        bytes.extend(vec![0; more]);
        let mut attempt = begin(&[14, 12], &[], 12);
        refused_unchanged(&mut attempt, &Event::Datagram(bytes), 61);
    }
}

#[test]
fn slip_wrong_source_id_ends_or_passes() {
    let wrong: [(&[u8], &[u8]); 5] = [
        (SOURCE, SOURCE),
        (DESTINATION, DESTINATION),
        (SOURCE, &[0xd1, 0xd2]),
        (SOURCE, &[0xd1, 0xd2, 0xd3, 0]),
        (&[], DESTINATION),
    ];
    for (destination, source) in wrong {
        let event = Event::Datagram(packet(destination, source, &[14]));
        refused_unchanged(&mut begin(&[14, 12], &[], 12), &event, 63);
    }
}

#[test]
fn slip_zero_entry_makes_packet_ignored() {
    let mut attempt = begin(&[14, 12], &[], 12);
    assert_eq!(attempt.event(&listing(&[0, 14])), Ok(Effect::Acted(14)));
    refused_ended(&mut begin(&[14, 12], &[], 12), &listing(&[0]), 65);
}

#[test]
fn slip_second_packet_acted_on() {
    let mut attempt = p4();
    refused_unchanged(&mut attempt, &listing(&[10]), 62);
    // The Original is 12 still, and 62 comes before 63 and 64.
    refused_unchanged(&mut attempt, &listing(&[12]), 62);
    let strange = Event::Datagram(packet(b"x", b"y", &[10]));
    refused_unchanged(&mut attempt, &strange, 62);
}

#[test]
fn slip_rule_64_at_the_outcome() {
    // Available lists the Original, 12, after 14.
    completes(&mut p4(), &outcome(14, 14, &[12, 14]), 14);
    // P5's attempt with the Original, which the table prefers to 10.
    let mut attempt = begin(&[14, 12, 10], &[], 12);
    assert_eq!(attempt.event(&listing(&[10])), Ok(Effect::Acted(10)));
    refused_ended(&mut attempt, &outcome(10, 10, &[12, 10]), 75);
}

// Edges of the rules, and the order of the refusals.

#[test]
fn start_refusals() {
    let long = [0; 21];
    assert_eq!(start(&[], &[(1, 1)], &[], 0, &long, &long), Err(41));
    assert_eq!(start(&[1], &[(1, 1)], &[], 0, &long, &long), Err(43));
    assert_eq!(start(&[1], &[], &[], 0, &long, &long), Err(44));
    assert_eq!(start(&[1], &[], &[], 1, &long, &[]), Err(45));
    assert_eq!(start(&[1], &[], &[], 1, &[], &long), Err(45));
    let attempt = start(&[2, 1], &[(1, 2)], &[], 1, &long[1..], &[]).unwrap();
    assert_eq!(
        (attempt.attempted, attempt.acted, attempt.heard),
        (1, false, false)
    );
    assert_eq!(attempt.end, End::Open);
    // In table order, not pair order.
    assert_eq!(attempt.own_list(), [2, 1]);
}

#[test]
fn empty_and_equal_ids_match() {
    let ids: [&[u8]; 2] = [&[], &[7; 20]];
    for id in ids {
        let mut attempt = start(&[14, 12], &[], &[], 12, id, id).unwrap();
        let event = Event::Datagram(packet(id, id, &[14]));
        assert_eq!(attempt.event(&event), Ok(Effect::Acted(14)));
    }
}

#[test]
fn unreadable_datagram_is_61_in_every_state() {
    let short = Event::Datagram(vec![0]);
    let long = Event::Datagram(long_packet(0, 14, SOURCE, DESTINATION, &[0; 4]));
    let over = Event::Datagram(packet(SOURCE, DESTINATION, &vec![14; 16_383]));
    let mut heard = begin(&[14, 12], &[], 12);
    assert_eq!(heard.event(&Event::Processed), Ok(Effect::Noted));
    let mut ended = begin(&[14, 12], &[], 12);
    completes(&mut ended, &missing(12), 12);
    for mut attempt in [begin(&[14, 12], &[], 12), p4(), heard, ended] {
        for event in [&short, &long, &over, &Event::Datagram(Vec::new())] {
            refused_unchanged(&mut attempt, event, 61);
        }
    }
}

#[test]
fn heard() {
    let mut attempt = begin(&[14, 12], &[], 12);
    let mut after = attempt.clone();
    after.heard = true;
    // Twice on an open attempt is no refusal.
    for _ in 0..2 {
        assert_eq!(attempt.event(&Event::Processed), Ok(Effect::Noted));
        after.history.answers.push(0);
        assert_eq!(attempt, after);
    }
    refused_unchanged(&mut attempt, &listing(&[14]), 62);
    completes(&mut attempt, &outcome(12, 12, &[12]), 12);
    refused_unchanged(&mut attempt, &Event::Processed, 62);
    refused_unchanged(&mut attempt, &listing(&[14]), 62);
    refused_unchanged(&mut attempt, &outcome(12, 12, &[12]), 62);
    // Ended: 31 is not judged.
    let broken = Event::Outcome {
        in_use: 12,
        information: Some(Vec::new()),
    };
    refused_unchanged(&mut attempt, &broken, 62);
    // Heard after acting takes nothing back.
    let mut attempt = p4();
    assert_eq!(attempt.event(&Event::Processed), Ok(Effect::Noted));
    assert!(attempt.acted && attempt.heard);
    completes(&mut attempt, &outcome(14, 14, &[14]), 14);
}

#[test]
fn outcome_refusals() {
    let with = |bytes: Vec<u8>| Event::Outcome {
        in_use: 14,
        information: Some(bytes),
    };
    refused_ended(&mut p4(), &with(vec![0; 3]), 31);
    refused_ended(&mut p4(), &with(vec![0; 1_026]), 32);
    refused_ended(&mut p4(), &with(vec![0; 1_028]), 33);
    refused_ended(&mut p4(), &with(vec![0; 4]), 34);
    refused_ended(&mut p4(), &outcome(14, 9, &[0]), 35);
    // 36 is for a client's information: Chosen need not be in Available.
    completes(&mut p4(), &outcome(14, 14, &[10]), 14);
    refused_ended(&mut p4(), &outcome(9, 9, &[9]), 72);
    refused_ended(&mut p4(), &outcome(12, 12, &[12]), 72);
    refused_ended(&mut p4(), &outcome(12, 14, &[]), 73);
    // The whole list: 255 entries, plus the version in use.
    completes(&mut p4(), &outcome(14, 14, &[13; 255]), 14);
}

#[test]
fn missing_information() {
    // Never acted: no stand-in, even for version 1.
    completes(&mut begin(&[14, 1], &[], 1), &missing(1), 1);
    completes(&mut begin(&[14, 1], &[], 14), &missing(14), 14);
    refused_ended(&mut begin(&[14, 1], &[(1, 14)], 1), &missing(14), 73);
    // The stand-in is judged like information.
    let mut attempt = begin(&[14, 1], &[(1, 14)], 14);
    assert_eq!(attempt.event(&listing(&[1])), Ok(Effect::Acted(1)));
    refused_ended(&mut attempt, &missing(14), 73);
    // 71 comes before 73.
    refused_ended(&mut p4(), &missing(9), 71);
}
