//! The journal of an attempt (document 02, C-20): worked lists of events, slips, the count's stop.

use crate::attempts::{begin, completes, listing, missing, outcome, p4};
use crate::attempts::{refused_ended, refused_unchanged};
use crate::model::*;
use crate::packet;

/// What a journal shows: the answers, and the count.
#[track_caller]
fn shows(attempt: &Attempt, answers: &[u8], count: u32) {
    assert_eq!(attempt.history.last_eight(), answers);
    assert_eq!(attempt.history.count(), count);
    let mut places = answers.to_vec();
    places.resize(8, 0);
    assert_eq!(attempt.history.places()[..], places);
}

/// Datagrams that are answered with 61 and 63, on an attempt that did not act.
fn unreadable() -> Event {
    Event::Datagram(Vec::new())
}

fn of_another_connection() -> Event {
    Event::Datagram(packet(b"x", b"y", &[14]))
}

/// "the last eight event answers, oldest first (0: no refusal; unused places are 0 and last)"
#[test]
fn worked_journal() {
    let mut attempt = begin(&[14, 12, 10], &[], 12);
    shows(&attempt, &[], 0);
    refused_unchanged(&mut attempt, &unreadable(), 61);
    shows(&attempt, &[61], 1);
    refused_unchanged(&mut attempt, &of_another_connection(), 63);
    refused_unchanged(&mut attempt, &listing(&[12, 14]), 64);
    assert!(attempt.event(&listing(&[10, 13, 14])).is_ok());
    shows(&attempt, &[61, 63, 64, 0], 4);
    refused_unchanged(&mut attempt, &listing(&[10]), 62);
    completes(&mut attempt, &outcome(14, 14, &[13, 14]), 14);
    shows(&attempt, &[61, 63, 64, 0, 62, 0], 6);
    // After the end, and the eighth and the ninth.
    refused_unchanged(&mut attempt, &Event::Processed, 62);
    refused_unchanged(&mut attempt, &unreadable(), 61);
    shows(&attempt, &[61, 63, 64, 0, 62, 0, 62, 61], 8);
    refused_unchanged(&mut attempt, &missing(14), 62);
    shows(&attempt, &[63, 64, 0, 62, 0, 62, 61, 62], 9);
}

/// P1 to P12's ends: the number of the refusal is the last answer.
#[test]
fn endings_are_noted() {
    for (event, no) in [
        (outcome(14, 14, &[]), 74),
        (outcome(14, 10, &[14]), 72),
        (outcome(10, 14, &[14]), 73),
        (missing(14), 71),
    ] {
        let mut attempt = p4();
        refused_ended(&mut attempt, &event, no);
        shows(&attempt, &[0, no], 2);
    }
    let mut attempt = begin(&[14, 12, 10], &[], 12);
    refused_ended(&mut attempt, &listing(&[13]), 65);
    shows(&attempt, &[65], 1);
}

/// "Every event adds one, those answered 61 to 64 too", after the end as before it.
#[test]
fn every_event_adds_one() {
    let mut attempt = begin(&[14, 12, 10], &[], 12);
    for count in 1..=40 {
        refused_unchanged(&mut attempt, &unreadable(), 61);
        assert_eq!(attempt.history.count(), count);
    }
    completes(&mut attempt, &missing(12), 12);
    for count in 42..=80 {
        refused_unchanged(&mut attempt, &Event::Processed, 62);
        assert_eq!(attempt.history.count(), count);
    }
    shows(&attempt, &[62; 8], 80);
}

/// "Starting again empties it."
#[test]
fn starting_again() {
    let mut attempt = p4();
    shows(&attempt, &[0], 1);
    attempt = begin(&[14, 12, 10], &[], 12);
    shows(&attempt, &[], 0);
}

/// "stopping at 4,294,967,295 while the answers go on"
#[test]
fn the_stop_of_the_count() {
    let mut attempt = begin(&[14, 12, 10], &[], 12);
    attempt.history = History::after(MAX_EVENTS - 2, &[1, 2, 3, 4, 5, 6, 7, 8]);
    shows(&attempt, &[1, 2, 3, 4, 5, 6, 7, 8], 4_294_967_293);
    refused_unchanged(&mut attempt, &unreadable(), 61);
    shows(&attempt, &[2, 3, 4, 5, 6, 7, 8, 61], 4_294_967_294);
    refused_unchanged(&mut attempt, &of_another_connection(), 63);
    shows(&attempt, &[3, 4, 5, 6, 7, 8, 61, 63], 4_294_967_295);
    refused_unchanged(&mut attempt, &listing(&[12]), 64);
    shows(&attempt, &[4, 5, 6, 7, 8, 61, 63, 64], 4_294_967_295);
    completes(&mut attempt, &missing(12), 12);
    shows(&attempt, &[5, 6, 7, 8, 61, 63, 64, 0], 4_294_967_295);
}

/// A history that begins with less than eight is the list of its answers.
#[test]
fn histories_that_begin_late() {
    for count in 0..=20 {
        let history = History::after(count, &[9, 8, 7, 6, 5, 4, 3, 2]);
        assert_eq!(u64::from(history.count()), count);
        assert_eq!(history.last_eight().len() as u64, count.min(8));
        assert_eq!(history.before, count.saturating_sub(8));
    }
}
