//! Reserved numbers (C-18): every fault comes up alone, at each border, and each slip would change an
//! answer.

use super::{Reach, Sizes};
use crate::model::*;
use crate::random::reserved::ClientCall;
use crate::random::Random;
use std::collections::{BTreeMap, BTreeSet};

/// How often each of these was so.
#[derive(Default)]
struct Often(BTreeMap<&'static str, usize>);

impl Often {
    fn note(&mut self, what: &'static str, so: bool) {
        *self.0.entry(what).or_insert(0) += usize::from(so);
    }

    #[track_caller]
    fn all(&self, least: usize) {
        assert!(self.0.values().all(|n| *n >= least), "{:#?}", self.0);
    }
}

/// The faults of numbers that are given.
fn faults(numbers: &[u32]) -> BTreeSet<&'static str> {
    let distinct: BTreeSet<u32> = numbers.iter().copied().collect();
    let faults = [
        ("not reserved", !numbers.iter().all(|v| is_reserved(*v))),
        ("repeated", distinct.len() < numbers.len()),
        ("too many", numbers.len() > MAX_RESERVED),
    ];
    faults.iter().filter(|f| f.1).map(|f| f.0).collect()
}

/// Packets: every number of numbers, each fault alone, 26 beside each, and versions received that are
/// reserved.
#[test]
fn reach_of_the_packets() {
    let mut random = Random::new(23);
    let (mut often, mut reach, mut sizes) = <(Often, Reach, Sizes)>::default();
    for _ in 0..20_000 {
        let c = random.reserved_packet_call();
        let answer = c.packet();
        reach.note(&answer);
        sizes.note(&c.reserved);
        let version =
            u32::from_be_bytes([c.received[1], c.received[2], c.received[3], c.received[4]]);
        let mut faults = faults(&c.reserved);
        if is_reserved(version) && c.reserved.contains(&version) {
            faults.insert("received");
        }
        for what in ["not reserved", "repeated", "too many", "received"] {
            let alone = faults.len() == 1 && faults.contains(what);
            often.note(what, answer == Err(28) && alone);
        }
        often.note("26 and a fault", answer == Err(26) && !faults.is_empty());
        let five = faults.len() == 1 && c.reserved.len() == MAX_RESERVED + 1;
        often.note("five, and no other fault", five && answer == Err(28));
        let need = answer.as_ref().map_or(0, Vec::len);
        often.note("just enough room", need == c.room && !c.reserved.is_empty());
        let mut more = c.clone();
        more.room += 1;
        often.note(
            "one byte short",
            answer == Err(26) && more.packet() != Err(26),
        );
        let answered = answer.is_ok() && is_reserved(version);
        often.note("a reserved version answered", answered);
        let four = c.reserved.len() == MAX_RESERVED && c.offered.len() == MAX_TABLE;
        often.note("64 entries and four", four && answer.is_ok());
    }
    reach.holds(&[0, 26, 28], 1_000);
    sizes.hold(&[0, 1, 2, 3, 4, 5, 6, 7, 8, 64, 256, 260], 50);
    often.all(20);
}

/// The faults of places.
fn place_faults(reserved: &[(u32, u32)], own: usize) -> BTreeSet<&'static str> {
    let places: BTreeSet<u32> = reserved.iter().map(|(_, place)| *place).collect();
    let entries = (own + reserved.len()) as u32;
    let faults = [
        ("taken twice", places.len() < reserved.len()),
        ("past the end", places.iter().any(|place| *place >= entries)),
    ];
    faults.iter().filter(|f| f.1).map(|f| f.0).collect()
}

/// Lists: each fault alone, 37 beside each; places at the front, in the middle, at the end and one
/// past it; attempts that are open, that acted, and that ended either way.
#[test]
fn reach_of_the_lists() {
    let mut random = Random::new(24);
    let (mut often, mut reach, mut sizes) = <(Often, Reach, Sizes)>::default();
    for _ in 0..20_000 {
        let c = random.client_call();
        let (attempt, answer) = (c.attempt(), c.information());
        let own = attempt.own_list().len();
        reach.note(&answer);
        sizes.note(&c.reserved);
        note_faults(&mut often, &c, own, &answer);
        if answer.is_ok() && !c.reserved.is_empty() {
            note_places(&mut often, &c, own);
            often.note("open", attempt.end == End::Open);
            often.note("acted", attempt.acted);
            let completed = matches!(attempt.end, End::Completed(_));
            often.note("completed", completed);
            often.note("closed", matches!(attempt.end, End::Closed(_)));
            let four = c.reserved.len() == MAX_RESERVED;
            often.note("64 entries and four", own == MAX_TABLE && four);
            often.note("one entry and four", own == 1 && four);
        }
    }
    reach.holds(&[0, 37, 47], 1_000);
    sizes.hold(&[0, 1, 2, 3, 4, 5, 6, 7, 8, 64, 256, 260], 50);
    often.all(20);
}

fn note_faults(often: &mut Often, c: &ClientCall, own: usize, answer: &Result<Vec<u8>, u8>) {
    let numbers: Vec<u32> = c.reserved.iter().map(|(number, _)| *number).collect();
    let mut faults = faults(&numbers);
    faults.extend(place_faults(&c.reserved, own));
    for what in [
        "not reserved",
        "repeated",
        "too many",
        "taken twice",
        "past the end",
    ] {
        let alone = faults.len() == 1 && faults.contains(what);
        often.note(what, *answer == Err(47) && alone);
    }
    often.note("37 and a fault", *answer == Err(37) && !faults.is_empty());
    let end = (own + c.reserved.len()) as u32;
    let past = faults.len() == 1 && c.reserved.iter().any(|(_, place)| *place == end);
    often.note("one past the end", past && *answer == Err(47));
    let mut more = c.clone();
    more.room += 1;
    let short = *answer == Err(37) && more.information() != Err(37);
    often.note("one byte short", short);
}

/// Places of numbers that are sent, and what slips would give another list.
fn note_places(often: &mut Often, c: &ClientCall, own: usize) {
    let last = (own + c.reserved.len()) as u32 - 1;
    let is_at = |wanted: u32| c.reserved.iter().any(|(_, place)| *place == wanted);
    often.note("at 0", is_at(0));
    often.note("at the end", is_at(last));
    let middle = |place: &u32| *place > 0 && *place < last;
    often.note("in the middle", c.reserved.iter().any(|(_, p)| middle(p)));
    often.note("at the end of the own list", own > 0 && is_at(own as u32));
    let falling = c.reserved.windows(2).any(|two| two[0].1 > two[1].1);
    often.note("not in order", falling);
    // Put in one after the other, they would stand elsewhere.
    let mut list: Vec<u32> = vec![0; own];
    for (number, place) in &c.reserved {
        list.insert(list.len().min(*place as usize), *number);
    }
    let elsewhere = |(number, place): &(u32, u32)| list[*place as usize] != *number;
    often.note("one after the other", c.reserved.iter().any(elsewhere));
}

/// What the laws are tried on: servers that decide, packets that are acted on, outcomes of open and of
/// ended attempts.
#[test]
fn reach_of_what_takes_no_notice() {
    let mut random = Random::new(25);
    let mut often = Often::default();
    for _ in 0..8_000 {
        let c = random.client_call_without_ids();
        let attempt = c.attempt();
        let sent = attempt.information(&c.reserved, usize::MAX);
        let mut server = random.server_for(&attempt);
        if let (Ok(information), false) = (sent, c.reserved.is_empty()) {
            server.information = Some(information);
            let choice = server.choice();
            let used = |v| choice == Ok(Decision::Use(v));
            often.note("Chosen used", used(attempt.attempted));
            let other = matches!(choice, Ok(Decision::Use(v)) if v != attempt.attempted);
            often.note("another one used", other);
            often.note("negotiate", choice == Ok(Decision::Negotiate));
        }
        let answer = random.answer_to(&attempt);
        if let (Ok(packet), false) = (answer.packet(), answer.reserved.is_empty()) {
            let answer = attempt.clone().event(&Event::Datagram(packet));
            often.note("acted", matches!(answer, Ok(Effect::Acted(_))));
            often.note("nothing in common", answer == Err(65));
            often.note("lists the Original", answer == Err(64));
            often.note("too late", answer == Err(62));
            often.note("another connection", answer == Err(63));
        }
        let outcome = random.reserved_outcome(&attempt, &c.reserved);
        let answer = attempt.clone().event(&outcome);
        often.note("a reserved Chosen", answer == Err(72));
        often.note("after the end", answer == Err(62));
        assert!(answer == Err(72) || answer == Err(62));
    }
    often.all(100);
}
