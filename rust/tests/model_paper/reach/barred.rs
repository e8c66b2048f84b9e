//! What is barred (C-17): it decides often, in every way that it can, and so would each slip.

use super::{Reach, Sizes};
use crate::model::*;
use crate::random::attempts::StartCall;
use crate::random::choices::ServerCall;
use crate::random::Random;
use std::collections::{BTreeMap, BTreeSet};

/// How often each of these was so.
#[derive(Default)]
struct Often(BTreeMap<&'static str, usize>);

impl Often {
    fn note(&mut self, what: &'static str, so: bool) {
        *self.0.entry(what).or_insert(0) += usize::from(so);
    }

    #[track_caller]
    fn all(&self, least: usize) {
        assert!(self.0.values().all(|n| *n >= least), "{:#?}", self.0);
    }
}

/// The faults of a barred pair.
fn faults(barred: &[(u32, u32)]) -> BTreeSet<&'static str> {
    let fault = |&(from, to): &(u32, u32)| match (from, to) {
        (0, _) => Some("from 0"),
        (_, 0) => Some("to 0"),
        _ if is_reserved(from) => Some("from a reserved one"),
        _ if is_reserved(to) => Some("to a reserved one"),
        _ if from == to => Some("to itself"),
        _ => None,
    };
    let too_many = (barred.len() > MAX_PAIRS).then_some("too many");
    barred.iter().filter_map(fault).chain(too_many).collect()
}

/// Starts with barred pairs on both sides of the limit; 43 by each of their faults alone, also where
/// 44 or 45 is next, and beside a 41.
#[test]
fn reach_of_the_barred_pairs() {
    let mut random = Random::new(19);
    let (mut sizes, mut alone) = (Sizes::default(), BTreeMap::new());
    let (mut by_next, mut beside_41) = (Reach::default(), 0);
    for _ in 0..20_000 {
        let c = random.start_call();
        sizes.note(&c.barred);
        let faults = faults(&c.barred);
        if faults.is_empty() {
            assert!(are_pairs(&c.barred));
            continue;
        }
        let mut without = c.clone();
        without.barred.clear();
        let next = without.start();
        match c.start() {
            Err(43) if next != Err(43) => {
                by_next.note(&next);
                let fault = faults.into_iter().next();
                *alone.entry(fault).or_insert(0) += 1;
            }
            Err(43) => {}
            other => {
                assert_eq!(other, Err(41));
                beside_41 += 1;
            }
        }
    }
    sizes.hold(&[0, 1, 2, 1_023, 1_024, 1_025, 1_026], 50);
    by_next.holds(&[0, 44, 45], 20);
    assert_eq!(alone.len(), 6, "{:?}", alone);
    assert!(alone.values().all(|n| *n >= 20), "{:?}", alone);
    assert!(beside_41 >= 20, "{}", beside_41);
}

/// The own list if pairs were barred for the attempted version by this test.
fn own_list_if(attempt: &Attempt, barred: impl Fn(u32) -> bool) -> Vec<u32> {
    let mut other = attempt.clone();
    other.barred.clear();
    let now = attempt.attempted;
    let mut own = other.own_list();
    own.retain(|v| *v == now || !barred(*v));
    own
}

/// Which slips would give another own list.
fn note_slips(often: &mut Often, attempt: &Attempt, original: u32) {
    let own = attempt.own_list();
    let (now, pairs) = (attempt.attempted, &attempt.barred);
    let mut slip = |what, barred: &dyn Fn(u32) -> bool| {
        often.note(what, own_list_if(attempt, barred) != own);
    };
    slip("barred ignored", &|_| false);
    slip("turned round", &|v| pairs.contains(&(v, now)));
    slip("turned round too", &|v| {
        pairs.contains(&(v, now)) || pairs.contains(&(now, v))
    });
    slip("chained", &|v| {
        let between = |(from, to): &(u32, u32)| *from == now && pairs.contains(&(*to, v));
        pairs.contains(&(now, v)) || pairs.iter().any(between)
    });
    slip("read by the second member alone", &|v| {
        pairs.iter().any(|(_, to)| *to == v)
    });
    slip("read by the first member alone", &|_| {
        pairs.iter().any(|(from, _)| *from == now)
    });
    slip("the first alone", &|v| pairs.first() == Some(&(now, v)));
    slip("the last alone", &|v| pairs.last() == Some(&(now, v)));
    if original != now {
        slip("read for the Original Version", &|v| {
            pairs.contains(&(original, v))
        });
        slip("read for the Original Version too", &|v| {
            pairs.contains(&(original, v)) || pairs.contains(&(now, v))
        });
    }
}

/// A start and events of either kind: any, or those that what is barred decides.
fn start_and_events(random: &mut Random) -> (StartCall, Vec<Event>) {
    if random.one_in(2) {
        return random.barring_call();
    }
    let c = random.good_start_call();
    let events = random.events(&c.start().unwrap());
    (c, events)
}

/// Starts, and what is attempted after the act.
#[test]
fn reach_of_the_own_lists() {
    let mut random = Random::new(20);
    let (mut at_start, mut acted) = <(Often, Often)>::default();
    for _ in 0..8_000 {
        let (c, events) = start_and_events(&mut random);
        let mut attempt = c.start().unwrap();
        note_slips(&mut at_start, &attempt, c.original);
        for event in &events {
            if let Ok(Effect::Acted(_)) = attempt.event(event) {
                note_slips(&mut acted, &attempt, c.original);
            }
        }
    }
    at_start.all(200);
    acted.all(200);
}

/// Outcomes: a 72 by a barred pair alone, before and after an act, and where the same version is
/// not barred for the Original; a version that is barred for the Original alone completes.
#[test]
fn reach_of_the_outcomes() {
    let mut random = Random::new(21);
    let mut often = Often::default();
    for _ in 0..12_000 {
        let (c, events) = start_and_events(&mut random);
        let started = c.start().unwrap();
        let mut attempt = started.clone();
        for event in &events {
            let before = attempt.clone();
            let answer = attempt.event(event);
            if let Event::Outcome { in_use, .. } = event {
                note_outcome(&mut often, &c, before, event, *in_use, answer);
            }
        }
        let end = match attempt.end {
            End::Completed(version) => Some(version),
            _ => None,
        };
        assert_eq!(completed(&started, &events), end);
    }
    often.all(50);
}

fn note_outcome(
    often: &mut Often,
    c: &StartCall,
    before: Attempt,
    event: &Event,
    in_use: u32,
    answer: Result<Effect, u8>,
) {
    let mut nothing_barred = before.clone();
    nothing_barred.barred.clear();
    let otherwise = nothing_barred.event(event);
    let by_it = answer == Err(72) && otherwise != Err(72);
    let completes = otherwise == Ok(Effect::Completed(in_use));
    let for_original = c.barred.contains(&(c.original, in_use));
    often.note("72 without an act", by_it && !before.acted);
    often.note("72 after an act", by_it && before.acted);
    often.note("72 in place of completing", by_it && completes);
    often.note("72 in place of 73", by_it && otherwise == Err(73));
    often.note("72 in place of 74", by_it && otherwise == Err(74));
    often.note("72 in place of 75", by_it && otherwise == Err(75));
    let moved = before.acted && before.attempted != c.original;
    often.note("not for the Original", by_it && moved && !for_original);
    let completed = answer == Ok(Effect::Completed(in_use));
    let by_pair = completed && in_use != before.attempted;
    often.note("for the Original alone", by_pair && moved && for_original);
    let turned = c.barred.contains(&(in_use, before.attempted));
    often.note("turned round", by_pair && turned);
    let own_shorter = before.own_list() != nothing_barred.own_list();
    often.note("another one barred", by_pair && own_shorter);
}

/// The server's choice: every number of barred versions, values that no table has, and answers that
/// what is barred decides.
#[test]
fn reach_of_the_barred_versions() {
    let mut random = Random::new(22);
    let (mut often, mut sizes) = (Often::default(), Sizes::default());
    for _ in 0..20_000 {
        let c = random.server_call();
        sizes.note(&c.barred);
        note_barred_versions(&mut often, &c);
        note_barred_versions(&mut often, &random.barring_server_call());
    }
    let all: Vec<usize> = (0..=66).chain([1_024]).collect();
    sizes.hold(&all, 10);
    sizes.hold(&[0, 1, 2, 63, 64, 65, 66, 128, 256, 320, 1_024], 50);
    often.all(20);
}

/// The choice with these barred.
fn choice_with(c: &ServerCall, barred: &[u32]) -> Result<Decision, u8> {
    let mut other = c.clone();
    other.barred = barred.to_vec();
    other.choice()
}

/// Which answers barred versions change.
fn note_barred_versions(often: &mut Often, c: &ServerCall) {
    let (answer, otherwise) = (c.choice(), choice_with(c, &[]));
    let (by_it, too_many) = (answer != otherwise, c.barred.len() > MAX_BARRED);
    let refused = answer == Err(43) && by_it;
    let readable = c.readable.contains(&c.version);
    often.note("41 before 43", answer == Err(41) && too_many);
    often.note("43 in place of an answer", refused && otherwise.is_ok());
    often.note("43, not readable", refused && !readable);
    often.note("43 in place of 51", refused && otherwise == Err(51));
    often.note("43 in place of 31", refused && otherwise == Err(31));
    let negotiate = answer == Ok(Decision::Negotiate);
    often.note("negotiate", by_it && negotiate);
    if let Ok(Decision::Use(version)) = answer {
        let chosen = version == c.version;
        often.note("Chosen in place of another", by_it && chosen);
        often.note("another one", by_it && !chosen);
        often.note("64 decide", by_it && c.barred.len() == MAX_BARRED);
        note_used(often, c, chosen);
    }
}

/// What is barred where a version is used.
fn note_used(often: &mut Often, c: &ServerCall, chosen: bool) {
    let (answer, barred) = (c.choice(), &c.barred);
    let is_barred = chosen && barred.contains(&c.version);
    let given = c.information.is_some();
    often.note("Chosen, though barred", given && is_barred);
    often.note("missing, and barred", !given && is_barred);
    let known = |v: &u32| c.accepted.contains(v) || c.readable.contains(v);
    often.note("0", barred.contains(&0));
    often.note("reserved", barred.iter().any(|v| is_reserved(*v)));
    often.note("of no table", !barred.iter().all(known));
    let distinct: BTreeSet<u32> = barred.iter().copied().collect();
    often.note("repeated", distinct.len() < barred.len());
    let (one, but_one) = (barred.len().min(1), barred.len().saturating_sub(1));
    let mut slip = |what, barred| often.note(what, choice_with(c, barred) != answer);
    slip("the first alone", &barred[..one]);
    slip("the last alone", &barred[but_one..]);
    slip("all but the first", &barred[one..]);
    slip("all but the last", &barred[..but_one]);
}
