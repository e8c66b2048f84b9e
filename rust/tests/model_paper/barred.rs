//! Document 02, C-17, "not every flight converts": the papers' calls with something barred, its
//! edges, the order of the refusals, and its laws on drawn inputs.

use crate::attempts::{begin_barring, completes, listing, missing, outcome, refused_ended};
use crate::model::*;
use crate::random::{in_fours, Random};

const P10_TABLE: &[u32] = &[3, 4, 1, 2];
const P10_PAIRS: &[(u32, u32)] = &[(1, 2), (3, 4)];

/// The attempt of P10 after it acted, with these pairs barred, and its own list.
#[track_caller]
fn p10(barred: &[(u32, u32)], own_list: &[u32]) -> Attempt {
    let mut attempt = begin_barring(P10_TABLE, P10_PAIRS, barred, 1);
    assert_eq!(attempt.event(&listing(&[4, 3])), Ok(Effect::Acted(3)));
    assert_eq!(attempt.own_list(), own_list);
    attempt
}

// The client.

#[test]
fn p10_with_3_to_4_barred() {
    let barred = [(3, 4)];
    // "The own list leaves barred ones out, and rule 72" reads "the shorter list".
    refused_ended(&mut p10(&barred, &[3]), &outcome(4, 4, &[4, 3]), 72);
    // P11 and P12: 72 comes before 75.
    refused_ended(&mut p10(&barred, &[3]), &outcome(4, 4, &[4]), 72);
    refused_ended(&mut p10(&barred, &[3]), &outcome(2, 2, &[4, 3]), 72);
    refused_ended(&mut p10(&barred, &[3]), &outcome(4, 4, &[]), 72);
    completes(&mut p10(&barred, &[3]), &outcome(3, 3, &[4, 3]), 3);
    // Before the act the Original Version's pair stands.
    let started = begin_barring(P10_TABLE, P10_PAIRS, &barred, 1);
    assert_eq!(started.own_list(), [1, 2]);
    // Demand 3's "in our list".
    let events = [listing(&[4, 3]), outcome(4, 4, &[4, 3])];
    assert_eq!(completed(&started, &events), None);
    let events = [listing(&[4, 3]), outcome(3, 3, &[4, 3])];
    assert_eq!(completed(&started, &events), Some(3));
    assert_eq!(completed(&started, &[outcome(2, 2, &[])]), Some(2));
}

/// Barred pairs that leave P10 to P12 as they are, "With nothing barred" first.
#[test]
fn p10_to_p12_stand() {
    let bars_nothing: [&[(u32, u32)]; 12] = [
        &[],
        // Turned round.
        &[(4, 3)],
        // The Original Version's pair, and what would be one.
        &[(1, 2)],
        &[(1, 4), (1, 3)],
        // To the same version from others, from the same version to others.
        &[(2, 4), (1, 4), (9, 4)],
        &[(3, 1), (3, 2), (3, 9)],
        // Chained, by a version of the table and by another.
        &[(3, 1), (1, 4)],
        &[(3, 9), (9, 4)],
        &[(3, 2), (2, 1), (1, 4)],
        // The version that may be answered, as the first member.
        &[(4, 1), (4, 2)],
        &[(7, 8), (7, 8), (8, 7)],
        &[(9, 3), (1, 3)],
    ];
    for barred in bars_nothing {
        let acted = || p10(barred, &[3, 4]);
        completes(&mut acted(), &outcome(4, 4, &[4, 3]), 4);
        refused_ended(&mut acted(), &outcome(4, 4, &[4]), 75);
        refused_ended(&mut acted(), &outcome(2, 2, &[4, 3]), 72);
        let started = begin_barring(P10_TABLE, P10_PAIRS, barred, 1);
        let events = [listing(&[4, 3]), outcome(4, 4, &[4, 3])];
        assert_eq!(completed(&started, &events), Some(4));
    }
}

/// The pair is barred wherever it stands, and however often.
#[test]
fn barred_among_others_and_repeated() {
    let mut many = vec![(7, 8); 1_024];
    for place in [0, 1, 511, 1_022, 1_023] {
        many[place] = (3, 4);
        refused_ended(&mut p10(&many, &[3]), &outcome(4, 4, &[4, 3]), 72);
        many[place] = (7, 8);
    }
    p10(&[(3, 4); 1_024], &[3]);
    p10(&[(4, 3), (3, 4), (1, 2), (3, 4)], &[3]);
}

/// P4 to P9 have no pairs: whatever is barred, they stand.
#[test]
fn p4_to_p9_stand() {
    let barred = [(12, 14), (14, 12), (14, 10), (10, 14), (14, 1), (1, 14)];
    let acts = |table: &[u32], original, packet: &[u32], attempted| {
        let mut attempt = begin_barring(table, &[], &barred, original);
        let answer = attempt.event(&listing(packet));
        assert_eq!(answer, Ok(Effect::Acted(attempted)));
        assert_eq!(attempt.own_list(), [attempted]);
        attempt
    };
    let p4 = || acts(&[14, 12, 10], 12, &[10, 13, 14], 14);
    completes(&mut p4(), &outcome(14, 14, &[13, 14]), 14);
    let mut p5 = acts(&[14, 12, 10], 12, &[10, 13], 10);
    refused_ended(&mut p5, &outcome(10, 10, &[10, 13, 14]), 75);
    refused_ended(&mut p4(), &outcome(14, 14, &[]), 74);
    let mut p7 = begin_barring(&[14, 12, 10], &[], &barred, 12);
    assert_eq!(p7.event(&listing(&[12, 14])), Err(64));
    completes(&mut acts(&[14, 1], 14, &[1], 1), &missing(1), 1);
    refused_ended(&mut acts(&[14, 10], 14, &[10], 10), &missing(10), 71);
}

/// An attempt that never acts reads the barred pairs of its Original Version.
#[test]
fn barred_without_an_act() {
    let begin = |barred: &[(u32, u32)]| begin_barring(&[2, 1], &[(1, 2), (2, 1)], barred, 1);
    assert_eq!(begin(&[(2, 1)]).own_list(), [2, 1]);
    assert_eq!(begin(&[(1, 2)]).own_list(), [1]);
    completes(&mut begin(&[(2, 1)]), &outcome(2, 2, &[]), 2);
    refused_ended(&mut begin(&[(1, 2)]), &outcome(2, 2, &[]), 72);
    completes(&mut begin(&[(1, 2)]), &outcome(1, 1, &[]), 1);
    // Missing information: 73 and no 72, barred or not.
    for barred in [&[][..], &[(1, 2)]] {
        completes(&mut begin(barred), &missing(1), 1);
        refused_ended(&mut begin(barred), &missing(2), 73);
    }
}

/// "under the pairs' rule, else 43; so the attempted version's own entry can't be barred"
#[test]
fn barred_pairs_that_break_the_rule() {
    let start = |barred: &[(u32, u32)]| start(&[2, 1], &[(1, 2)], barred, 1, &[], &[]);
    for bad in [
        (1, 1),
        (2, 2),
        (9, 9),
        (0, 1),
        (1, 0),
        (0x1a2a_3a4a, 1),
        (1, 0xfafa_fafa),
        (0, 0),
    ] {
        assert_eq!(start(&[bad]), Err(43), "{:?}", bad);
        assert_eq!(start(&[(1, 2), bad, (2, 1)]), Err(43), "{:?}", bad);
    }
    assert!(start(&[(7, 8); 1_024]).is_ok());
    assert_eq!(start(&[(7, 8); 1_025]), Err(43));
    assert_eq!(start(&[(1, 2); 1_024]).unwrap().own_list(), [1]);
    assert_eq!(start(&[(1, 2); 1_025]), Err(43));
    assert_eq!(start(&[(1, 0x1b2a_3a4a)]).unwrap().own_list(), [2, 1]);
}

/// 41, 43, 44, 45, in this order; 43 for the pairs, for the barred ones, and for both.
#[test]
fn barred_pairs_among_the_refusals_of_a_start() {
    let long = [0; 21];
    let bad = [(1, 1)];
    for (pairs, barred) in [(&[][..], &bad[..]), (&bad, &[]), (&bad, &bad)] {
        assert_eq!(start(&[], pairs, barred, 0, &long, &long), Err(41));
        assert_eq!(start(&[1, 1], pairs, barred, 1, &[], &[]), Err(41));
        assert_eq!(start(&[1], pairs, barred, 0, &long, &long), Err(43));
        assert_eq!(start(&[1], pairs, barred, 1, &long, &[]), Err(43));
        assert_eq!(start(&[1], pairs, barred, 1, &[], &[]), Err(43));
    }
    let good = [(1, 2)];
    assert_eq!(start(&[1], &good, &good, 2, &long, &[]), Err(44));
    assert_eq!(start(&[1], &good, &good, 1, &long, &[]), Err(45));
}

// The server.

fn server(accepted: &[u32], pairs: &[(u32, u32)], barred: &[u32]) -> Result<Decision, u8> {
    let first_flight = in_fours(&[3, 3, 4]);
    server_choice(&[3], accepted, pairs, barred, 3, Some(&first_flight))
}

#[test]
fn server_calls_with_4_barred() {
    let pair = [(3, 4)];
    assert_eq!(server(&[4, 3], &pair, &[]), Ok(Decision::Use(4)));
    assert_eq!(server(&[4, 3], &pair, &[4]), Ok(Decision::Use(3)));
    assert_eq!(server(&[4, 3], &[(4, 3)], &[4]), Ok(Decision::Use(3)));
    assert_eq!(server(&[4, 3], &[], &[4]), Ok(Decision::Use(3)));
    assert_eq!(server(&[4], &pair, &[]), Ok(Decision::Use(4)));
    assert_eq!(server(&[4], &pair, &[4]), Ok(Decision::Negotiate));
    assert_eq!(server(&[4], &[], &[4]), Ok(Decision::Negotiate));
    // The next in the server's order that is not barred.
    let flight = in_fours(&[3, 3, 4, 5, 6]);
    let pairs = [(3, 4), (3, 5), (3, 6)];
    let next = |barred: &[u32]| server_choice(&[3], &[6, 4, 5], &pairs, barred, 3, Some(&flight));
    assert_eq!(next(&[6]), Ok(Decision::Use(4)));
    assert_eq!(next(&[4]), Ok(Decision::Use(6)));
    assert_eq!(next(&[4, 6]), Ok(Decision::Use(5)));
    assert_eq!(next(&[5, 6, 4]), Ok(Decision::Negotiate));
}

/// "Chosen among them has no effect."
#[test]
fn chosen_among_the_barred() {
    let pair = [(3, 4)];
    assert_eq!(server(&[4, 3], &pair, &[3]), Ok(Decision::Use(4)));
    assert_eq!(server(&[3, 4], &pair, &[3]), Ok(Decision::Use(3)));
    assert_eq!(server(&[4, 3], &pair, &[3, 4]), Ok(Decision::Use(3)));
    assert_eq!(server(&[4, 3], &pair, &[4, 3]), Ok(Decision::Use(3)));
    assert_eq!(server(&[3], &[], &[3]), Ok(Decision::Use(3)));
}

/// Missing information: nothing is converted, so nothing is barred.
#[test]
fn barred_and_missing_information() {
    for barred in [&[][..], &[3], &[4], &[4, 3], &[0, 3, 3], &[3; 64]] {
        let answer = |accepted: &[u32]| server_choice(&[3], accepted, &[(3, 4)], barred, 3, None);
        assert_eq!(answer(&[4, 3]), Ok(Decision::Use(3)));
        assert_eq!(answer(&[4]), Ok(Decision::Negotiate));
    }
}

/// "up to 64 barred versions, of any value, for the flight at hand (more: 43)"
#[test]
fn numbers_and_values_of_barred_versions() {
    let pair = [(3, 4)];
    for count in [1, 2, 63, 64] {
        assert_eq!(
            server(&[4, 3], &pair, &vec![4; count]),
            Ok(Decision::Use(3))
        );
        assert_eq!(
            server(&[4, 3], &pair, &vec![9; count]),
            Ok(Decision::Use(4))
        );
        let mut barred = vec![9; count];
        barred[count - 1] = 4;
        assert_eq!(server(&[4, 3], &pair, &barred), Ok(Decision::Use(3)));
    }
    for count in [65, 66, 128, 256, 1_024, 65_536] {
        assert_eq!(server(&[4, 3], &pair, &vec![4; count]), Err(43));
        assert_eq!(server(&[4, 3], &pair, &vec![9; count]), Err(43));
    }
    let any = [0, 0, 0x1a2a_3a4a, u32::MAX, 9, 9, 0x1a2a_3a4a, 3];
    assert_eq!(server(&[4, 3], &pair, &any), Ok(Decision::Use(4)));
    let any = [&any[..], &[4]].concat();
    assert_eq!(server(&[4, 3], &pair, &any), Ok(Decision::Use(3)));
}

/// "41 and 43 come before all else": before "negotiate" and before what the information has.
#[test]
fn barred_versions_among_the_refusals_of_the_server() {
    let (good, broken) = (in_fours(&[3, 3]), in_fours(&[0]));
    let many = [9; 65];
    for (pairs, barred) in [(&[][..], &many[..]), (&[(3, 3)], &[]), (&[(3, 3)], &many)] {
        for information in [None, Some(&good[..]), Some(&broken), Some(&[])] {
            for version in [3, 9] {
                let answer = |readable: &[u32], accepted: &[u32]| {
                    server_choice(readable, accepted, pairs, barred, version, information)
                };
                assert_eq!(answer(&[], &[3]), Err(41));
                assert_eq!(answer(&[3], &[3, 3]), Err(41));
                assert_eq!(answer(&[3], &[3]), Err(43));
                assert_eq!(answer(&[3], &[4]), Err(43));
            }
        }
    }
    // Up to 64 change no refusal.
    for (versions, no) in [
        (&[0][..], 34),
        (&[4, 4, 0], 35),
        (&[4, 3], 36),
        (&[4, 4], 51),
    ] {
        let information = in_fours(versions);
        let answer = server_choice(&[3], &[3], &[], &many[1..], 3, Some(&information));
        assert_eq!(answer, Err(no));
    }
    let unreadable = server_choice(&[3], &[3], &[], &many[1..], 9, Some(&[]));
    assert_eq!(unreadable, Ok(Decision::Negotiate));
}

// The laws, on drawn inputs.

/// The attempt's own list for each entry of its table.
fn own_lists(attempt: &Attempt) -> Vec<Vec<u32>> {
    let own_list = |attempted: &u32| {
        let mut attempt = attempt.clone();
        attempt.attempted = *attempted;
        attempt.own_list()
    };
    attempt.table.iter().map(own_list).collect()
}

/// A start with some barred is one with these left out of the pairs; with more barred the own lists
/// are a part of those with fewer.
#[test]
fn barred_pairs_are_pairs_left_out() {
    let mut random = Random::new(17);
    for _ in 0..4_000 {
        let c = random.good_start_call();
        let own = own_lists(&c.start().unwrap());
        let mut left_out = c.clone();
        left_out.pairs.retain(|pair| !c.barred.contains(pair));
        left_out.barred.clear();
        assert_eq!(own_lists(&left_out.start().unwrap()), own);
        let mut fewer = c.clone();
        fewer.barred.truncate(c.barred.len() / 2);
        let more = own_lists(&fewer.start().unwrap());
        for (own, more) in own.iter().zip(&more) {
            assert!(own.iter().all(|v| more.contains(v)));
        }
        let mut turned = c.clone();
        turned.barred.reverse();
        assert_eq!(own_lists(&turned.start().unwrap()), own);
    }
}

/// The same of the server's choice, for the pairs from the version of the first flight.
#[test]
fn barred_versions_are_pairs_left_out() {
    let mut random = Random::new(18);
    for _ in 0..8_000 {
        let c = random.server_call();
        let answer = c.choice();
        if c.barred.len() > MAX_BARRED {
            assert!(answer == Err(41) || answer == Err(43));
            continue;
        }
        let mut left_out = c.clone();
        left_out.barred.clear();
        if are_pairs(&c.pairs) {
            let barred = |(from, to): &(u32, u32)| *from == c.version && c.barred.contains(to);
            left_out.pairs.retain(|pair| !barred(pair));
        }
        assert_eq!(left_out.choice(), answer);
        let mut turned = c.clone();
        turned.barred.reverse();
        assert_eq!(turned.choice(), answer);
    }
}
