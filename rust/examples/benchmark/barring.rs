//! Rows of C-17: a start and a server's choice at the limits, with as much barred as there may be.

use crate::attempts::full;
use crate::measure::{calls, grouped, opaque, same, Table};
use crate::packet::information;
use crate::plain::{self, PlainAttempt};
use crate::Pair;
use quic_version::{
    server_choice_barring, Attempt, Decision, MAX_AVAILABLE, MAX_BARRED, MAX_PAIRS, MAX_TABLE,
};

/// The highest ratio of each kind of row, if one was measured.
pub struct Worst {
    pub start: Option<f64>,
    pub choice: Option<f64>,
}

pub fn rows(table: &mut Table) -> Worst {
    Worst {
        start: starts(table).into_iter().reduce(f64::max),
        choice: choices(table).into_iter().reduce(f64::max),
    }
}

fn in_a_row(first: u32, count: usize) -> Vec<u32> {
    (first..).take(count).collect()
}

fn paired(from: u32, to: &[u32]) -> Vec<Pair> {
    to.iter().map(|to| Pair { from, to: *to }).collect()
}

/// The ratios of the rows that were measured.
fn starts(table: &mut Table) -> Vec<f64> {
    let (destination, source) = (&[7; 8][..], &[8; 8][..]);
    let (versions, pairs) = full();
    let versions = &versions[..];
    let turned = |pair: &Pair| Pair::from((pair.to, pair.from));
    let turned: Vec<Pair> = pairs.iter().map(turned).collect();
    // The longest search: the first member is found last, the second nowhere.
    let dear = paired(versions[MAX_TABLE - 1], &in_a_row(10_000, MAX_PAIRS));
    let original = versions[MAX_TABLE / 2 - 1];
    let mut ratios = Vec::new();
    // Each with how many versions are in an own list.
    for (name, pairs, barred, own) in [
        ("the pairs", &pairs[..], &pairs[..], 1),
        ("the pairs turned round", &pairs, &turned, 17),
        ("the pairs, last entry to no entry", &dear, &dear, 1),
    ] {
        for original in versions.iter().copied() {
            let ours =
                Attempt::start_barring(versions, pairs, barred, original, destination, source);
            let theirs =
                PlainAttempt::start_barring(versions, pairs, barred, original, destination, source);
            let list = same(
                ours.map(|attempt| attempt.own_list().to_vec()),
                theirs.map(|attempt| attempt.own_list().to_vec()),
            );
            assert_eq!(list.map(|list| list.len()), Ok(own));
        }
        ratios.extend(table.row(
            &format!(
                "start, {} entries, {} pairs, {} barred: {}",
                versions.len(),
                grouped(pairs.len()),
                grouped(barred.len()),
                name
            ),
            calls!(Attempt::start_barring(
                opaque(versions),
                opaque(pairs),
                opaque(barred),
                opaque(original),
                opaque(destination),
                opaque(source)
            )
            .unwrap()
            .attempted()),
            calls!(
                PlainAttempt::start_barring(
                    opaque(versions),
                    opaque(pairs),
                    opaque(barred),
                    opaque(original),
                    opaque(destination),
                    opaque(source)
                )
                .unwrap()
                .attempted
            ),
        ));
    }
    ratios
}

/// The ratios of the rows that were measured. All pairs are from Chosen, which is not accepted. Of
/// the client's Available Versions Chosen is the last, and one is accepted: the last that the
/// server accepts.
fn choices(table: &mut Table) -> Vec<f64> {
    let readable = &in_a_row(100, MAX_TABLE)[..];
    let accepted = &in_a_row(200, MAX_TABLE)[..];
    let (chosen, last) = (readable[MAX_TABLE - 1], accepted[MAX_TABLE - 1]);
    let others = in_a_row(1_000, MAX_AVAILABLE - 2);
    let bytes = &information(chosen, &[&others[..], &[last, chosen]].concat())[..];

    let unknown = &in_a_row(10_000, MAX_PAIRS)[..];
    let repeated: Vec<u32> = accepted.iter().copied().cycle().take(MAX_PAIRS).collect();
    let (to_accepted, to_unknown) = (paired(chosen, &repeated), paired(chosen, unknown));
    let none = &unknown[..MAX_BARRED];
    let but_the_last = [&none[..1], &accepted[..MAX_TABLE - 1]].concat();
    let mut ratios = Vec::new();
    for (name, pairs, barred, answer) in [
        (
            "to versions accepted, none of them barred",
            &to_accepted[..],
            none,
            Decision::Use(last),
        ),
        (
            "to versions accepted, all of them barred",
            &to_accepted,
            accepted,
            Decision::Negotiate,
        ),
        (
            "to versions accepted, all of them barred but the last",
            &to_accepted,
            &but_the_last,
            Decision::Use(last),
        ),
        (
            "to no version accepted",
            &to_unknown,
            none,
            Decision::Negotiate,
        ),
    ] {
        let both = |barred: &[u32]| {
            let (version, bytes) = (chosen, Some(bytes));
            same(
                server_choice_barring(readable, accepted, pairs, barred, version, bytes),
                plain::server_choice_barring(readable, accepted, pairs, barred, version, bytes),
            )
        };
        assert_eq!(both(barred), Ok(answer));
        assert_eq!(both(&[barred, &[chosen]].concat()), Err(43));
        ratios.extend(table.row(
            &format!(
                "server's choice, {} Available, {} pairs, {} barred: each from Chosen {}",
                MAX_AVAILABLE,
                grouped(pairs.len()),
                barred.len(),
                name
            ),
            calls!(server_choice_barring(
                opaque(readable),
                opaque(accepted),
                opaque(pairs),
                opaque(barred),
                opaque(chosen),
                opaque(Some(bytes))
            )
            .is_ok()),
            calls!(plain::server_choice_barring(
                opaque(readable),
                opaque(accepted),
                opaque(pairs),
                opaque(barred),
                opaque(chosen),
                opaque(Some(bytes))
            )
            .is_ok()),
        ));
    }
    ratios
}
