//! Rows of the choice from the longest list, as numbers and as bytes, and of the server's choice with
//! as many versions and pairs as there may be.

use crate::measure::{calls, grouped, opaque, same, Table};
use crate::packet::{in_fours, information};
use crate::{plain, Pair};
use quic_version::{
    choose, choose_from_bytes, server_choice, Decision, MAX_AVAILABLE, MAX_LIST, MAX_PAIRS,
    MAX_TABLE,
};

pub fn rows(table: &mut Table) {
    lists(table);
    servers(table);
}

fn lists(table: &mut Table) {
    let versions = &(100..).take(MAX_TABLE).collect::<Vec<u32>>()[..];
    for (name, place) in [
        ("first", Some(0)),
        ("last", Some(MAX_LIST - 1)),
        ("nowhere", None),
    ] {
        let mut list = vec![99; MAX_LIST];
        if let Some(place) = place {
            // The match is the table's first entry: one pass over the list.
            list[place] = versions[0];
        }
        let bytes = &in_fours(&list)[..];
        let list = &list[..];
        let answer = place.map_or(Err(42), |_| Ok(versions[0]));
        assert_eq!(
            same(choose(versions, list), plain::choose(versions, list)),
            answer
        );
        table.row(
            &format!(
                "choice from {} entries, match {}",
                grouped(list.len()),
                name
            ),
            calls!(choose(opaque(versions), opaque(list))),
            calls!(plain::choose(opaque(versions), opaque(list))),
        );
        let ours = choose_from_bytes(versions, bytes);
        let theirs = plain::choose_from_bytes(versions, bytes);
        assert_eq!(same(ours, theirs), answer);
        table.row(
            &format!("choice from {} bytes, match {}", grouped(bytes.len()), name),
            calls!(choose_from_bytes(opaque(versions), opaque(bytes))),
            calls!(plain::choose_from_bytes(opaque(versions), opaque(bytes))),
        );
    }
}

/// The server's choice at the limits. Of the client's Available Versions none is ours but Chosen,
/// the last of them.
fn servers(table: &mut Table) {
    let versions = &(100..).take(MAX_TABLE).collect::<Vec<u32>>()[..];
    let others = &(10_000..).take(MAX_PAIRS).collect::<Vec<u32>>()[..];
    let chosen = versions[MAX_TABLE - 1];
    let without = &versions[..MAX_TABLE - 1];
    let paired = |from: &dyn Fn(usize) -> u32, to: &dyn Fn(usize) -> u32| -> Vec<Pair> {
        let pair = |k| Pair {
            from: from(k),
            to: to(k),
        };
        (0..MAX_PAIRS).map(pair).collect()
    };
    let each = MAX_PAIRS / MAX_TABLE;
    let following = |k: usize| versions[(k / each + 1 + k % each) % MAX_TABLE];
    let available: Vec<u32> = (1_000..).take(MAX_AVAILABLE - 1).chain([chosen]).collect();
    let bytes = &information(chosen, &available)[..];
    for (name, accepted, pairs, answer) in [
        (
            &format!("each version to the {} that follow", each),
            versions,
            paired(&|k| versions[k / each], &following),
            Decision::Use(chosen),
        ),
        (
            &"each from Chosen to a version accepted, none Available".to_string(),
            without,
            paired(&|_| chosen, &|k| without[k % without.len()]),
            Decision::Negotiate,
        ),
        (
            &"each from Chosen, none to a version accepted".to_string(),
            without,
            paired(&|_| chosen, &|k| others[k]),
            Decision::Negotiate,
        ),
    ] {
        let pairs = &pairs[..];
        let ours = server_choice(versions, accepted, pairs, chosen, Some(bytes));
        let theirs = plain::server_choice(versions, accepted, pairs, chosen, Some(bytes));
        assert_eq!(same(ours, theirs), Ok(answer));
        table.row(
            &format!(
                "server's choice, {} Available, {} pairs: {}",
                MAX_AVAILABLE,
                grouped(MAX_PAIRS),
                name
            ),
            calls!(server_choice(
                opaque(versions),
                opaque(accepted),
                opaque(pairs),
                opaque(chosen),
                opaque(Some(bytes))
            )
            .is_ok()),
            calls!(plain::server_choice(
                opaque(versions),
                opaque(accepted),
                opaque(pairs),
                opaque(chosen),
                opaque(Some(bytes))
            )
            .is_ok()),
        );
    }
}
