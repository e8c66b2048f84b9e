//! Rows of the tests that versions, tables and pairs go through: reserved or not, the table's rule, the
//! pairs' rule; and of the test of a server's configuration.

use crate::measure::{calls, grouped, opaque, Table};
use crate::{plain, Pair};
use quic_version::{
    are_pairs, is_reserved, is_table, ServerConfiguration, MAX_AVAILABLE, MAX_PAIRS, MAX_TABLE,
};

pub fn rows(table: &mut Table) {
    reserved(table);
    tables(table);
    pairs(table);
    configurations(table);
}

fn reserved(table: &mut Table) {
    for (name, version, answer) in [("0x1a2a3a4a", 0x1a2a_3a4a, true), ("version 1", 1, false)] {
        assert_eq!(is_reserved(version), answer);
        assert_eq!(plain::is_reserved(version), answer);
        table.row(
            &format!("reserved test, {}", name),
            calls!(is_reserved(opaque(version))),
            calls!(plain::is_reserved(opaque(version))),
        );
    }
}

/// Tables that keep their rule: a full one of the base, and a full one of now.
fn tables(table: &mut Table) {
    for count in [16, MAX_TABLE] {
        let versions = &(100..).take(count).collect::<Vec<u32>>()[..];
        assert!(is_table(versions) && plain::is_table(versions));
        table.row(
            &format!("table's rule, {} entries", count),
            calls!(is_table(opaque(versions))),
            calls!(plain::is_table(opaque(versions))),
        );
    }
}

/// As many pairs as there may be, which keep their rule.
fn all_pairs() -> Vec<Pair> {
    let pair = |k| Pair {
        from: 100 + k,
        to: 101 + k,
    };
    (0..MAX_PAIRS as u32).map(pair).collect()
}

fn pairs(table: &mut Table) {
    let pairs = &all_pairs()[..];
    assert!(are_pairs(pairs) && plain::are_pairs(pairs));
    table.row(
        &format!("pairs' rule, {} pairs", grouped(MAX_PAIRS)),
        calls!(are_pairs(opaque(pairs))),
        calls!(plain::are_pairs(opaque(pairs))),
    );
}

/// A safe configuration that holds as much as there may be, with its lists in different orders. Every
/// version is looked for in every list.
fn configurations(table: &mut Table) {
    let accepted: Vec<u32> = (100..).take(MAX_TABLE).collect();
    let offered: Vec<u32> = accepted.iter().rev().copied().collect();
    let available: Vec<u32> = accepted
        .iter()
        .copied()
        .cycle()
        .take(MAX_AVAILABLE)
        .collect();
    let (first, second) = accepted.split_at(MAX_TABLE / 2);
    let readable = [second, first].concat();
    let server = ServerConfiguration {
        readable: &readable,
        accepted: &accepted,
        offered: &offered,
        available: &available,
        pairs: &all_pairs(),
    };
    assert_eq!(server.check(), Ok(()));
    assert_eq!(plain::check(&server), Ok(()));
    table.row(
        &format!(
            "configuration's test, {} in each table, {} Available, {} pairs",
            MAX_TABLE,
            MAX_AVAILABLE,
            grouped(MAX_PAIRS)
        ),
        calls!(opaque(server).check().is_ok()),
        calls!(plain::check(&opaque(server)).is_ok()),
    );
}
