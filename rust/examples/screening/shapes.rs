//! The longest lists for a full table, hostile ones among them.

use crate::plain::Answer;
use crate::random::slots::factor_taken;
use crate::random::Random;
use crate::tables::{original_place, Table};
use quic_version::{MAX_LIST, MAX_TABLE};

/// Entries of the table that are spread over a list stand so far apart.
const APART: usize = 250;

/// The aim that a list is held against.
#[derive(Clone, Copy, PartialEq)]
pub enum Group {
    Nowhere,
    LastEntry,
    FirstEntry,
    OriginalFirst,
    Hostile,
}

pub struct Shape {
    pub name: String,
    pub group: Group,
    pub list: Vec<u32>,
    pub answer: Answer,
}

impl Shape {
    fn new(name: &str, group: Group, list: Vec<u32>, answer: Answer) -> Shape {
        Shape {
            name: name.to_string(),
            group,
            list,
            answer,
        }
    }

    /// A list in which nothing is found.
    fn nothing(name: &str, group: Group, list: Vec<u32>) -> Shape {
        Shape::new(name, group, list, Err(65))
    }
}

/// All lists for one table.
pub fn shapes(table: &Table, random: &mut Random) -> Vec<Shape> {
    let mut shapes = nowhere(table, random);
    shapes.extend(one_match(table));
    shapes.extend(in_slots(table, random));
    shapes.extend(of_members(table, random));
    for rank in 1..=7 {
        shapes.extend(worst_first(table, rank));
    }
    shapes
}

fn nowhere(table: &Table, random: &mut Random) -> Vec<Shape> {
    let mut near = |shift: u32| {
        table.without(|| {
            let (entry, byte) = (*random.pick(&table.versions), random.next_u32() % 256);
            entry & !(0xff << shift) | byte << shift
        })
    };
    let (last, first) = (near(0), near(24));
    let shape = |name, list| Shape::nothing(name, Group::Nowhere, list);
    vec![
        shape("nowhere, random others", table.others.clone()),
        shape("nowhere, entries with another last byte", last),
        shape("nowhere, entries with another first byte", first),
    ]
}

/// One version of the table at the first place or at the last.
fn one_match(table: &Table) -> Vec<Shape> {
    use Group::*;
    let original = original_place(&table.versions);
    let mut shapes = Vec::new();
    for (name, rank, first, last) in [
        ("table's first", 0, FirstEntry, FirstEntry),
        ("table's second", 1, Hostile, Hostile),
        ("table's third", 2, Hostile, Hostile),
        ("table's last", MAX_TABLE - 1, LastEntry, LastEntry),
        ("Original Version", original, OriginalFirst, Hostile),
    ] {
        let version = table.versions[rank];
        let answer = if rank == original {
            Err(64)
        } else {
            Ok(version)
        };
        for (at, place, group) in [("first", 0, first), ("last", MAX_LIST - 1, last)] {
            let mut list = table.others.clone();
            list[place] = version;
            let name = format!("{} at {} place", name, at);
            shapes.push(Shape::new(&name, group, list, answer));
        }
    }
    shapes
}

/// Versions that share a slot with an entry of the table.
fn in_slots(table: &Table, random: &mut Random) -> Vec<Shape> {
    let versions = &table.versions;
    let (last, factor) = (&versions[MAX_TABLE - 1..], factor_taken(versions));
    let all = table.without(|| random.version_beside(versions, factor));
    let half = table.without(|| match random.one_in(2) {
        true => random.version_beside(versions, factor),
        false => random.next_u32(),
    });
    let one = table.without(|| random.version_beside(last, factor));
    let shape = |name, list| Shape::nothing(name, Group::Hostile, list);
    vec![
        shape("all in a slot of a table entry", all),
        shape("half of them in a slot of a table entry", half),
        shape("all in the slot of the table's last", one),
    ]
}

/// Entries of the table in any order, many times each, but for the first and the Original Version.
fn of_members(table: &Table, random: &mut Random) -> Vec<Shape> {
    let original = original_place(&table.versions);
    let mut mixed = |name, rank: usize, one_in: usize| {
        let ranks: Vec<usize> = (rank..MAX_TABLE).filter(|r| *r != original).collect();
        let mut list = table.others.clone();
        for entry in &mut list {
            if random.one_in(one_in) {
                *entry = table.versions[*random.pick(&ranks)];
            }
        }
        // So many draws have each of them.
        Shape::new(name, Group::Hostile, list, Ok(table.versions[rank]))
    };
    vec![
        mixed("a coin's entries of ranks 40 to 63", 40, 2),
        mixed("a coin's entries of ranks 1 to 63", 1, 2),
        mixed("entries of ranks 1 to 63 alone", 1, 1),
    ]
}

/// Each entry once, the worst first, down to this rank in the last place.
fn worst_first(table: &Table, rank: usize) -> Vec<Shape> {
    let original = original_place(&table.versions);
    let ranks: Vec<usize> = (rank..MAX_TABLE).filter(|r| *r != original).collect();
    let shape = |name, apart: usize| {
        let mut list = table.others.clone();
        for (before_last, rank) in ranks.iter().enumerate() {
            list[MAX_LIST - 1 - before_last * apart] = table.versions[*rank];
        }
        let name = format!("worst first, {}, down to rank {}", name, rank);
        Shape::new(&name, Group::Hostile, list, Ok(table.versions[rank]))
    };
    vec![shape("spread", APART), shape("at the end", 1)]
}
