//! How the time grows with the list, and with the table, where nothing is found.

use crate::case::{Case, Measured};
use crate::measure::grouped;
use crate::random::screening::FEW;
use crate::random::slots::left_by_rounds;
use crate::tables::{original, Table};
use crate::text::{digits, ratio, title, us};
use quic_version::{MAX_LIST, MAX_TABLE};

const LISTS: [usize; 22] = [
    1, 2, 3, 4, 6, 8, 12, 16, 24, 32, 33, 48, 64, 96, 128, 256, 512, 1_024, 2_048, 4_096, 8_192,
    MAX_LIST,
];

const TABLES: [usize; 14] = [1, 2, 3, 4, 5, 6, 7, 8, 12, 16, 24, 32, 48, MAX_TABLE];

/// A number of entries, and what was measured with it.
pub type Point = (usize, Measured);

pub struct Growth {
    /// With the list, and a full table.
    pub list: Vec<Point>,
    /// With the table, and the longest list.
    pub table: Vec<Point>,
    /// The same, with the table that clashes.
    pub clashing: Vec<Point>,
}

impl Growth {
    pub fn measure(table: &Table, clashing: &Table, rounds: usize) -> Growth {
        Growth {
            list: with_the_list(table, rounds),
            table: with_the_table(table, rounds),
            clashing: with_the_table(clashing, rounds),
        }
    }
}

/// One case in which nothing is found.
fn nowhere(table: &[u32], list: &[u32], rounds: usize) -> Measured {
    let case = Case::new(table, original(table), list);
    assert_eq!(case.answer(), Err(65));
    case.measure(rounds)
}

/// With lists of 1 entry to the most.
fn with_the_list(table: &Table, rounds: usize) -> Vec<Point> {
    title(&format!(
        "Growth with the list, nowhere, table of {} {}",
        MAX_TABLE, table.name
    ));
    println!("| entries of the list | plain Rust, us | event by the crate, us | `qv_event`, us | ratio, crate | ratio, `qv_event` | `qv_event`, ns for each entry | the sum alone, us |");
    println!("|---:|---:|---:|---:|---:|---:|---:|---:|");
    let mut points = Vec::new();
    for entries in LISTS {
        let measured = nowhere(&table.versions, &table.others[..entries], rounds);
        println!(
            "| {} | {} | {} | {} | {} | {} | {} | {} |",
            grouped(entries),
            us(measured.plain()),
            us(measured.by_crate),
            us(measured.by_event),
            ratio(measured.crate_ratio),
            ratio(measured.event_ratio),
            digits(measured.by_event / entries as f64),
            us(measured.sum)
        );
        points.push((entries, measured));
    }
    println!();
    points
}

/// With tables of 1 entry to the most: the last entries of this one.
fn with_the_table(table: &Table, rounds: usize) -> Vec<Point> {
    title(&format!(
        "Growth with the table, nowhere, list of {}, {}",
        grouped(MAX_LIST),
        table.name
    ));
    println!("| entries of the table | left after each round | plain Rust, us | event by the crate, us | `qv_event`, us | ratio, crate | ratio, `qv_event` |");
    println!("|---:|---:|---:|---:|---:|---:|---:|");
    let mut points = Vec::new();
    for entries in TABLES {
        let versions = &table.versions[MAX_TABLE - entries..];
        let measured = nowhere(versions, &table.others, rounds);
        println!(
            "| {} | {} | {} | {} | {} | {} | {} |",
            entries,
            left(versions),
            us(measured.plain()),
            us(measured.by_crate),
            us(measured.by_event),
            ratio(measured.crate_ratio),
            ratio(measured.event_ratio)
        );
        points.push((entries, measured));
    }
    println!();
    points
}

/// How many entries a round leaves for the next one or for passes, if there is a round at all.
fn left(table: &[u32]) -> String {
    if table.len() <= FEW {
        return "no round".to_string();
    }
    let left = left_by_rounds(table);
    let left: Vec<String> = left.iter().map(usize::to_string).collect();
    left.join(", ")
}
