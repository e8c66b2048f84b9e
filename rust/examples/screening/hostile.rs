//! The longest lists with full tables, measured and held against their aims.

use crate::case::{Case, Measured};
use crate::measure::{calls, grouped, opaque};
use crate::random::Random;
use crate::shapes::{shapes, Group};
use crate::tables::{original, Table};
use crate::text::{ratio, title, us};
use crate::turns::Turns;
use quic_version::{MAX_LIST, MAX_TABLE};

/// A list that was measured: its name, its aim, its times.
pub struct Row {
    name: String,
    group: Group,
    measured: Measured,
}

/// Each list for one table.
pub fn rows(table: &Table, random: &mut Random, rounds: usize) -> Vec<Row> {
    title(&format!(
        "Table of {} {}, lists of {}",
        MAX_TABLE,
        table.name,
        grouped(MAX_LIST)
    ));
    println!("Ratios are to the faster one of plain Rust's two forms.\n");
    println!("| list | plain Rust by index, us | by `chunks_exact`, us | event by the crate, us | `qv_event`, us | ratio, crate | ratio, `qv_event` |");
    println!("|---|---:|---:|---:|---:|---:|---:|");
    let mut rows = Vec::new();
    for shape in shapes(table, random) {
        let case = Case::new(&table.versions, original(&table.versions), &shape.list);
        assert_eq!(case.answer(), shape.answer);
        let measured = case.measure(rounds);
        println!(
            "| {} | {} | {} | {} | {} | {} | {} |",
            shape.name,
            us(measured.by_index),
            us(measured.by_chunks),
            us(measured.by_crate),
            us(measured.by_event),
            ratio(measured.crate_ratio),
            ratio(measured.event_ratio)
        );
        rows.push(Row {
            name: shape.name,
            group: shape.group,
            measured,
        });
    }
    println!();
    rows
}

/// The highest ratio of the rows of a group, and the name of the row.
pub fn worst(rows: &[Row], group: Group) -> (f64, &str) {
    let mut worst = (0.0, "");
    for row in rows.iter().filter(|row| row.group == group) {
        if row.measured.ratio() > worst.0 {
            worst = (row.measured.ratio(), &row.name);
        }
    }
    worst
}

/// What an event does here in any case: it copies a record, and looks at each entry. And what it takes
/// where the packet is of another connection: its list is then not looked at.
pub fn references(table: &Table, rounds: usize) {
    let case = Case::new(&table.versions, original(&table.versions), &table.others);
    let (attempt, measured) = (case.attempt(), case.measure(rounds));
    // Kept in a place that the compiler cannot tell from another.
    let mut kept = [attempt.clone(), attempt.clone()];
    let copy = calls!(kept[opaque(0)].clone_from(opaque(attempt)));
    let copied = Turns::take(rounds, vec![Box::new(copy)]).time(0);
    assert!(kept.iter().all(|kept| kept == attempt));
    let other = case.of_another_connection(rounds);
    title("Beside them");
    println!("| | us |");
    println!("|---|---:|");
    println!("| copy of the record alone | {} |", us(copied));
    println!(
        "| one pass that only sums the list | {} |",
        us(measured.sum)
    );
    println!(
        "| event, packet of another connection (63) | {} |",
        us(other)
    );
    println!("| plain Rust, nowhere | {} |\n", us(measured.plain()));
}
