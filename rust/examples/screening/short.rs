//! Short lists, and the search for the Original Version alone: the choice as a call of its own, and
//! the whole event beside it.

use crate::case::{Case, Measured};
use crate::measure::{calls, grouped, opaque, same};
use crate::plain::{choose_by_chunks, choose_by_index, Answer};
use crate::tables::{original, Table};
use crate::text::{digits, title};
use crate::turns::Turns;
use quic_version::{choose_from_bytes, MAX_LIST};

/// Entries of the table.
const TABLE: usize = 3;
/// The most entries of a list.
const LIST: usize = 8;

/// Medians of a choice: times in nanoseconds, ratio and difference to the faster form of plain Rust.
#[derive(Clone, Copy)]
pub struct Choice {
    pub plain: f64,
    pub library: f64,
    pub ratio: f64,
    pub more: f64,
}

/// Medians of the search for the Original Version, in nanoseconds: the call that makes it, and what
/// the search adds to it, by the library and by plain Rust.
pub struct Search {
    pub call: f64,
    pub adds: f64,
    pub plain_adds: f64,
}

/// The choice from a list on the wire, by the crate and by plain Rust with the same rules.
fn choice(table: &[u32], list: &[u8], answer: Answer, rounds: usize) -> Choice {
    assert_eq!(choose_by_index(table, list), answer);
    assert_eq!(choose_by_chunks(table, list), answer);
    assert_eq!(same(choose_from_bytes(table, list), answer), answer);
    let turns = Turns::take(
        rounds,
        vec![
            Box::new(calls!(choose_by_index(opaque(table), opaque(list)))),
            Box::new(calls!(choose_by_chunks(opaque(table), opaque(list)))),
            Box::new(calls!(choose_from_bytes(opaque(table), opaque(list)))),
        ],
    );
    let plain = turns.fastest(0..2);
    Choice {
        plain: turns.time(plain),
        library: turns.time(2),
        ratio: turns.ratio(2, plain),
        more: turns.more(2, plain),
    }
}

/// Lists of 1 to 8 entries with a table of 3: nothing is found, or the table's last in the list's
/// last place.
pub fn rows(table: &Table, rounds: usize) -> Vec<Choice> {
    title(&format!("Short lists, table of {}", TABLE));
    println!("| entries of the list | match | choice: plain Rust, ns | crate, ns | ratio | ns more | event: plain Rust, ns | crate, ns | `qv_event`, ns | ratio, crate | ratio, `qv_event` |");
    println!("|---:|---|---:|---:|---:|---:|---:|---:|---:|---:|---:|");
    let versions = &table.versions[..TABLE];
    let mut choices = Vec::new();
    for entries in 1..=LIST {
        let nowhere = table.others[..entries].to_vec();
        let mut last = nowhere.clone();
        last[entries - 1] = versions[TABLE - 1];
        for (name, list, found) in [
            ("nowhere", nowhere, None),
            ("last place", last, Some(versions[TABLE - 1])),
        ] {
            let case = Case::new(versions, original(versions), &list);
            assert_eq!(case.answer(), found.ok_or(65));
            let choice = choice(versions, case.list(), found.ok_or(42), rounds);
            row(entries, name, &choice, &case.measure(rounds));
            choices.push(choice);
        }
    }
    println!();
    choices
}

fn row(entries: usize, name: &str, choice: &Choice, event: &Measured) {
    println!(
        "| {} | {} | {} | {} | {} | {:.1} | {} | {} | {} | {} | {} |",
        entries,
        name,
        digits(choice.plain),
        digits(choice.library),
        digits(choice.ratio),
        choice.more,
        digits(event.plain()),
        digits(event.by_crate),
        digits(event.by_event),
        digits(event.crate_ratio),
        digits(event.event_ratio)
    );
}

/// Rule 64's search alone, as the choice of one version: the first of the longest list; beside it the
/// same call with an empty list, which has no search.
pub fn original_at_first_place(table: &Table, rounds: usize) -> Search {
    let original = &[original(&table.versions)][..];
    let mut list = table.others.clone();
    list[0] = original[0];
    let case = Case::new(original, original[0], &list);
    assert_eq!(case.answer(), Err(64));
    let (list, empty) = (case.list(), &[][..]);
    assert_eq!(choose_from_bytes(original, list), Ok(original[0]));
    let turns = Turns::take(
        rounds,
        vec![
            Box::new(calls!(choose_from_bytes(opaque(original), opaque(list)))),
            Box::new(calls!(choose_from_bytes(opaque(original), opaque(empty)))),
            Box::new(calls!(choose_by_index(opaque(original), opaque(list)))),
            Box::new(calls!(choose_by_index(opaque(original), opaque(empty)))),
        ],
    );
    let search = Search {
        call: turns.time(0),
        adds: turns.more(0, 1),
        plain_adds: turns.more(2, 3),
    };
    println!(
        "The search for the Original Version at the first place of {} adds {:.1} ns to a call of {} ns; in plain Rust {:.1} ns.\n",
        grouped(MAX_LIST),
        search.adds,
        digits(search.call),
        search.plain_adds
    );
    search
}
