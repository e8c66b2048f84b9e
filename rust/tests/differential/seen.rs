//! The tally of a run: how often each number was seen, and how often each function was called.

use crate::Found;
use quic_version::{Refusal, WriteRefusal};
use std::collections::{BTreeMap, BTreeSet};

/// Document 01's numbers, and document 02's 20, 28, 47 and 80 to 85.
const NUMBERS: [u8; 42] = [
    11, 12, 13, 20, 21, 22, 23, 24, 25, 26, 28, 31, 32, 33, 34, 35, 36, 37, 40, 41, 42, 43, 44, 45,
    47, 51, 61, 62, 63, 64, 65, 71, 72, 73, 74, 75, 80, 81, 82, 83, 84, 85,
];

/// Every answer of the calls that choose from a list or a word, make a word or count, of the server's
/// choice, of the test of a configuration, by what it finds, of a start, of events and of the journal,
/// of those of transport parameters, and of the writers that take reserved numbers: 0 and the
/// refusals, 255 too where an unknown presence or any record is tried. All of them have to be seen,
/// and no other.
const ANSWERS: [(&str, &[u32]); 41] = [
    (
        "qv_write_version_negotiation",
        &[0, 11, 12, 20, 21, 22, 23, 24, 25, 26, 28],
    ),
    (
        "qv_write_version_negotiation, reserved numbers",
        &[0, 26, 28],
    ),
    ("qv_write_client_information", &[0, 37, 47]),
    ("qv_write_client_information, laws", &[0, 37, 47]),
    (
        "qv_server_choice, reserved numbers",
        &[0, 37, 41, 43, 47, 51],
    ),
    ("qv_event, reserved Chosen", &[62, 72]),
    ("qv_event, reserved numbers listed", &[0, 62, 63, 64, 65]),
    ("qv_choose", &[0, 40, 41, 42]),
    ("qv_choose_from_bytes", &[0, 40, 41, 42]),
    ("qv_list_word", &[0, 40, 41]),
    ("qv_list_word_from_bytes", &[0, 40, 41]),
    ("qv_choose_by_word", &[0, 40, 41, 42]),
    ("qv_choose_by_word_from_bytes", &[0, 40, 41, 42]),
    ("qv_choose_from_word", &[0, 41, 42]),
    ("qv_choose_by_word, joined lists", &[0, 40, 41, 42]),
    ("qv_count_held", &[0, 40, 41]),
    ("qv_count_held_from_bytes", &[0, 40, 41]),
    (
        "qv_server_choice",
        &[0, 31, 32, 33, 34, 35, 36, 41, 43, 51, 255],
    ),
    ("qv_server_choice, barred versions", &[0, 43]),
    (
        "qv_server_choice, laws",
        &[0, 31, 32, 33, 34, 35, 36, 41, 43, 51],
    ),
    ("qv_judge_configuration, safe", &[0]),
    ("qv_judge_configuration, accepted and not offered", &[0]),
    ("qv_judge_configuration, offered and not accepted", &[0]),
    ("qv_judge_configuration, offered and not readable", &[0]),
    ("qv_judge_configuration, Available and not offered", &[0]),
    ("qv_judge_configuration, offered and not Available", &[0]),
    ("qv_judge_configuration, refused", &[23, 33, 41, 43]),
    ("qv_start", &[0, 41, 43, 44, 45]),
    ("qv_start, laws", &[0, 41, 43, 44]),
    (
        "qv_event, qv_own_list",
        &[
            0, 31, 32, 33, 34, 35, 61, 62, 63, 64, 65, 71, 72, 73, 74, 75,
        ],
    ),
    ("qv_event, barred pairs", &[0, 71, 72, 73, 74, 75]),
    ("qv_event, laws", &[0, 71, 72, 73, 74, 75]),
    (
        "qv_event, over eight events",
        &[
            0, 31, 32, 33, 34, 35, 61, 62, 63, 64, 65, 71, 72, 73, 74, 75,
        ],
    ),
    ("qv_event, journal near its stop", &[0]),
    ("qv_event, journal laws", &[0]),
    ("qv_read_journal", &[0, 255]),
    ("qv_read_integer", &[0, 81]),
    ("qv_write_integer", &[0, 83, 84]),
    ("qv_read_parameters", &[0, 80, 81, 82, 85]),
    ("qv_write_parameters", &[0, 80, 81, 82, 84, 85]),
    ("qv_write_parameters, laws", &[0, 80, 81, 82, 85]),
];

/// What was seen.
#[derive(Default)]
pub struct Seen {
    numbers: BTreeMap<u32, usize>,
    functions: BTreeMap<&'static str, usize>,
    answers: BTreeSet<(&'static str, u32)>,
}

impl Found for Seen {
    fn join(&mut self, other: Seen) {
        for (number, count) in other.numbers {
            *self.numbers.entry(number).or_insert(0) += count;
        }
        for (function, count) in other.functions {
            *self.functions.entry(function).or_insert(0) += count;
        }
        self.answers.extend(other.answers);
    }
}

impl Seen {
    pub fn note(&mut self, function: &'static str, number: u32) {
        *self.numbers.entry(number).or_insert(0) += 1;
        *self.functions.entry(function).or_insert(0) += 1;
        self.answers.insert((function, number));
    }

    /// Comparisons in all.
    pub fn cases(&self) -> usize {
        self.functions.values().sum()
    }

    /// Those of the answers of a function that were not seen.
    pub fn lacking(&self, function: &'static str, answers: &[u32]) -> Vec<u32> {
        let lacks = |answer: &u32| !self.answers.contains(&(function, *answer));
        answers.iter().copied().filter(lacks).collect()
    }

    /// Those of `NUMBERS` that were not.
    pub fn never(&self) -> Vec<u8> {
        let seen = |number: &u8| self.numbers.contains_key(&u32::from(*number));
        NUMBERS.iter().copied().filter(|n| !seen(n)).collect()
    }

    /// Those functions of `ANSWERS` that have seen other answers than they have to, with what they
    /// saw.
    pub fn otherwise(&self) -> Vec<(&'static str, Vec<u32>)> {
        let seen = |function: &str| -> Vec<u32> {
            let of_it = self.answers.iter().filter(|(name, _)| *name == function);
            of_it.map(|(_, number)| *number).collect()
        };
        let all = ANSWERS.iter().map(|(name, due)| (*name, seen(name), *due));
        all.filter(|(_, seen, due)| seen != due)
            .map(|(name, seen, _)| (name, seen))
            .collect()
    }

    /// What was seen, to print.
    pub fn table(&self) -> String {
        let mut text = String::from("\n  number      seen  cause\n");
        for (number, count) in &self.numbers {
            text += &format!("  {:>6} {:>9}  {}\n", number, count, cause(*number));
        }
        text + "\n" + &self.compared()
    }

    /// How often each function was compared, to print.
    pub fn compared(&self) -> String {
        let mut text = String::from("  compared  function\n");
        for (function, count) in &self.functions {
            text += &format!("  {:>8}  {}\n", count, function);
        }
        text + &format!("  {:>8}  in all\n", self.cases())
    }
}

/// How often a property of what was drawn had each value.
#[derive(Default)]
pub struct Counts(BTreeMap<(&'static str, usize), usize>);

impl Found for Counts {
    fn join(&mut self, other: Counts) {
        for (property, count) in other.0 {
            *self.0.entry(property).or_insert(0) += count;
        }
    }
}

impl Counts {
    pub fn add(&mut self, property: &'static str, value: usize) {
        *self.0.entry((property, value)).or_insert(0) += 1;
    }

    pub fn count(&self, property: &'static str, value: usize) -> usize {
        self.0.get(&(property, value)).copied().unwrap_or(0)
    }

    /// Those of the values that came up less often than this.
    pub fn rare(
        &self,
        property: &'static str,
        values: impl IntoIterator<Item = usize>,
        least: usize,
    ) -> Vec<(&'static str, usize)> {
        let rare = |value: &usize| self.count(property, *value) < least;
        let values = values.into_iter().filter(rare);
        values.map(|value| (property, value)).collect()
    }
}

/// The words for a number of the library.
fn cause(number: u32) -> String {
    let number = u8::try_from(number).unwrap_or(u8::MAX);
    match (
        Refusal::from_number(number),
        WriteRefusal::from_number(number),
    ) {
        (Some(refusal), _) => refusal.to_string(),
        (None, Some(refusal)) => refusal.to_string(),
        (None, None) => String::from("no refusal"),
    }
}
