//! Refusals: their numbers, names and words, in all types and in the C header. The parts of the safe
//! rule likewise.

use quic_version::{Answer, ConfigurationFault, ConfigurationRefusal, Refusal, WriteRefusal};
use std::error::Error;
use std::fmt::{Debug, Display};
use std::fs;

/// The numbers of readers, choices, starts and events.
const READING: [u8; 31] = [
    11, 12, 13, 31, 32, 33, 34, 35, 36, 40, 41, 42, 43, 44, 45, 51, 61, 62, 63, 64, 65, 71, 72, 73,
    74, 75, 80, 81, 82, 85, 255,
];

/// The numbers of writers.
const WRITING: [u8; 23] = [
    11, 12, 20, 21, 22, 23, 24, 25, 26, 28, 33, 34, 35, 36, 37, 47, 80, 81, 82, 83, 84, 85, 255,
];

/// The numbers of the test of a configuration.
const CONFIGURATIONS: [u8; 5] = [23, 33, 41, 43, 255];

/// A number with its name and its words.
type Row = (u8, String, String);

/// `refusal` as a row; it has to have this number.
fn row<R: Debug + Display + Error>(number: u8, refusal: R) -> Row {
    let text = refusal.to_string();
    let words = text.strip_suffix(&format!(" ({})", number));
    let words = words.unwrap_or_else(|| panic!("no number {} at the end: {}", number, text));
    (number, format!("{:?}", refusal), String::from(words))
}

fn reading() -> Vec<Row> {
    let rows = (0..=u8::MAX).filter_map(|n| Some(row(n, Refusal::from_number(n)?)));
    rows.collect()
}

fn writing() -> Vec<Row> {
    let rows = (0..=u8::MAX).filter_map(|n| Some(row(n, WriteRefusal::from_number(n)?)));
    rows.collect()
}

fn configurations() -> Vec<Row> {
    let rows = (0..=u8::MAX).filter_map(|n| Some(row(n, ConfigurationRefusal::from_number(n)?)));
    rows.collect()
}

/// The numbers of the test of a configuration, with the names and words that they have elsewhere.
#[test]
fn numbers_of_the_test_of_a_configuration() {
    let rows = configurations();
    let numbers = rows.iter().map(|row| row.0).collect::<Vec<u8>>();
    assert_eq!(numbers, CONFIGURATIONS);
    assert!(rows.iter().all(|row| all().contains(row)));
    for number in CONFIGURATIONS {
        let refusal = ConfigurationRefusal::from_number(number).unwrap();
        assert_eq!(refusal.number(), number);
    }
}

#[test]
fn numbers_of_each_type() {
    let numbers = |rows: Vec<Row>| rows.iter().map(|row| row.0).collect::<Vec<u8>>();
    assert_eq!(numbers(reading()), READING);
    assert_eq!(numbers(writing()), WRITING);
    for number in READING {
        assert_eq!(Refusal::from_number(number).unwrap().number(), number);
    }
    for number in WRITING {
        assert_eq!(WriteRefusal::from_number(number).unwrap().number(), number);
    }
}

/// Every number once, in rising order: document 01's 33, document 02's 20, 28, 47 and 80 to 85, and
/// 255. A number that both types have has one name and the same words in both.
fn all() -> Vec<Row> {
    let mut rows = [reading(), writing()].concat();
    rows.sort();
    rows.dedup();
    rows
}

#[test]
fn one_name_and_one_text_for_a_number() {
    let rows = all();
    assert_eq!(rows.len(), 43);
    for rows in rows.windows(2) {
        assert!(rows[0].0 < rows[1].0, "{:?}", rows);
    }
}

// The C header.

fn header() -> String {
    let path = concat!(env!("CARGO_MANIFEST_DIR"), "/../include/quic_version.h");
    fs::read_to_string(path).unwrap()
}

/// `DatagramTooLong` in C: `QV_DATAGRAM_TOO_LONG`.
fn name_in_c(name: &str) -> String {
    let mut in_c = String::from("QV");
    for letter in name.chars() {
        if letter.is_ascii_uppercase() {
            in_c.push('_');
        }
        in_c.push(letter.to_ascii_uppercase());
    }
    in_c
}

/// The lines `#define QV_NAME NUMBERu` from that of this name up to the next empty line.
fn defined(header: &str, first: &str) -> Vec<(String, u32)> {
    let first = format!("#define {} ", first);
    header
        .lines()
        .skip_while(|line| !line.starts_with(&first))
        .take_while(|line| !line.is_empty())
        .filter_map(|line| line.strip_prefix("#define "))
        .map(|line| {
            let mut words = line.split_whitespace();
            let (name, number) = (words.next().unwrap(), words.next().unwrap());
            let number = number.strip_suffix('u').and_then(|n| n.parse().ok());
            let number = number.unwrap_or_else(|| panic!("no number: {}", line));
            (String::from(name), number)
        })
        .collect()
}

#[test]
fn numbers_and_names_of_the_header() {
    let mut names = vec![(String::from("QV_OK"), 0)];
    names.extend(
        all()
            .iter()
            .map(|row| (name_in_c(&row.1), u32::from(row.0))),
    );
    assert_eq!(defined(&header(), "QV_OK"), names);
}

/// What `qv_refusal_text` has to answer, case by case.
fn texts() -> Vec<(String, String)> {
    let mut texts = vec![(String::from("0"), String::from("no refusal"))];
    texts.extend(all().into_iter().map(|row| (name_in_c(&row.1), row.2)));
    texts.push((String::from("default"), String::from("an unknown number")));
    texts
}

/// `qv_refusal_text`, to paste into the header.
fn text_function() -> String {
    let mut text = String::from(
        "static inline const char *qv_refusal_text(uint32_t number)\n{\n    switch (number) {\n",
    );
    for (label, words) in texts() {
        let case = if label == "default" { "" } else { "case " };
        let line = format!("    {}{}: return \"{}\";\n", case, label, words);
        if line.len() <= 100 {
            text += &line;
        } else {
            text += &format!("    {}{}:\n        return \"{}\";\n", case, label, words);
        }
    }
    text + "    }\n}\n"
}

/// The head of the function of the header that has the words of a refusal.
const REFUSALS: &str = "qv_refusal_text(uint32_t number)";

/// The cases of such a function of the header: label and text. None without that function.
fn cases(header: &str, head: &str) -> Option<Vec<(String, String)>> {
    let (_, after) = header.split_once(&format!("{}\n{{", head))?;
    let (body, _) = after.split_once("\n}")?;
    let parts: Vec<&str> = body.split("return").collect();
    let cases = parts.windows(2).map(|part| {
        // The last label before `return`, and the string after it, which may be in pieces.
        let label = part[0].trim_end().trim_end_matches(':');
        let label = label.rsplit(char::is_whitespace).next().unwrap();
        let words: String = part[1].split('"').skip(1).step_by(2).collect();
        let label = if label == "QV_OK" { "0" } else { label };
        (String::from(label), words)
    });
    Some(cases.collect())
}

#[test]
fn words_of_the_header() {
    let found = cases(&header(), REFUSALS);
    assert!(
        found == Some(texts()),
        "qv_refusal_text of include/quic_version.h has {:?}. It has to be:\n\n{}",
        found,
        text_function()
    );
}

/// What `cases` reads is what `text_function` writes, on one line or two.
#[test]
fn cases_are_read() {
    assert_eq!(cases("no such function", REFUSALS), None);
    let function = text_function();
    assert_eq!(cases(&function, REFUSALS), Some(texts()));
    let longer = function.replace(": return \"", ":\n        return \"\"\n \"");
    assert_eq!(cases(&longer, REFUSALS), Some(texts()));
    let wrong = function.replace("breaks its rule", "breaks the rule");
    assert_ne!(cases(&wrong, REFUSALS), Some(texts()));
}

/// An answer of a journal is shown as its number and what `qv_refusal_text` answers, whatever the
/// number.
#[test]
fn words_of_an_answer() {
    let found = cases(&header(), REFUSALS).unwrap();
    for number in 0..=u8::MAX {
        let known = all().into_iter().find(|row| row.0 == number);
        let label = match (number, known) {
            (0, _) => String::from("0"),
            (_, Some(row)) => name_in_c(&row.1),
            (_, None) => String::from("default"),
        };
        let words = found
            .iter()
            .find(|case| case.0 == label)
            .map(|case| &case.1);
        assert_eq!(
            Answer::from_number(number).to_string(),
            format!("{} {}", number, words.unwrap())
        );
    }
}

/// The parts of the safe rule in their order, with the version 0x0102: name in C and words.
fn parts() -> Vec<(String, String)> {
    let parts = [
        ConfigurationFault::AcceptedNotOffered,
        ConfigurationFault::OfferedNotAccepted,
        ConfigurationFault::OfferedNotReadable,
        ConfigurationFault::AvailableNotOffered,
        ConfigurationFault::OfferedNotAvailable,
    ];
    let shown = parts.map(|part| {
        let (name, text) = (format!("{:?}", part(0x0102)), part(0x0102).to_string());
        let name = name.strip_suffix("(0x00000102)").unwrap();
        let words = text.strip_suffix(": 0x00000102").unwrap();
        (name_in_c(name), String::from(words))
    });
    shown.to_vec()
}

#[test]
fn numbers_and_names_of_the_parts() {
    let mut names = vec![(String::from("QV_SAFE"), 0)];
    names.extend((1..).zip(parts()).map(|(number, part)| (part.0, number)));
    assert_eq!(defined(&header(), "QV_SAFE"), names);
}

#[test]
fn words_of_the_parts() {
    let safe = [(
        String::from("QV_SAFE"),
        String::from("the configuration is safe"),
    )];
    let unknown = [(String::from("default"), String::from("an unknown number"))];
    let texts = [&safe[..], &parts(), &unknown].concat();
    assert_eq!(cases(&header(), "qv_part_text(uint32_t part)"), Some(texts));
}
