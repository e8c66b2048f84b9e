//! Rows of lists as words: the plain way to choose and the way by the word, one after the other,
//! then the word itself, the count, and the choice from the word. With a full table and the longest
//! list, and with small ones; each list as numbers and as bytes.

use crate::measure::{calls, grouped, opaque, same, Table};
use crate::packet::in_fours;
use crate::plain;
use quic_version::{
    choose, choose_by_word, choose_by_word_from_bytes, choose_from_bytes, choose_from_word,
    count_held, count_held_from_bytes, list_word, list_word_from_bytes, MAX_LIST, MAX_TABLE,
};

/// A table and a list, with the word that it has to have.
struct Case {
    held: &'static str,
    table: Vec<u32>,
    list: Vec<u32>,
    word: u64,
}

impl Case {
    /// What is called with what: `list` is the text for the list's size.
    fn name(&self, call: &str, list: &str) -> String {
        let entries = self.table.len();
        format!("{}{}, table of {}, {}", call, list, entries, self.held)
    }

    fn choice(&self) -> Result<u32, u8> {
        let place = self.word.trailing_zeros() as usize;
        self.table.get(place).copied().ok_or(42)
    }

    fn count(&self) -> Result<usize, u8> {
        Ok(self.word.count_ones() as usize)
    }
}

/// The match, if there is one, is the last entry of the longest list.
fn cases() -> Vec<Case> {
    let full: Vec<u32> = (100..).take(MAX_TABLE).collect();
    let longest = |held, last, word| Case {
        held,
        table: full.clone(),
        list: [vec![99; MAX_LIST - 1], vec![last]].concat(),
        word,
    };
    vec![
        longest("first held", full[0], 1),
        longest("last held", full[MAX_TABLE - 1], 1 << (MAX_TABLE - 1)),
        longest("none held", 99, 0),
        Case {
            held: "first and last held",
            table: vec![14, 12, 10],
            list: vec![10, 13, 14],
            word: 0b101,
        },
    ]
}

/// One row: a call of the library and the plain one of the same name, with the answer that is due.
macro_rules! row {
    ($table:ident, $name:expr, $call:ident($($input:expr),*), $due:expr) => {
        let answer = same($call($($input),*), plain::$call($($input),*));
        assert_eq!(answer, $due);
        $table.row(
            &$name,
            calls!($call($(opaque($input)),*)),
            calls!(plain::$call($(opaque($input)),*)),
        );
    };
}

pub fn rows(table: &mut Table) {
    for case in cases() {
        numbers(table, &case);
        bytes(table, &case);
        let (versions, word) = (&case.table[..], case.word);
        let name = case.name("choice from a word", "");
        row!(table, name, choose_from_word(versions, word), case.choice());
    }
}

fn numbers(table: &mut Table, case: &Case) {
    let (versions, list) = (&case.table[..], &case.list[..]);
    let name = |call| case.name(call, &format!(", {} entries", grouped(list.len())));
    let plainly = name("choice, plain way");
    row!(table, plainly, choose(versions, list), case.choice());
    let by_word = name("choice by word");
    row!(
        table,
        by_word,
        choose_by_word(versions, list),
        case.choice()
    );
    let word = name("list as a word");
    row!(table, word, list_word(versions, list), Ok(case.word));
    let count = name("count held");
    row!(table, count, count_held(versions, list), case.count());
}

fn bytes(table: &mut Table, case: &Case) {
    let (versions, bytes) = (&case.table[..], &in_fours(&case.list)[..]);
    let name = |call| case.name(call, &format!(", {} bytes", grouped(bytes.len())));
    let plainly = name("choice, plain way");
    row!(
        table,
        plainly,
        choose_from_bytes(versions, bytes),
        case.choice()
    );
    let by_word = name("choice by word");
    row!(
        table,
        by_word,
        choose_by_word_from_bytes(versions, bytes),
        case.choice()
    );
    let word = name("list as a word");
    row!(
        table,
        word,
        list_word_from_bytes(versions, bytes),
        Ok(case.word)
    );
    let count = name("count held");
    row!(
        table,
        count,
        count_held_from_bytes(versions, bytes),
        case.count()
    );
}
