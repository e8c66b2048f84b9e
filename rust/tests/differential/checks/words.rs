//! Lists as words, and the second way to choose.

use super::{check_number, number, plain, same, Compared, FOUND};
use crate::{model, random, raw};
use quic_version as library;

pub fn check_list_word(table: &[u32], list: &[u32]) -> Compared {
    let model = model::list_word(table, list);
    check_number(&model, &|word| raw::list_word(table, list, word))?;
    same("list_word", plain(library::list_word(table, list)), model)?;
    Ok(number(&model))
}

pub fn check_list_word_from_bytes(table: &[u32], bytes: &[u8]) -> Compared {
    let model = model::list_word(table, &model::list_on_the_wire(bytes));
    check_number(&model, &|word| {
        raw::list_word_from_bytes(table, bytes, word)
    })?;
    let answer = plain(library::list_word_from_bytes(table, bytes));
    same("list_word_from_bytes", answer, model)?;
    Ok(number(&model))
}

/// The library's two ways with each other: answer, and the version left.
fn check_both_ways(
    plain_way: &dyn Fn(&mut u32) -> u32,
    by_word: &dyn Fn(&mut u32) -> u32,
) -> Result<(), String> {
    for found in FOUND {
        let mut left = [found; 2];
        let answers = [plain_way(&mut left[0]), by_word(&mut left[1])];
        if answers[0] != answers[1] || left[0] != left[1] {
            return Err(format!(
                "the two ways\n    answers {:?}\n    left    {:?}",
                answers, left
            ));
        }
    }
    Ok(())
}

pub fn check_choose_by_word(table: &[u32], list: &[u32]) -> Compared {
    let model = model::choose_by_word(table, list);
    let by_word = |version: &mut u32| raw::choose_by_word(table, list, version);
    check_number(&model, &by_word)?;
    let answer = plain(library::choose_by_word(table, list));
    same("choose_by_word", answer, model)?;
    check_both_ways(&|version| raw::choose(table, list, version), &by_word)?;
    Ok(number(&model))
}

pub fn check_choose_by_word_from_bytes(table: &[u32], bytes: &[u8]) -> Compared {
    let model = model::choose_by_word(table, &model::list_on_the_wire(bytes));
    let by_word = |version: &mut u32| raw::choose_by_word_from_bytes(table, bytes, version);
    check_number(&model, &by_word)?;
    let answer = plain(library::choose_by_word_from_bytes(table, bytes));
    same("choose_by_word_from_bytes", answer, model)?;
    check_both_ways(
        &|version| raw::choose_from_bytes(table, bytes, version),
        &by_word,
    )?;
    Ok(number(&model))
}

pub fn check_choose_from_word(table: &[u32], word: u64) -> Compared {
    let model = model::choose_from_word(table, word);
    check_number(&model, &|version| {
        raw::choose_from_word(table, word, version)
    })?;
    let answer = plain(library::choose_from_word(table, word));
    same("choose_from_word", answer, model)?;
    Ok(number(&model))
}

pub fn check_count_held(table: &[u32], list: &[u32]) -> Compared {
    let model = model::count_held(table, list);
    check_number(&model, &|count| raw::count_held(table, list, count))?;
    same("count_held", plain(library::count_held(table, list)), model)?;
    Ok(number(&model))
}

pub fn check_count_held_from_bytes(table: &[u32], bytes: &[u8]) -> Compared {
    let model = model::count_held(table, &model::list_on_the_wire(bytes));
    check_number(&model, &|count| {
        raw::count_held_from_bytes(table, bytes, count)
    })?;
    let answer = plain(library::count_held_from_bytes(table, bytes));
    same("count_held_from_bytes", answer, model)?;
    Ok(number(&model))
}

/// Two lists and the one that they make together: the words joined are its word, the choice from
/// them is the choice from it, and their ones are its count. The second list goes as bytes.
pub fn check_joined(table: &[u32], one: &[u32], other: &[u32]) -> Compared {
    let joined = [one, other].concat();
    let answer = check_choose_by_word(table, &joined)?;
    check_list_word(table, &joined)?;
    check_count_held(table, &joined)?;
    let words = (
        library::list_word(table, one),
        library::list_word_from_bytes(table, &random::in_fours(other)),
    );
    let word = match words {
        (Ok(one), Ok(other)) => one | other,
        // What each list alone is refused with is compared elsewhere.
        _ => return Ok(answer),
    };
    check_choose_from_word(table, word)?;
    if joined.len() <= model::MAX_LIST {
        let choice = plain(library::choose_from_word(table, word));
        let ones = word.count_ones() as usize;
        same("joined words", Ok(word), model::list_word(table, &joined))?;
        same("their choice", choice, model::choose(table, &joined))?;
        same("their ones", Ok(ones), model::count_held(table, &joined))?;
    }
    Ok(answer)
}
